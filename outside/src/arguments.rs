//! The programs' command lines.

/// The words without `--locks`, and whether it stood among them.
pub fn words_and_locks() -> (Vec<String>, bool) {
    let mut words: Vec<String> = std::env::args().collect();
    let locks = words.iter().any(|word| word == "--locks");
    words.retain(|word| word != "--locks");
    (words, locks)
}
