//! The proved code's exports, linked in by `RATTLE_LIB=path/libexports_lent.a outside/build.sh` (programs `bench` and `records`). Each is one
//! call on the bytes of a text, in words that the caller lends. Results are those of `stages.rs`: one number, with bit 31 for a refusal.

use outside::edges::Edge;
use outside::stages::Desk;

// A slice passes as pointer and length, an array behind a reference as its pointer alone: its length is part of its type.
extern "C" {
    fn lent_read(text: *const u8, length: usize, state: *mut u64, lines: *mut u64) -> u32;
    fn lent_unfold(text: *const u8, length: usize, state: *mut u64, lines: *mut u64, area: *mut u64, room: usize) -> u32;
    fn lent_edges(
        text: *const u8, length: usize, state: *mut u64, lines: *mut u64, places: *mut u64, rows: *mut u64, area: *mut Edge, room: usize,
    ) -> u32;
    fn lent_verdict(
        text: *const u8, length: usize, state: *mut u64, lines: *mut u64, places: *mut u64, rows: *mut u64, work: *mut u64,
        forwards: *mut u64, backs: *mut u64, walk: *mut u64, room: usize,
    ) -> u32;
}

// Safe: each array of `Words` is as long as the exports say, and no two of them overlap.

#[allow(dead_code)]
pub fn read(text: &[u8], desk: &mut Desk, _: &mut [Edge]) -> u32 {
    let words = &mut desk.words;
    unsafe { lent_read(text.as_ptr(), text.len(), words.state.as_mut_ptr(), words.lines.as_mut_ptr()) }
}

#[allow(dead_code)]
pub fn unfold(text: &[u8], desk: &mut Desk, _: &mut [Edge]) -> u32 {
    let words = &mut desk.words;
    let (state, lines, area) = (words.state.as_mut_ptr(), words.lines.as_mut_ptr(), words.places.as_mut_ptr());
    unsafe { lent_unfold(text.as_ptr(), text.len(), state, lines, area, words.places.len()) }
}

/// How many edges were put into the area, all or none.
pub fn edges(text: &[u8], desk: &mut Desk, area: &mut [Edge]) -> u32 {
    let words = &mut desk.words;
    let (state, lines) = (words.state.as_mut_ptr(), words.lines.as_mut_ptr());
    let (places, rows) = (words.places.as_mut_ptr(), words.rows.as_mut_ptr());
    unsafe { lent_edges(text.as_ptr(), text.len(), state, lines, places, rows, area.as_mut_ptr(), area.len()) }
}

#[allow(dead_code)]
pub fn verdict(text: &[u8], desk: &mut Desk, _: &mut [Edge]) -> u32 {
    let words = &mut desk.words;
    let (state, lines) = (words.state.as_mut_ptr(), words.lines.as_mut_ptr());
    let (places, rows, work) = (words.places.as_mut_ptr(), words.rows.as_mut_ptr(), words.work.as_mut_ptr());
    let (forwards, backs, walk) = (words.forwards.as_mut_ptr(), words.backs.as_mut_ptr(), words.walk.as_mut_ptr());
    unsafe { lent_verdict(text.as_ptr(), text.len(), state, lines, places, rows, work, forwards, backs, walk, words.walk.len()) }
}
