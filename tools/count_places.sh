#!/bin/sh
# Counts in the sources the places that docs/DESIGN-PASS.md speaks of, point by point; with `-v` it lists them. From the repository's root.
show() { # NUMBER TITLE, the places on standard input, one to a line
    if [ "$verbose" = 1 ]; then
        sed "s/^/$1  /"
    else
        printf '%s  %4d  %s\n' "$1" "$(wc -l)" "$2"
    fi
}
verbose=0
[ "$1" = -v ] && verbose=1
sources=$(find crates -path '*/out' -prune -o -path '*/src/*.rt' -print | sort)
grep -nE '^ *(pub )?enum ' $sources | show 1a "enums of our own, to be looked through"
grep -nE '^ +(pub )?(found|there|refusal|number|ends|dangerous|back|linked|last): (bool|u8|u64|isize),$' $sources | show 1b "fields that are a flag or a code beside a value"
grep -nE '^(pub )?const [A-Z_]+: u8' $sources | show 1c "constants that are codes"
grep -nE '(-> u8$|-> u8 \{)' $sources | show 1d "functions that answer a byte: a code, or a byte"
grep -nE '//.*(0 (where|for|past)|or 0|else 0|(10|16|64|1024) where|or 1024|[^n]or 64|it (has none|is none)|there is none,)' $sources |
    show 1e "comments that tell a number for none"
grep -oE '^ *(pub )?fn [a-z_0-9]+' $sources | sed 's/.*fn //' | sort | uniq -d | show 2a "names that two functions have"
grep -oE '^ *(pub )?struct [A-Za-z_0-9]+' $sources | sed 's/.*struct //' | sort | uniq -d | show 2b "names that two structs have"
grep -nE '^ *(.[a-z]+: )?(while|loop)\b' $sources | show 3 "while and loop"
grep -nE 'fn (same_[a-z]+|[a-z]+_number|kind_of|kind_bit|code_by|flow_[a-z]+|digit_[a-z]+|word_of|print[a-z_]*|put_decimal|put_number|wide|one_if|mix[a-z_]*)\(' \
    $sources | show 4a "equality, conversion and printing by hand, by name"
grep -nE 'derive\(Clone, Copy\)' $sources | show 4b "derives of Clone and Copy alone"
grep -hoE '\([^()]*(≤|<|≡) [^()]*\)' $sources | sed 's/ *$//' | grep -E '(now|old|[a-z]) ' | sort | uniq -c | awk '$1 > 2' | show 5a "facts in brackets that three contracts have"
awk '/fn [a-z_0-9]+.*\($/ { n = 0; at = FILENAME ":" FNR ": " $0; inside = 1; next } inside && /^\)|^ +\)/ { if (n > 5) print at; inside = 0 } inside { n++ }' \
    $sources | show 5b "functions with more than five parameters"
grep -nE '^ +(pub )?(count|length|words): (usize|u64),$' $sources | show 6a "lengths beside a buffer, to be looked through"
grep -nE '(programs|starts|lengths): &' $sources | show 6b "parallel arrays passed on"
grep -nE ': bool,?$|, [a-z]+: bool' $sources | show 7 "switches passed on as a parameter, and flags"
find crates -path '*/out' -prune -o -path '*/proofs/*/Answers.antt' -print | show 8a "files of answers"
find crates -path '*/out' -prune -o -path '*/proofs/*' -name '*.antt' -exec awk 'length($0) > 150 { print FILENAME ":" FNR }' {} + | show 8b "lines over 150 in proofs"
grep -rnE --exclude-dir=out 'let c[0-9] = c in' crates --include=Answers.antt | show 8c "names that the converter made"
