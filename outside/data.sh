#!/bin/sh
# data.sh --check | --copy [VECTORS] | --reports: the texts and outputs that the gate runs, which must stand in the crates of its programs. One
# policy for all: examples/ and vectors/verdict are the home of their texts and outputs, crates/inspect that of the vectors of reader, unfoldings and
# edges, and everything else is a copy that `--copy` makes and that `--check` holds to its home.
#   crates/inspect/{data,args,stdout}     copies of examples/ and vectors/verdict under --report; for --areas what `outside areas` says; at the end
#                                         the reports of standard input, answered twice
#   crates/inspect/stdin                  an example with danger; nothing of it is left for the second answer, that of an empty text
#   crates/verdict/{stdin,stdout}         an example that is robust
#   crates/explain/{stdin,stdout}         the longest walk: 16 programs, 64 nodes, blocks in blocks, 65 steps, a pair across the end; what should be
#                                         printed of it is what `outside facts` says
#   crates/parts/{data,args,stdout}       copies of examples/: all groups of the programs of SmallBank and of Auction, each with the text that is
#                                         named by these programs; then some pairs that do not agree. What it should print is said here
# VECTORS is a folder that spread-vectors.sh made, with vectors added to it or changed. No output of the proved program goes in here.
# `--reports` makes the outputs in examples/ and vectors/verdict anew, whole reports as `outside report` prints them; first two lines that stand there
# already must stay, since people wrote them or looked at them: an output whose first two lines would change is named and left.
set -e
here="$(CDPATH= cd -- "$(dirname -- "$0")" && pwd)"
root="$(CDPATH= cd -- "$here/.." && pwd)"
case "${1:-}" in --check | --copy | --reports) ;; *) echo "usage: data.sh --check | --copy [VECTORS] | --reports" >&2; exit 2 ;; esac
[ -x "$here/target/outside" ] || "$here/build.sh" outside
made="$here/target/data"
failed=0

if [ "$1" = --reports ]; then
    for text in "$root"/examples/*.txt "$root"/vectors/verdict/*.txt; do
        out="${text%.txt}.out"
        "$here/target/outside" report < "$text" > "$here/target/reported"
        if [ -e "$out" ] && [ "$(head -n 2 "$out")" != "$(head -n 2 "$here/target/reported")" ]; then
            echo "$out begins otherwise than what \`outside report\` says"
            failed=1
        else
            cp "$here/target/reported" "$out"
        fi
    done
    exit $failed
fi

vectors="${2:-$here/target/vectors}"
[ -n "${2:-}" ] || "$here/spread-vectors.sh" "$root/crates/inspect" "$vectors"
robust=contact-robust
danger=station-predicate-twice
worked=contact
empty=station-empty
areas="base linked unlinked loop predicate-twice names-alone 65-unfoldings empty"

rm -rf "$made"
mkdir -p "$made/inspect/data" "$made/verdict" "$made/explain" "$made/parts/data"
: > "$made/inspect/args"
: > "$made/inspect/stdout"
: > "$made/parts/args"
: > "$made/parts/stdout"

# the next text that inspect is run on, whose file stands in data/ already; what it should print of it comes from standard input
next() { # FILE
    echo "$1" >> "$made/inspect/args"
    echo "$1" >> "$made/inspect/stdout"
    cat >> "$made/inspect/stdout"
}

# the texts of a folder, with the outputs beside them
gather() { # WORD FOLDER
    for text in $(ls "$2" | LC_ALL=C sort | grep '\.txt$'); do
        cp "$2/$text" "$made/inspect/data/$1-$text"
        next "$1-$text" < "$2/${text%.txt}.out"
    done
}

for pair in read:reader unfold:unfoldings edges:edges; do
    echo "--${pair%%:*}" >> "$made/inspect/args"
    gather "${pair%%:*}" "$vectors/${pair#*:}"
done
echo "--report" >> "$made/inspect/args"
gather report "$root/examples"
gather report "$root/vectors/verdict"
echo "--areas" >> "$made/inspect/args"
for name in $areas; do
    "$here/target/outside" areas < "$root/examples/station-$name.txt" > "$made/areas"
    next "report-station-$name.txt" < "$made/areas"
done
cp "$root/examples/$robust.txt" "$made/verdict/stdin"
cp "$root/examples/$robust.out" "$made/verdict/stdout"
printf '%s\n' --input --input >> "$made/inspect/args"
cp "$root/examples/$danger.txt" "$made/inspect/stdin"
cat "$root/examples/$danger.out" "$root/examples/$empty.out" >> "$made/inspect/stdout"
cp "$root/examples/longest-walk-back.txt" "$made/explain/stdin"
"$here/target/outside" facts < "$root/examples/longest-walk-back.txt" > "$made/explain/stdout"

# the next two words that parts is run on, the second the name of an example, and what it should say of them
ask() { # WORD EXAMPLE ANSWER
    printf '%s\n' "$1" "$2" >> "$made/parts/args"
    echo "$1 $2$3" >> "$made/parts/stdout"
    cp "$root/examples/$2" "$made/parts/data/$2"
}

# an example as the whole; every group of its programs, whose words stand in the order of their numbers, makes the example that is named by them
whole() { # NAME PROGRAM...
    name="$1"
    shift
    ask --of "$name.txt" ""
    for near in "a loop after the last line" "a relation in the cell after the last line" "more lines than cells"; do
        echo "$near: 21 same" >> "$made/parts/stdout"
    done
    last=$(((1 << $#) - 1))
    group=0
    while [ "$group" -le "$last" ]; do
        part="$name"
        bit=0
        for program in "$@"; do
            [ $((group >> bit & 1)) = 0 ] || part="$part-$program"
            bit=$((bit + 1))
        done
        [ "$group" != 0 ] || part="$name-none"
        [ "$group" != "$last" ] || part="$name"
        ask "$group" "$part.txt" " same"
        group=$((group + 1))
    done
}

ask 0 smallbank-none.txt " refused 21"
whole smallbank am bal dc ts wc
ask 32 smallbank-none.txt " same"
ask 65535 smallbank.txt " same"
ask 2 smallbank-am.txt " differs"
ask 30 smallbank.txt " differs"
ask 31 station-empty.txt " refused 2"
ask 65536 smallbank.txt " no group"
ask 1f smallbank.txt " no group"
whole auction fb pb
ask --of station-empty.txt " refused 2"
ask 0 auction-none.txt " refused 21"

copies="inspect/args inspect/stdin inspect/stdout inspect/data verdict/stdin verdict/stdout"
copies="$copies explain/stdin explain/stdout parts/args parts/stdout parts/data"
for file in $copies; do
    if [ "$1" = --copy ]; then
        rm -rf "$root/crates/$file"
        cp -R "$made/$file" "$root/crates/$file"
    elif ! diff -r "$made/$file" "$root/crates/$file" > "$here/target/differs"; then
        echo "crates/$file is not what data.sh --copy makes:"
        head -5 "$here/target/differs"
        failed=1
    fi
done
exit $failed
