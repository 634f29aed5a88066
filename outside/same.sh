#!/bin/sh
# same.sh PROGRAM OTHER [SEED [COUNT [--locks]]]: whether texts give the reports they gave: runs two verdict programs, as the release before and this
# one, on every example and vector and on COUNT (20,000) generated texts, and compares their reports byte by byte. Without --locks, texts with kl are
# left out, which a program from before Req 03 does not know. Prints how many texts there were, of which outcome, and checksums of texts and reports.
here="$(CDPATH= cd -- "$(dirname -- "$0")" && pwd)"
root="$(CDPATH= cd -- "$here/.." && pwd)"
program="${1:?usage: same.sh PROGRAM OTHER [SEED [COUNT [--locks]]]}"
other="${2:?usage: same.sh PROGRAM OTHER [SEED [COUNT [--locks]]]}"
seed="${3:-1}"
count="${4:-20000}"
locks="$5"
[ -x "$here/target/reports" ] || "$here/build.sh" reports || exit 1
made="$here/target/same"
mkdir -p "$made"
data="$root/crates/inspect/data"
stock="$(ls "$root"/examples/*.txt "$root"/vectors/verdict/*.txt "$data"/read-*.txt "$data"/unfold-*.txt "$data"/edges-*.txt | LC_ALL=C sort)"
"$here/target/reports" - "$seed" "$count" $stock $locks > "$made/texts" 2> "$made/counted" || { cat "$made/counted"; exit 1; }
"$here/target/reports" "$program" "$seed" "$count" $stock $locks > "$made/one" 2> "$made/one-counted" || { cat "$made/one-counted"; exit 1; }
"$here/target/reports" "$other" "$seed" "$count" $stock $locks > "$made/two" 2> "$made/two-counted" || { cat "$made/two-counted"; exit 1; }
cat "$made/one-counted"
echo "texts   $(sha256sum < "$made/texts" | cut -d' ' -f1), $(wc -c < "$made/texts") bytes"
echo "reports $(sha256sum < "$made/one" | cut -d' ' -f1), $(wc -c < "$made/one") bytes, by $program"
echo "reports $(sha256sum < "$made/two" | cut -d' ' -f1), $(wc -c < "$made/two") bytes, by $other"
if cmp -s "$made/one" "$made/two"; then
    echo "the same, byte by byte"
else
    cmp "$made/one" "$made/two"
    echo "DIFFERENT"
    exit 1
fi
