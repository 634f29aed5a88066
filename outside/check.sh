#!/bin/sh
# check.sh PROGRAM [UNFOLDINGS EDGES [FACTS]]: runs a verdict program over all examples and over the vectors of verdict, whose reports are compared
# byte by byte, and of reader; programs that print listings, as `outside unfoldings` and `outside edges` do, over the other vectors; and one that
# prints facts, as `outside facts` does, over all examples and vectors. All folders are run.
# The vectors of reader, unfoldings and edges live in crates/inspect, where the gate runs them; here they are spread into folders.
# The copies that the gate runs must agree with their homes (data.sh).
here="$(CDPATH= cd -- "$(dirname -- "$0")" && pwd)"
root="$(CDPATH= cd -- "$here/.." && pwd)"
check="$here/target/check"
[ -x "$check" ] || "$here/build.sh" || exit 1
program="${1:-$here/target/outside report}"
vectors="$here/target/vectors"
"$here/spread-vectors.sh" "$root/crates/inspect" "$vectors" || exit 1
failed=0
"$check" report "$program" "$root/examples" || failed=1
"$check" report "$program" "$root/vectors/verdict" || failed=1
"$check" reader "$program" "$vectors/reader" || failed=1
[ -z "$2" ] || "$check" same "$2" "$vectors/unfoldings" || failed=1
[ -z "$3" ] || "$check" same "$3" "$vectors/edges" || failed=1
for folder in "$root/examples" "$root/vectors/verdict" "$vectors/reader" "$vectors/unfoldings" "$vectors/edges"; do
    [ -z "$4" ] || "$check" facts "$4" "$folder" || failed=1
done
"$here/data.sh" --check || failed=1
exit $failed
