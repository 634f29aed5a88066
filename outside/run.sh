#!/bin/sh
# run.sh PROGRAM [SEED [INSPECT]]: everything but the timings, some five minutes (with RATTLE_LIB also the exports, by `records`): builds, checks
# this implementation against itself, its shield against the one before Req 02, its first walks against the definition, its facts against the other
# listings and the graphs of parts against those of their wholes, then the program on all examples and vectors and on 40,000 generated texts, every
# report, edge record and unfolding of 4,000 of them by the program inspect (beside PROGRAM unless named) and all facts of 4,000 by the program
# explain beside PROGRAM, then brute force against demand 3; texts that arrive in pieces and inputs and outputs that fail; the script judge, with a
# stand-in for rt; and every example on the pages that people read. Half of the texts and workloads are drawn without kl, as before Req 03, the
# other half with it. The table of kinds is held to the rules as it stands in the source, whatever PROGRAM was built from, and as the program kinds
# beside PROGRAM prints it, or its recorded output where there is none. The program parts beside PROGRAM is asked which texts are parts of which.
here="$(CDPATH= cd -- "$(dirname -- "$0")" && pwd)"
program="${1:?usage: run.sh PROGRAM [SEED [INSPECT]]}"
seed="${2:-1}"
inspect="${3:-$(dirname "$program")/inspect}"
unfoldings="$here/listing.sh $inspect unfold"
edges="$here/listing.sh $inspect edges"
reports="$here/listing.sh $inspect report"
"$here/build.sh" || exit 1
failed=0
explain="$(dirname "$program")/explain"
[ -x "$explain" ] || { echo "facts: there is no $explain to ask"; explain=""; }
"$here/check.sh" "$program" "$unfoldings" "$edges" "$explain" || failed=1
kinds="$(dirname "$program")/kinds"
[ -x "$kinds" ] || kinds=-
"$here/kinds.sh" "$kinds" || failed=1
parts="$(dirname "$program")/parts"
[ -x "$parts" ] || echo "parts: there is no $parts to ask"
for locks in "" --locks; do
    "$here/target/selfcheck" "$seed" 5000 "$here/../examples/tpcc.txt" $locks || failed=1
    "$here/target/shields" "$seed" 3000 $locks || failed=1
    "$here/target/walks" "$seed" 1000 "$here"/../examples/*.txt "$here"/../vectors/verdict/*.txt $locks || failed=1
    "$here/target/parts" "$seed" 3000 "$here"/../examples/*.txt "$here"/../vectors/verdict/*.txt $locks || failed=1
    "$here/target/facts" "$seed" 3000 "$here"/../examples/*.txt "$here"/../crates/inspect/data/*.txt $locks || failed=1
    [ ! -x "$parts" ] || "$here/target/parts" --against "$parts" "$seed" 300 $locks || failed=1
    "$here/target/compare" "$program" "$seed" 20000 $locks || failed=1
    "$here/target/compare" "$reports" "$seed" 2000 $locks || failed=1
    "$here/target/compare" "$edges" "$seed" 2000 edges $locks || failed=1
    "$here/target/compare" "$unfoldings" "$seed" 2000 unfoldings $locks || failed=1
    [ -z "$explain" ] || "$here/target/compare" "$explain" "$seed" 2000 facts $locks || failed=1
    "$here/target/brute" "$seed" 3000 $locks || failed=1
    "$here/target/brute" "$seed" 2000 --late $locks || failed=1
    "$here/target/brute" "$seed" 1000 --loosened $locks || failed=1
    [ -z "${RATTLE_LIB:-}" ] || "$here/target/records" "$seed" 300 $locks || failed=1
done
"$here/target/brute" "$seed" 500 --weakened || failed=1
texts="$here/../examples"
data="$here/../crates/inspect/data"
"$here/target/pieces" "$program" "$texts/contact.txt" "$texts/contact-robust.txt" "$texts/tpcc.txt" "$texts/station-empty.txt" \
    "$texts/station-predicate-twice.txt" "$texts/station-17-programs.txt" \
    "$data/read-bytes-32768.txt" "$data/read-bytes-32769.txt" "$data/read-bytes-70000.txt" || failed=1
"$here/judge-test.sh" || failed=1
if [ -n "$explain" ]; then
    "$here/pages.sh" "$program" "$here/told.sh $explain explain" "$here/told.sh $explain picture" || failed=1
fi
[ $failed = 0 ] && echo "all passed" || echo "SOMETHING FAILED, see above"
exit $failed
