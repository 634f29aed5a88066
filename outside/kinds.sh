#!/bin/sh
# kinds.sh [PROGRAM [SOURCE]]: holds the constant table of kinds, as it stands in the source, by the values of its codes and by their names, the grid
# of docs/KINDS.md and what PROGRAM (the built program `kinds`) prints to what `kinds` of this directory works out from the rules by brute force.
# Without PROGRAM, or with `-`, the recorded output of the program, crates/kinds/stdout, stands for what it prints.
here="$(CDPATH= cd -- "$(dirname -- "$0")" && pwd)"
root="$(CDPATH= cd -- "$here/.." && pwd)"
program="${1:--}"
source="${2:-$root/crates/kind_table/src/lib.rt}"
"$here/build.sh" kinds || exit 1
[ "$(readlink -f -- "$program")" != "$here/target/kinds" ] || { echo "kinds: PROGRAM is the brute force itself"; exit 2; }
made="$here/target/kind-table"
mkdir -p "$made"
"$here/target/kinds" > "$made/rules" || { echo "kinds: the rules give no table"; exit 1; }
failed=0
same() { # WHAT FILE
    if ! diff "$made/rules" "$2" > "$made/differs"; then
        echo "kinds: $1 (>) is not what the rules give (<):"
        head -12 "$made/differs"
        failed=1
    fi
}
for way in names values; do
    "$here/kind-lines.sh" $way "$source" > "$made/$way" || failed=1
    same "$source, read by its $way" "$made/$way"
done
"$here/kind-lines.sh" page > "$made/page" || failed=1
same "docs/KINDS.md" "$made/page"
if [ "$program" = - ]; then
    same "the recorded output" "$root/crates/kinds/stdout"
    printed="the recorded output"
else
    "$program" > "$made/printed" || { echo "kinds: $program failed"; failed=1; }
    same "what $program prints" "$made/printed"
    printed="what $program prints"
fi
[ $failed = 1 ] || echo "kinds: $source, by its names and by its values, the grid of docs/KINDS.md and $printed are what the rules give"
exit $failed
