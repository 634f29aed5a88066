#!/bin/sh
# build.sh [PROGRAM ...]: builds the independent implementation and its programs with rustc alone, into outside/target.
# RATTLE_LIB=path/libexports_lent.a links the proved code's exports into `bench` and `records` (see src/rattle.rs).
set -e
rattle=""
for library in $RATTLE_LIB; do
    rattle="$rattle -C link-arg=$(realpath "$library")"
done
[ -z "$rattle" ] || rattle="--cfg rattle$rattle"
CDPATH= cd -- "$(dirname -- "$0")"
mkdir -p target
flags="--edition 2021 -C opt-level=3"
rustc $flags --crate-type rlib --crate-name outside src/lib.rs -o target/liboutside.rlib
for program in ${*:-$(ls src/bin | sed 's/\.rs$//')}; do
    extra=""
    case "$program" in bench | records) extra="$rattle" ;; esac
    rustc $flags --check-cfg 'cfg(rattle)' $extra --extern outside=target/liboutside.rlib "src/bin/$program.rs" -o "target/$program"
done
