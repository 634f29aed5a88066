#!/bin/sh
# build.sh NAME..: proves and builds programs and archives. A program NAME (verdict, explain, inspect, kinds, parts) comes to target/bin/NAME; for exports or
# exports_lent, the archive of crate NAME_c, with the C symbols of crate NAME, comes to target/staticlib/libNAME.a.
set -eu
root=$(CDPATH='' cd -- "$(dirname -- "$0")/.." && pwd)
[ $# -gt 0 ] || { sed -n 2,3p "$0" >&2; exit 2; }
for name in "$@"; do
    if [ -f "$root/crates/${name}_c/src/lib.rt" ]; then
        (CDPATH='' cd -- "$root/crates/${name}_c" && rt lib)
        mkdir -p "$root/target/staticlib"
        cp "$root/crates/${name}_c/out/lib${name}_c.a" "$root/target/staticlib/lib$name.a"
    elif [ -f "$root/crates/$name/src/main.rt" ]; then
        (CDPATH='' cd -- "$root/crates/$name" && rt run </dev/null >/dev/null)
        mkdir -p "$root/target/bin"
        cp "$root/crates/$name/out/$name" "$root/target/bin/$name"
    else
        echo "build: $name is neither a program nor one of the libraries with exports" >&2
        exit 2
    fi
done
