#!/bin/sh
# told.sh PROGRAM explain|picture FILE: what `judge --explain FILE` or `judge --picture FILE` prints, with a program explain that is built already
# (target/bin/explain) in the place of judge's own.
set -eu
root=$(CDPATH='' cd -- "$(dirname -- "$0")/.." && pwd -P)
facts=$("$1" <"$3")
{ printf '%s\n' "$facts" && cat -- "$3"; } | LC_ALL=C awk -f "$root/show/$2.awk"
