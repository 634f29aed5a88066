#!/bin/sh
# spread-vectors.sh CRATE FOLDER: takes apart what data.sh puts together: the vectors of the crate inspect as
# FOLDER/{reader,unfoldings,edges,reports}/NAME.txt with NAME.out, which `check` runs a program on. Those of reports are copies of
# examples/ and vectors/verdict; what --areas prints of them is no vector.
set -e
crate="${1:?usage: spread-vectors.sh CRATE FOLDER}"
folder="${2:?usage: spread-vectors.sh CRATE FOLDER}"
rm -rf "$folder"
mkdir -p "$folder/reader" "$folder/unfoldings" "$folder/edges" "$folder/reports"
# the outputs: each begins after a line with the name of its file, and the names come in the order of `args`
awk -v folder="$folder" '
    BEGIN { of["read"] = "reader"; of["unfold"] = "unfoldings"; of["edges"] = "edges"; of["report"] = "reports" }
    function place(file) { word = file; sub(/-.*/, "", word); sub(/^[a-z]*-/, "", file); return folder "/" of[word] "/" file }
    NR == FNR && $0 == "--areas" { areas = 1 }
    NR == FNR { if ($0 !~ /^--/ && !areas) name[++names] = $0; else if ($0 !~ /^--/ && stop == "") stop = $0; next }
    done == names && $0 == stop { exit }
    $0 == name[done + 1] { if (done) close(out); done++; out = place($0); sub(/\.txt$/, ".out", out); printf "" > out; next }
    { print > out }
' "$crate/args" "$crate/stdout"
for pair in read:reader unfold:unfoldings edges:edges report:reports; do
    for text in "$crate/data/${pair%%:*}"-*; do
        [ ! -e "$text" ] || cp "$text" "$folder/${pair#*:}/${text#"$crate/data/${pair%%:*}-"}"
    done
done
