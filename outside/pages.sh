#!/bin/sh
# pages.sh [PROGRAM [EXPLAIN [PICTURE]]]: runs every example on the pages that people read and compares, and looks where their links lead. PROGRAM
# reads a text on standard input and prints its report (target/bin/verdict of the repository where none is named). EXPLAIN and PICTURE are commands
# that take a file as their last word and are run in the repository's folder (./judge --explain and ./judge --picture); they are asked only where a
# page has such an example, and PICTURE of the texts in docs/pictures. Each page's examples are counted. Ends with status 1 where something differs,
# and names the page and the line.
#
# An example is a fenced block; the first word after the fence says what it holds, and other words may follow. FILE is relative to the page.
#   workload           a text, each line ended; no line at all: the empty text. Unless it is a file's, one of those below must follow it.
#            crlf      its lines end with CR LF, as some editors write them
#            cut       its last line end is missing
#            bom       a byte order mark stands before its first line
#            tab       each arrow (→) stands for a tab
#            numbered  each line begins with its number and two spaces, which are not of the text; the tables below it (see there) go over it
#            short     `...` stands for the lines between its neighbours, which differ in a number that counts up; `... N times`: the line
#                      before it stands N times
#            file=FILE the text is the one of that file, byte for byte
#   report             exactly what PROGRAM prints for the text before it; with file=FILE, for that file
#   explain, picture   exactly what the command prints, for the text before it or for file=FILE
# A block may also be plain, sql, sh, text or dot, which nobody runs; any other word is a mistake.
#
# A table whose first cells are `where`, `line` and `report` goes over the last numbered text, and each row is an example. Where: `for N`, the line
# stands for line N; `after N`, it is put in after line N; `without N`, line N, which it shows, is taken out. The report is the second line of what
# PROGRAM prints. Where the column `right` holds one line in code and nothing else, the text with that line in the row's place must not be refused.
set -u
here=$(CDPATH='' cd -- "$(dirname -- "$0")" && pwd -P)
root=$(CDPATH='' cd -- "$here/.." && pwd -P)
program=${1:-$root/target/bin/verdict}
explain=${2:-./judge --explain}
picture=${3:-./judge --picture}
made=$(mktemp -d)
trap 'rm -rf "$made"' EXIT
failed=0

# what a command of one or several words prints of a file, called in the repository's folder
asked() { # COMMAND FILE
    # shellcheck disable=SC2086
    (CDPATH='' cd -- "$root" && $1 "$2" </dev/null)
}

# what the program prints of a text
reported() { # PATH
    # shellcheck disable=SC2086
    $program <"$1"
}

# runs one example; what it printed is in the file got
run() { # KIND FILE PATH
    case $1 in
    report | row | right) reported "$3" ;;
    explain) asked "$explain" "$2" ;;
    picture) asked "$picture" "$2" ;;
    same) cat -- "$3" ;;
    esac >"$made/got" || echo "the command failed" >>"$made/got"
}

# whether what was printed is what the page says
agrees() { # NUMBER KIND
    if [ "$2" = right ]; then
        sed -n 1p "$made/got" | grep -q '^verdict '
    else
        cmp -s "$made/$1.want" "$made/got"
    fi
}

# runs the examples of a page up to the first that differs, and counts them
run_page() { # PAGE
    rm -f "$made"/*
    awk -v made="$made" -v page="$1" -f "$here/pages-paths.awk" -f "$here/pages-examples.awk" "$root/$1" >"$made/list" || return 1
    while read -r number line kind file; do
        case $kind in wrong) echo "$1:$line: $file"; return 1 ;; esac
        case $file in /*) path=$file ;; *) path=$root/$file ;; esac
        [ -e "$path" ] || { echo "$1:$line: there is no file $file"; return 1; }
        run "$kind" "$file" "$path"
        agrees "$number" "$kind" && continue
        echo "$1:$line: this $kind differs; the page says (<) and the program prints (>)"
        if [ "$kind" = right ]; then sed 's/^/> /' "$made/got"; else diff "$made/$number.want" "$made/got"; fi
        return 1
    done <"$made/list"
    awk -v page="$1" '
        { n[$3]++ }
        END { printf "%s: %d reports, %d rows with %d right lines, %d files, %d explanations and %d pictures are as it says\n", \
            page, n["report"], n["row"], n["right"], n["same"], n["explain"], n["picture"] }' "$made/list"
}

# FORMAT.md shows every refusal that a text can get
every_refusal() {
    awk -v all="1 2 3 4 5 6 7 8 9 22" '
        FNR == 1 { names = $0 }
        FNR == 2 && names == "refused line" { seen[$1] }
        END {
            count = split(all, numbers, " ")
            for (i = 1; i <= count; i++) if (!(numbers[i] in seen)) { print "docs/FORMAT.md: no example gets " numbers[i]; missing = 1 }
            exit missing
        }' "$made"/*.want
}

# whether a page has the heading, or a source the line, that a link names
has_anchor() { # FILE ANCHOR
    case $1 in
    *.md) awk -f "$here/pages-anchors.awk" "$root/$1" | grep -qxF -- "$2" ;;
    *) case $2 in L[1-9]*) [ "$(wc -l <"$root/$1")" -ge "${2#L}" ] 2>/dev/null ;; *) false ;; esac ;;
    esac
}

# looks where the relative links of a page lead
follow_links() { # PAGE
    awk -v page="$1" -f "$here/pages-paths.awk" -f "$here/pages-links.awk" "$root/$1" >"$made/links" || return 1
    while read -r line file anchor; do
        links=$((links + 1))
        case $file in ..*) echo "$1:$line: this link leaves the repository"; return 1 ;; esac
        [ -e "$root/$file" ] || { echo "$1:$line: there is no $file"; return 1; }
        [ -z "$anchor" ] || has_anchor "$file" "$anchor" || { echo "$1:$line: $file has no place $anchor"; return 1; }
    done <"$made/links"
}

for page in docs/FORMAT.md README.md examples/contact.md docs/MODEL.md; do
    [ -f "$root/$page" ] || { echo "there is no $page"; failed=1; continue; }
    run_page "$page" || failed=1
    [ "$page" != docs/FORMAT.md ] || every_refusal || failed=1
done

# the texts of the pictures are those that are printed of the examples of the same names
cd -- "$root" || exit 1
drawn=0
for text in docs/pictures/*.dot; do
    name=${text##*/}
    name=${name%.dot}
    [ -e "docs/pictures/$name.svg" ] || { echo "$text: it is not drawn"; failed=1; }
    asked "$picture" "examples/$name.txt" | cmp -s - "$text" || { echo "$text: differs from the picture of examples/$name.txt"; failed=1; }
    drawn=$((drawn + 1))
done
[ $failed = 1 ] || echo "pictures: the texts of $drawn are as they are printed"

links=0
pages=0
for page in README.md docs/*.md docs/changes/*.md examples/*.md outside/README.md vectors/README.md vectors/*/README.md crates/*/README.md; do
    pages=$((pages + 1))
    follow_links "$page" || failed=1
done
[ $failed = 1 ] || echo "links: all $links on $pages pages lead somewhere"
exit $failed
