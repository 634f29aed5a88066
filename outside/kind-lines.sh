#!/bin/sh
# kind-lines.sh [values|names|page [FILE]]: prints the constant table of kinds as it stands in its source (crates/kind_table unless one is named), in
# the lines of Req 05: by the values of the codes in its grid, which the code reads, or by their names, which people read; or the grid
# of the page for reviewers, docs/KINDS.md, whose other table has the digits of each code. What is not as it should be gives a `?`. To hold the
# printed table to the source:
#     outside/kind-lines.sh > /tmp/source-table && target/bin/kinds | diff /tmp/source-table - && echo the same
here="$(CDPATH= cd -- "$(dirname -- "$0")" && pwd)"
way="${1:-values}"
case "$way" in
    values | names) file="${2:-$here/../crates/kind_table/src/lib.rt}" ;;
    page) file="${2:-$here/../docs/KINDS.md}" ;;
    *) echo "usage: kind-lines.sh [values|names|page [FILE]]" >&2; exit 2 ;;
esac
[ -r "$file" ] && [ -f "$file" ] || { echo "kind-lines: cannot read $file" >&2; exit 1; }
LC_ALL=C exec awk -v way="$way" '
    function by_name(code,   k, c, out) {
        for (k = 1; k <= length(code); k++) {
            c = substr(code, k, 1)
            out = out " " (c == "_" || c == "o" ? 0 : c == substr("ABCDE", k, 1) ? 1 : c == substr("abcde", k, 1) ? 2 : "?")
        }
        return out
    }
    function by_value(code,   out) {
        out = value[code]
        if (out !~ /^0b(0[01]|10)(_(0[01]|10))(_(0[01]|10))(_(0[01]|10))(_(0[01]|10))$/) return " ?"
        sub(/^0b/, "_", out)
        gsub(/_00/, " 0", out)
        gsub(/_01/, " 1", out)
        gsub(/_10/, " 2", out)
        return out
    }
    BEGIN { split("is ks ps ku pu kd pd kl", kind); print "from to a b c d e" }
    way == "page" {
        if (/^\| from/ && !/^\| from \\ to \| is \| ks \| ps \| ku \| pu \| kd \| pd \| kl \|$/) print "? " $0
        if (/^\| \*\*/) {
            for (k = 3; k <= 19; k++) if ($k !~ (k % 2 ? "^[|]$" : "^`[A-Ea-e_]+`$") || NF != 19) print "? " $0
            gsub(/[^A-Za-z_]+/, " ")
            for (k = 2; k <= NF; k++) print $1 " " kind[k - 1] by_name($k)
        }
        if (/^\| `[A-Ea-e_]+` \|/) {
            code[0] = substr($2, 2, length($2) - 2)
            if (" " $4 " " $5 " " $6 " " $7 " " $8 != by_name(code[0])) print "? " $0
        }
        next
    }
    inside && /^ *\/\/ is/ && !/\/\/ is +ks +ps +ku +pu +kd +pd +kl$/ { code[codes++] = "?" }
    inside && /\], *\/\// && $NF != kind[++rows] { code[codes++] = "?" }
    { sub(/\/\/.*/, "") }
    /\/\*/ { code[codes++] = "?" }
    /^const [A-Za-z_]+: u32/ {
        whole = /^const [A-Za-z_]+: u32 = 0b[01_]+;[ \t]*$/
        sub(/:$/, "", $2)
        sub(/;$/, "", $5)
        value[$2] = whole ? $5 : "?"
        next
    }
    /^const LETTERS:/ { inside = 1; sub(/.*=/, "") }
    inside {
        last = /;/
        if (/[^][A-Za-z0-9_,; \t]/) code[codes++] = "?"
        gsub(/[^A-Za-z0-9_?]+/, " ")
        for (k = 1; k <= NF; k++) code[codes++] = $k
        if (last) inside = 0
    }
    END {
        for (k = 0; k < codes; k++)
            print kind[int(k / 8) + 1] " " kind[k % 8 + 1] (way == "names" ? by_name(code[k]) : by_value(code[k]))
    }
' < "$file"
