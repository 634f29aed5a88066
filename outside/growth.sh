#!/bin/sh
# growth.sh [FILE]: draws how the time of a verdict grows with a workload's size, from the lines `growth SHAPE SIZE PLAIN RATTLE` that
# `outside/target/bench --growth` prints (or from FILE, where they were kept), to docs/pictures/growth.svg: a panel for each shape, both axes
# logarithmic, one curve for plain Rust and one for the proved code. Two sides are needed: build bench with RATTLE_LIB.
set -e
here="$(CDPATH= cd -- "$(dirname -- "$0")" && pwd)"
picture="$here/../docs/pictures/growth.svg"
mkdir -p "$(dirname "$picture")"
lines="${1:-}"
if [ -z "$lines" ]; then
    lines="$(mktemp)"
    trap 'rm -f "$lines"' EXIT
    "$here/target/bench" --growth > "$lines"
fi
awk '
function log2(x) { return log(x) / log(2) }
function log10(x) { return log(x) / log(10) }
function down(x) { return x < int(x) ? int(x) - 1 : int(x) }
function up(x) { return -down(-x) }

# where a size and a time stand in a panel
function across(panel, size) { return left(panel) + (wide[panel] ? (log2(size) - low[panel]) / wide[panel] * WIDTH : WIDTH / 2) }
function height(panel, time) { return top(panel) + HEIGHT - (log10(time) - least) / (most - least) * HEIGHT }
function left(panel) { return 62 + (panel % COLUMNS) * (WIDTH + 70) }
function top(panel) { return 62 + int(panel / COLUMNS) * (HEIGHT + 78) }

function text(x, y, anchor, words) { printf "<text x=\"%.1f\" y=\"%.1f\" text-anchor=\"%s\">%s</text>\n", x, y, anchor, words }
function line(kind, x1, y1, x2, y2) { printf "<line class=\"%s\" x1=\"%.1f\" y1=\"%.1f\" x2=\"%.1f\" y2=\"%.1f\"/>\n", kind, x1, y1, x2, y2 }

# microseconds in the unit that reads best
function told(power) { return power < 3 ? 10 ^ power " µs" : 10 ^ (power - 3) " ms" }

function curve(panel, side,    k, points) {
    points = ""
    for (k = 0; k < count[panel]; k++) {
        points = points sprintf("%.1f,%.1f ", across(panel, size[panel, k]), height(panel, time[panel, k, side]))
    }
    printf "<polyline class=\"%s\" points=\"%s\"/>\n", SIDES[side], points
    for (k = 0; k < count[panel]; k++) {
        printf "<circle class=\"%s\" ", SIDES[side]
        printf "cx=\"%.1f\" cy=\"%.1f\" r=\"3\"/>\n", across(panel, size[panel, k]), height(panel, time[panel, k, side])
    }
}

function panel_of(panel,    k, y) {
    text(left(panel), top(panel) - 10, "start", TITLES[name[panel]] ? TITLES[name[panel]] : name[panel])
    for (k = least; k <= most; k++) {
        y = height(panel, 10 ^ k)
        line("grid", left(panel), y, left(panel) + WIDTH, y)
        text(left(panel) - 6, y + 4, "end", told(k))
    }
    for (k = 0; k < count[panel]; k++) {
        line("tick", across(panel, size[panel, k]), top(panel) + HEIGHT, across(panel, size[panel, k]), top(panel) + HEIGHT + 4)
        text(across(panel, size[panel, k]), top(panel) + HEIGHT + 18, "middle", size[panel, k])
    }
    curve(panel, 1)
    curve(panel, 2)
}

BEGIN {
    WIDTH = 300; HEIGHT = 190; COLUMNS = 2; panels = 0; least = 9; most = -9
    SIDES[1] = "plain"; SIDES[2] = "proved"
    TITLES["statements"] = "statements, in 16 programs over one relation"
    TITLES["nodes"] = "nodes of 8 statements over one relation"
    TITLES["relations"] = "relations, under 512 statements"
    TITLES["links"] = "links in each of 16 programs over 32 relations"
}

$1 == "growth" && NF == 5 {
    if (!($2 in number)) {
        number[$2] = panels
        name[panels] = $2
        low[panels] = log2($3)
        panels++
    }
    panel = number[$2]
    size[panel, count[panel] + 0] = $3
    wide[panel] = log2($3) - low[panel]
    for (side = 1; side <= 2; side++) {
        time[panel, count[panel] + 0, side] = $(3 + side)
        if (down(log10($(3 + side))) < least) least = down(log10($(3 + side)))
        if (up(log10($(3 + side))) > most) most = up(log10($(3 + side)))
    }
    count[panel]++
}

END {
    if (!panels) {
        print "growth.sh: no lines of two sides" > "/dev/stderr"
        exit 1
    }
    columns = panels < COLUMNS ? panels : COLUMNS
    right = left(columns - 1) + WIDTH + 20
    bottom = top(panels - 1) + HEIGHT + 34
    printf "<svg xmlns=\"http://www.w3.org/2000/svg\" viewBox=\"0 0 %d %d\" width=\"%d\" height=\"%d\">\n", right, bottom, right, bottom
    print "<title>Time of a verdict, from the text on, against the size of its workload</title>"
    print "<style>text{font:12px sans-serif;fill:#222}.grid{stroke:#ddd}.tick{stroke:#888}polyline{fill:none;stroke-width:2}"
    print "polyline.plain,line.plain{stroke:#777}circle.plain{fill:#777}"
    print "polyline.proved,line.proved{stroke:#0a58a8}circle.proved{fill:#0a58a8}</style>"
    printf "<rect width=\"%d\" height=\"%d\" fill=\"#fff\"/>\n", right, bottom
    line("plain", 62, 20, 92, 20)
    text(98, 24, "start", "plain Rust")
    line("proved", 182, 20, 212, 20)
    text(218, 24, "start", "proved; time of a verdict from the text on, both axes logarithmic")
    for (panel = 0; panel < panels; panel++) panel_of(panel)
    print "</svg>"
}
' "$lines" > "$picture.new" || { rm -f "$picture.new"; exit 1; }
mv "$picture.new" "$picture"
echo "drawn: docs/pictures/growth.svg"
