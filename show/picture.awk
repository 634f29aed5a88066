# picture.awk: the summary graph of a text as a text for Graphviz, from the facts that the program explain lists of it and the text after them. The
# numbers are those of the facts, lines are looked up in the text. A box for each program, its unfoldings in it, with the kind and the relation of
# the statement at each place; the forward edges from one node to another as one solid line with their number, the back edges as one dashed line;
# the first walk in colour, its steps numbered. Two nodes with forward edges both ways, none of them a step, are joined by one line with two heads
# and both numbers, that of the edges from the lower node first.

function plural(n, what) { return n " " what (n == 1 ? "" : "s") }

function turns(n) { return n == 0 ? "no turn" : n == 1 ? "one turn" : "two turns" }

# what an unfolding chose, a line for each choice
function chosen(m,    i, list, n, words) {
    n = split(choices[m], list, " ")
    words = ""
    for (i = 1; i < n; i += 2)
        words = words "\\nline " list[i] ": " (kind[list[i]] == "lo" ? turns(list[i + 1]) : list[i + 1] == 1 ? "first arm" : "second arm")
    return words
}

# the kinds and relations of its statements by place, four to a line
function stated(m,    i, list, n, words) {
    n = split(places[m], list, " ")
    words = ""
    for (i = 1; i <= n; i++) words = words (i % 4 == 1 ? "\\n" : ", ") kind[list[i]] " on " relation[list[i]]
    return words
}

# the colour of a line along which a step goes
function coloured(key) { return key in walk ? ", color=\"#c00000\", fontcolor=\"#c00000\", fontsize=11, penwidth=2.2" : "" }

# a line's label: how many edges it stands for, and the steps that go along it
function labelled(number, key) { return key in walk ? walk[key] "\\n(" number (number == 1 ? " edge)" : " edges)") : number }

# a line from one node to another
function draw(m, n, label, more) { printf "  n%d -> n%d [label=\"%s\"%s];\n", m, n, label, more }

function draw_forward(m, n,    key) {
    key = m " " n " f"
    draw(m, n, labelled(forward[m, n], key), coloured(key) (m == n ? ", tailport=n, headport=n" : ""))
}

function draw_back(m, n,    key) {
    key = m " " n " b"
    draw(m, n, labelled(back[m, n], key), (m == n ? ", tailport=s, headport=s" : "") ", style=dashed" \
        (key in walk ? coloured(key) : ", color=\"#6080b0\", fontcolor=\"#3060a0\", constraint=false"))
}

# both ways as one line, where no step goes along either
function draw_both(m, n) { draw(m, n, forward[m, n] " / " forward[n, m], ", dir=both") }

function has(m, n) { return (m, n) in forward && forward[m, n] > 0 }

function in_walk(m, n) { return (m " " n " f") in walk || (n " " m " f") in walk }

function draw_node(m) {
    printf "    n%d [label=\"%d%s%s\"%s];\n", m, m, chosen(m), stated(m), m in left ? ", color=\"#c00000\", penwidth=2.2" : ""
}

function draw_nodes(p,    m) {
    printf "  subgraph cluster_%d {\n    label=\"program %d (line %d)\";\n", p, p, program_line[p]
    print "    labelloc=b;\n    labeljust=l;\n    style=filled;\n    color=\"#eef2f7\";\n    rank=same;"
    for (m = 0; m < nodes; m++) if (program_of[m] == p) draw_node(m)
    print "  }"
}

function draw_edges(    m, n) {
    for (m = 0; m < nodes; m++)
        for (n = m; n < nodes; n++) {
            if (m != n && has(m, n) && has(n, m) && !in_walk(m, n)) draw_both(m, n)
            else {
                if (has(m, n)) draw_forward(m, n)
                if (m != n && has(n, m)) draw_forward(n, m)
            }
        }
    for (m = 0; m < nodes; m++)
        for (n = 0; n < nodes; n++) if (back[m, n] > 0) draw_back(m, n)
}

function rest(from,    i, words) {
    words = ""
    for (i = from; i <= NF; i++) words = words (i == from ? "" : " ") $i
    return words
}

ended { split($0, fields, " "); lines++; kind[lines] = fields[1]; relation[lines] = fields[3]; next }
$1 == "end" { ended = 1; lines = 0 }
$1 == "refused" { word = "refused" }
$1 == "verdict" { word = $2; programs = $3; title = $2 ": " plural($3, "program") ", " plural($4, "node") ", " plural($5, "edge") ", " $6 " back" }
$1 == "program" { program_line[$2] = $3 }
$1 == "node" { program_of[$2] = $3; choices[$2] = rest(5); nodes = $2 + 1 }
$1 == "between" { forward[$2, $3] = $4; back[$2, $3] = $5 }
$1 == "places" { places[$2] = rest(3) }
$1 == "step" {
    key = $3 " " $6 " " $9
    told = "step " $2 ": " $11 ", place " $4 " to " $7
    if (key in walk) walk[key] = walk[key] "\\n" told
    else walk[key] = told
    left[$3]
}

END {
    if (word == "refused") exit
    print "digraph workload {"
    printf "  graph [label=\"%s\", labelloc=t, fontname=\"Helvetica\", fontsize=14, rankdir=LR, newrank=true, nodesep=0.35, ranksep=1.3];\n", title
    print "  node [shape=box, style=\"rounded,filled\", fillcolor=white, fontname=\"Helvetica\", fontsize=11];"
    print "  edge [fontname=\"Helvetica\", fontsize=9, arrowsize=0.6, color=\"#b0b0b0\", fontcolor=\"#707070\"];"
    for (p = 0; p < programs; p++) draw_nodes(p)
    draw_edges()
    print "}"
}
