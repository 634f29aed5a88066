# explain.awk: puts the facts that the program explain lists of a text, and the text after them, into words. What is told of programs, nodes, edges
# and the walk are the facts; lines, their kinds and sets are looked up in the text, and of a refused line is told which field or condition is
# amiss. Run with LC_ALL=C, so that a character is a byte.

function plural(n, one, many) { return n " " (n == 1 ? one : many) }

# words with a line between backquotes kept in one piece: its spaces become a byte that no text has
function kept(words,    list, n, i, out) {
    n = split(words, list, "`")
    out = list[1]
    for (i = 2; i <= n; i++) {
        if (i % 2 == 0) gsub(/ /, "\001", list[i])
        out = out "`" list[i]
    }
    return out
}

function print_words(line) {
    gsub(/\001/, " ", line)
    print line
}

# the lines of a paragraph, no longer than a page is wide, the later ones indented
function say(first, later, words,    list, n, i, line) {
    n = split(kept(words), list, " ")
    line = first list[1]
    for (i = 2; i <= n; i++) {
        if (length(line " " list[i]) > 110) { print_words(line); line = later list[i] }
        else line = line " " list[i]
    }
    print_words(line)
}

# ---- the text: its lines, and the fields of a line

function kind_of(number) { return number in kind ? kind[number] : "" }

function is_statement(k) { return k in named }

# a line as it can be shown: a byte that is no plain character by its number
function shown(line,    i, out, b) {
    if (line !~ /[^ -~]/) return line
    out = ""
    for (i = 1; i <= length(line); i++) {
        b = substr(line, i, 1)
        out = out (b ~ /[ -~]/ ? b : "\\x" (b in code ? code[b] : "00"))
    }
    return out
}

function take_line(number, line,    fields, n) {
    bytes[number] = line
    text[number] = shown(line)
    n = split(line, fields, " ")
    kind[number] = fields[1]
    id[number] = fields[2]
    relation[number] = fields[3]
    target[number] = fields[4]
    lines = number
}

# ---- nodes and places in words

function turns(n) { return n == 0 ? "no turn" : n == 1 ? "one turn" : "two turns" }

function chosen(m,    i, list, n, words, part) {
    n = split(choices[m], list, " ")
    words = ""
    for (i = 1; i < n; i += 2) {
        part = kind_of(list[i]) == "lo" ? "loop of line " list[i] " with " turns(list[i + 1]) \
            : "branch of line " list[i] " by its " (list[i + 1] == 1 ? "first" : "second") " arm"
        words = words (words == "" ? "" : ", ") part
    }
    return words
}

function node(m,    c, p) {
    p = program_of[m]
    c = chosen(m)
    return "node " m ": program " p " (line " program_line[p] "), unfolding " number_of[m] " of it" (c == "" ? "" : ", " c)
}

# which time the node comes by the line, where it does so more than once
function which_time(m, i, line,    list, n, k, before, all) {
    n = split(places[m], list, " ")
    before = 0
    all = 0
    for (k = 1; k <= n; k++) if (list[k] == line) { all++; if (k <= i + 1) before++ }
    return all < 2 ? "" : " (visit " before " of " all " in this node)"
}

function statement(m, i, line) {
    return "place " i ": statement " id[line] " on line " line ", `" text[line] "`, " named[kind[line]] " of relation " relation[line] \
        which_time(m, i, line)
}

# ---- an edge in words

function attributes(s,    list, n, i, words) {
    n = split(shared_list[s], list, " ")
    if (n == 0) return "no attribute"
    words = n == 1 ? "attribute " list[1] : "attributes " list[1]
    for (i = 2; i <= n; i++) words = words (i == n ? " and " : ", ") list[i]
    return words
}

# what a statement does to a row
function does(line) { return kind[line] == "is" ? "inserts" : kind[line] == "kd" || kind[line] == "pd" ? "deletes" : "writes" }

# what it does it to: the attributes that were named, or the row
function object(s, line) { return does(line) != "writes" ? "the row" : shared[s] == 1 ? "it" : "them" }

# what a predicate sees of a statement: a row that is inserted or deleted, or attributes that are written
function seen_by_predicate(s, line) {
    if (does(line) == "writes") return "what line " line " writes: " attributes(s)
    return "a row that line " line " " does(line) (shared[s] == 0 ? "" : "; it tests " attributes(s))
}

function letter_says(s,    l, a, b) {
    l = letter[s]
    a = "line " left_line[s]
    b = "line " entered_line[s]
    if (l == "A") return "both write " attributes(s) ": " a " " does(left_line[s]) " first, " b " " does(entered_line[s]) " after it"
    if (l == "B") return b " reads " attributes(s) " after " a " " does(left_line[s]) " " object(s, left_line[s])
    if (l == "C") return "the predicate of " b " sees " seen_by_predicate(s, left_line[s])
    if (l == "D") return a " reads " attributes(s) " before " b " " does(entered_line[s]) " " object(s, entered_line[s])
    return "the predicate of " a " does not yet see " seen_by_predicate(s, entered_line[s])
}

function flow_says(s) {
    return flow[s] == "f" ? "forward: the transaction that it leaves commits first" \
        : "back: the transaction that it enters commits first"
}

function tell_step(s) {
    print ""
    print "step " s ", " flow_says(s)
    say("  leaves  ", "          ", node(left[s]))
    say("          ", "          ", statement(left[s], left_place[s], left_line[s]))
    say("  enters  ", "          ", node(entered[s]) (left[s] == entered[s] ? "; this is another run of it" : ""))
    say("          ", "          ", statement(entered[s], entered_place[s], entered_line[s]))
    say("  why     ", "          ", "letter " letter[s] ", on relation " relation[left_line[s]] ": " letter_says(s))
    say("  edge    ", "          ", "number " edge[s] " in the list of edges (from 0); the two sets of letter " letter[s] " share " \
        plural(shared[s], "attribute", "attributes") (shared[s] > 1 ? ", the lowest is " lowest[s] : ""))
}

# ---- the three answers

function counts_say() {
    return plural(counts[1], "program", "programs") ", " plural(counts[2], "unfolding (node)", "unfoldings (nodes)") ", " \
        plural(counts[3], "edge", "edges") ", " counts[4] " of them back"
}

function tell_programs(    p) {
    print ""
    print "program  line  unfoldings  statements in them  edges that leave them  back edges among these"
    for (p = 0; p < counts[1]; p++)
        printf "%7d %5d %11d %19d %22d %23d\n", p, program_line[p], program_nodes[p], program_places[p], program_edges[p], program_back[p]
}

function tell_robust() {
    print "robust"
    print ""
    say("", "", "Under Read Committed these programs do nothing that some serial order of them does not give. There is no dangerous walk among " \
        counts_say() ".")
    tell_programs()
}

function reasons(    words) {
    words = ""
    if (pair_back) words = "step " pair_first " is back itself"
    if (pair_earlier) words = words (words == "" ? "" : ", and ") "step " pair_second " leaves at place " left_place[pair_second] \
        ", which is earlier than place " entered_place[pair_first] ", where step " pair_first " enters"
    if (pair_loose) words = words (words == "" ? "" : ", and ") "step " pair_first " leaves " named[kind[left_line[pair_first]]] " (" \
        kind[left_line[pair_first]] "): an edge that leaves a ks, ps, pu or pd makes the pair dangerous wherever it enters"
    return words
}

function tell_danger(    s) {
    print "danger"
    print ""
    say("", "", "These programs are not shown to be safe under Read Committed: there is a dangerous walk among " counts_say() \
        ". A walk goes from edge to edge and ends where it began. Each time that it comes to a node stands for a transaction, and each edge " \
        "says: the transaction that it leaves has to come before the one that it enters. So a schedule along the walk may have no serial order.")
    print ""
    say("", "", "The first dangerous walk has " plural(steps, "step", "steps") ".")
    for (s = 0; s < steps; s++) tell_step(s)
    print ""
    say("dangerous pair: ", "", "step " pair_first " enters node " entered[pair_first] ", and step " pair_second \
        ", which is back, leaves it. The pair is dangerous because " reasons() ".")
    tell_programs()
}

# ---- a refusal: the line, the rule, and what would be right

function form(k) {
    if (k == "rl") return "rl ID - - ATTRIBUTES - -"
    if (k == "fk") return "fk ID CHILD PARENT - - -"
    if (k == "pr") return "pr ID - - - - -"
    if (k == "is" || k == "kd") return k " ID RELATION - - WRITES -"
    if (k == "ks" || k == "kl") return k " ID RELATION - READS - -"
    if (k == "ps") return "ps ID RELATION - READS - TESTS"
    if (k == "ku") return "ku ID RELATION - READS WRITES -"
    if (k == "pu") return "pu ID RELATION - READS WRITES TESTS"
    if (k == "pd") return "pd ID RELATION - - WRITES TESTS"
    if (k == "lo" || k == "br" || k == "el" || k == "en") return k " - - - - - -"
    if (k == "li") return "li KEY CHILD PARENT - - -"
    return ""
}

# what is amiss with a field, against the word that stands for it in the form of its kind
function amiss(name, wanted, got) {
    if (wanted == "-") return got == "-" ? "" : name " is `-` in such a line"
    if (got == "-") return name " has a value in such a line"
    if (wanted ~ /^(ATTRIBUTES|READS|WRITES|TESTS)$/)
        return got ~ /^(0|[1-9a-f][0-9a-f]*)$/ && length(got) <= 16 ? "" \
            : name " is a set, 1 to 16 of the digits 0 to 9 and a to f, without leading zeros"
    return got ~ /^(0|[1-9][0-9]*)$/ && length(got) <= 3 && got + 0 <= 255 ? "" : name " is a number from 0 to 255, without leading zeros"
}

function right_form(k, n,    f, count, wanted, got, i, words, one) {
    f = form(k)
    count = split(bytes[n], got, / /)
    if (count != 7) return "seven fields, parted by one space each" (f == "" ? "" : ": `" f "`") "; here " plural(count, "stands", "stand") \
        (bytes[n] ~ /  |^ | $/ ? ", an empty one counted where a space is too much" : "")
    if (f == "") return "a kind of line in front: rl, fk, pr, is, ks, ps, ku, pu, kd, pd, kl, lo, br, el, en or li"
    split(f, wanted, " ")
    words = ""
    for (i = 2; i <= 7; i++) {
        one = amiss(field_name[i], wanted[i], got[i])
        if (one != "") words = words (words == "" ? "" : "; ") one
    }
    return "`" f "`" (words == "" ? "" : ", so " words)
}

function right_order(k) {
    if (k == "rl") return "all rl lines stand first"
    if (k == "fk") return "all fk lines stand after the rl lines and before the first pr line"
    if (k == "pr" || k == "li" && programs_before > 0) return "before this line each loop and branch is closed; " \
        plural(depth, "block is", "blocks are") " open here. Each lo needs its en, each br its el and then its en"
    if (k == "li") return "a link stands in a program, and no program has begun: a pr line begins one"
    if (programs_before == 0) return "a program begins before its statements: a pr line begins one"
    if (links_before > 0) return "the statements, loops and branches of a program stand before its first li line"
    if (k == "el") return "an el line stands in the first arm of a branch: after its br line, not inside a loop that is still open, and only once"
    return "an en line closes a loop, or a branch that has had its el line"
}

function right_bound(k) {
    if (k == "rl") return "a text has at most 32 relations"
    if (k == "fk") return "a text has at most 32 foreign keys"
    if (k == "pr") return "a text has at most 16 programs"
    if (k == "li") return "a program has at most 32 links"
    if (is_statement(k)) return "a program has at most 32 statements, and at most 64 lines of statements, loops and branches; so far this one has " \
        statements_before " and " body_before
    if (k == "lo" || k == "br") return "blocks stand at most 8 deep, and a program has at most 64 lines of statements, loops and branches; here " \
        plural(depth, "block is", "blocks are") " open, and so far the program has " body_before " such lines"
    return "a program has at most 64 lines of statements, loops and branches"
}

function from_zero(n, what) { return n == 0 ? "there is no " what " yet" : n == 1 ? what " 0 is the only one" : what "s 0 to " n - 1 " are there" }

function right_ids(k) {
    if (k == "rl") return "the id of this relation is " relations_before
    if (k == "fk") return "the id of this key is " keys_before ", and its child and parent are relations that stand above: " \
        from_zero(relations_before, "relation")
    if (k == "pr") return "the id of this program is " programs_before
    if (k == "li") return "a link names a key, and a child and a parent statement of its own program: " from_zero(keys_before, "key") ", " \
        from_zero(statements_before, "statement")
    return "the id of this statement is " statements_before ", as ids count from 0 in each program, and its relation is one that stands above: " \
        from_zero(relations_before, "relation")
}

# the attributes of a set, in braces
function members(set,    i, k, d, words) {
    words = ""
    for (i = length(set); i > 0; i--) {
        d = index("0123456789abcdef", substr(set, i, 1)) - 1
        for (k = 0; k < 4; k++) {
            if (d % 2 == 1) words = words (words == "" ? "" : ", ") (length(set) - i) * 4 + k
            d = int(d / 2)
        }
    }
    return "{" words "}"
}

# what the sets of a line are, and what its relation has: relation r stands on line r + 2
function sets_here(n,    list, words, i, whole) {
    split(text[n], list, " ")
    words = ""
    for (i = 5; i <= 7; i++) if (list[i] != "-") words = words (i == 5 ? "reads" : i == 6 ? "writes" : "tests") " is " members(list[i]) ", "
    whole = relation[n] + 2
    split(text[whole], list, " ")
    return "here " words "and relation " relation[n] " (line " whole ", `" text[whole] "`) has " members(list[5])
}

function right_sets(k, n) {
    if (k == "rl") return "a relation has at least one attribute, so its set is not 0"
    if (k == "is" || k == "kd") return "writes is the whole relation; " sets_here(n)
    if (k == "pd") return "writes is the whole relation, and tests lies within it; " sets_here(n)
    if (k == "ks" || k == "kl") return "reads is not empty and lies within the relation; " sets_here(n)
    if (k == "ps") return "reads and tests lie within the relation; " sets_here(n)
    if (k == "ku") return "writes is not empty, and reads and writes lie within the relation; " sets_here(n)
    return "writes is not empty, and reads, writes and tests lie within the relation; " sets_here(n)
}

# the line of a statement of the program that a line stands in
function line_of_statement(s, n,    i) {
    i = n
    while (i > 1 && kind[i] != "pr") i--
    for (i++; i < n; i++) if (is_statement(kind[i]) && id[i] == s) return i
    return 0
}

function right_link(n,    f, c, p, words) {
    f = relations_before + id[n] + 2
    c = line_of_statement(relation[n], n)
    p = line_of_statement(target[n], n)
    words = ""
    if (relation[c] != relation[f]) words = words "; a child of relation " relation[f] ", as key " id[n] " says (line " f ", `" text[f] "`)"
    if (relation[p] != target[f]) words = words "; a parent of relation " target[f] ", as key " id[n] " says (line " f ", `" text[f] "`)"
    if (kind[p] !~ /^(is|ks|ku|kd|kl)$/) words = words "; a parent of kind is, ks, ku, kd or kl"
    if (words == "") words = "; a parent that stands in no loop and in no arm that the child does not stand in; else leave the link out"
    return substr(words, 3) ". Here the child is line " c ", `" text[c] "`, and the parent line " p ", `" text[p] "`"
}

# the first byte of a line that no text may have
function odd_byte(n,    at, b) {
    at = match(bytes[n], /[^ a-z0-9-]/)
    if (at == 0) return "another byte here"
    b = substr(bytes[n], at, 1)
    if (b == "\r" && at == length(bytes[n])) return "line feeds alone. The line ends with a carriage return, as editors on Windows write it: save " \
        "the file with line feeds, or run `tr -d '\\r' < FILE > NEW`"
    if (b == "\t") return "one space between fields; a tab stands at column " at
    if (b ~ /[A-Z]/) return "small letters; the capital " b " stands at column " at
    if (b ~ /[!-~]/) return "no such character; " b " stands at column " at ", and a text has no comments and no punctuation"
    if (n == 1 && substr(bytes[n], 1, 3) == "\357\273\277") return "no byte order mark: the file begins with one, which an editor can leave out"
    return "no such byte; \\x" (b in code ? code[b] : "00") " (hexadecimal) stands at column " at
}

function rule(number) {
    if (number == 1) return "a text has at most 32,768 bytes"
    if (number == 2 && at_line > 0) return "a text has only small letters, digits, dashes, spaces and line feeds"
    if (number == 2) return "a text is not empty, and its last line ends with a line feed too"
    if (number == 3) return "the first line is `kind id rel to reads writes tests`, exactly"
    if (number == 4) return "each line after the first has the form of its kind"
    if (number == 5) return "sets lie within their relation, and are as the kind of the statement asks"
    if (number == 6) return "ids count from 0, and what a line names is there"
    if (number == 7) return "lines stand in their order, and every loop and branch is closed"
    if (number == 8) return "a link fits its key, its parent can be one, and stands in no loop or arm that its child is not in"
    if (number == 9) return "no bound is passed"
    return "a workload has at most 64 unfoldings, with at most 512 statements in them"
}

function at_end() { return refusal == 7 && at_line == lines_before + 1 }

function right(number, n) {
    if (number == 1) return "a shorter text. Columns that no statement needs apart can share an attribute. Programs that are parted over several " \
        "texts are judged text by text: the answer is then for these programs alone"
    if (number == 2 && n > 0) return odd_byte(n)
    if (number == 2 && lines == 0) return "the names line at least: the file is empty"
    if (number == 2) return "a line end after the last line, `" text[lines] "`"
    if (number == 3) return "`kind id rel to reads writes tests`"
    if (number == 4) return text[n] == "" ? "leave the empty line out" : right_form(kind[n], n)
    if (number == 9) return right_bound(kind[n])
    if (at_end()) return "the text ends here while " plural(depth, "block is", "blocks are") " open. Each lo needs its en, each br its el and " \
        "then its en"
    if (number == 7) return right_order(kind[n])
    if (number == 6) return right_ids(kind[n])
    if (number == 5) return right_sets(kind[n], n)
    if (number == 8) return right_link(n)
    return "fewer ways through the programs: a loop counts with no turn, one turn and two turns, a branch with each arm, and blocks in a row " \
        "multiply. To take a loop or a branch out changes what is judged. Where both arms of a branch have one statement each, of one kind and " \
        "relation, write it once, with the columns of both. Or judge fewer programs; the answer is then for these alone"
}

function stopped(n) { return n == 513 ? "513 or more" : n }

function tell_refused(    p) {
    print "refused" (at_line > 0 ? ": line " at_line : "") ", rule " refusal
    print ""
    if (at_line > 0) print "line " at_line ":  `" text[at_line] "`"
    say("rule " refusal ":  ", "         ", rule(refusal))
    say("right:   ", "         ", right(refusal, at_line))
    if (refusal == 22) {
        print ""
        print "program  line   unfoldings  statements in them"
        for (p = 0; p in unfolds; p++) printf "%7d %5d %12s %19s\n", p, program_line[p], stopped(unfolds[p]), stopped(unfold_statements[p])
    }
}

BEGIN {
    split("kind id rel to reads writes tests", field_name, " ")
    named["is"] = "an insert"
    named["ks"] = "a key select"
    named["ps"] = "a predicate select"
    named["ku"] = "a key update"
    named["pu"] = "a predicate update"
    named["kd"] = "a key delete"
    named["pd"] = "a predicate delete"
    named["kl"] = "a key select with lock"
    for (b = 1; b < 256; b++) code[sprintf("%c", b)] = sprintf("%02x", b)
    steps = 0
    lines = 0
}

# ---- the facts

function rest(from,    i, words) {
    words = ""
    for (i = from; i <= NF; i++) words = words (i == from ? "" : " ") $i
    return words
}

ended { take_line(lines + 1, $0); next }
$1 == "end" { ended = 1 }
$1 == "verdict" { word = $2; for (i = 1; i <= 4; i++) counts[i] = $(i + 2) }
$1 == "program" { program_line[$2] = $3; program_nodes[$2] = $4; program_places[$2] = $5; program_edges[$2] = $6; program_back[$2] = $7 }
$1 == "node" { program_of[$2] = $3; number_of[$2] = $4; choices[$2] = rest(5) }
$1 == "places" { places[$2] = rest(3) }
$1 == "step" {
    steps = $2 + 1
    left[$2] = $3; left_place[$2] = $4; left_line[$2] = $5
    entered[$2] = $6; entered_place[$2] = $7; entered_line[$2] = $8
    flow[$2] = $9; edge[$2] = $10; letter[$2] = $11; shared[$2] = $12; lowest[$2] = $13; shared_list[$2] = rest(14)
}
$1 == "pair" { pair_first = $2; pair_second = $3; pair_back = $4; pair_earlier = $5; pair_loose = $6 }
$1 == "refused" { word = "refused"; refusal = $2; at_line = $3 }
$1 == "before" {
    lines_before = $2; relations_before = $3; keys_before = $4; programs_before = $5
    statements_before = $6; body_before = $7; links_before = $8; depth = $9
}
$1 == "unfolds" { program_line[$2] = $3; unfolds[$2] = $4; unfold_statements[$2] = $5 }

END {
    if (word == "robust") tell_robust()
    if (word == "danger") tell_danger()
    if (word == "refused") tell_refused()
}
