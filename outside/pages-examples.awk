# pages-examples.awk: cuts a page into its examples, as pages.sh describes them. Texts go to MADE/N.text, what is expected to MADE/N.want. For each
# example a line `N LINE KIND FILE` is printed (FILE from the repository's folder, or N.text), and `N LINE wrong MESSAGE` where the page is at fault.
# Needs pages-paths.awk. Variables: made, page.

function wrong(line, message) { print ++number, line, "wrong", message }

# the words after a fence: `option[word]`, and the file of file=FILE
function read_info(info,    count, words, i) {
    split("", option)
    file = ""
    count = split(info, words, " ")
    kind = words[1]
    for (i = 2; i <= count; i++) {
        if (words[i] ~ /^file=./) file = substr(words[i], 6)
        else if (kind == "workload" && words[i] ~ /^(crlf|cut|bom|tab|numbered|short)$/) option[words[i]] = 1
        else wrong(began, "nobody knows what `" words[i] "` says of a " kind)
    }
    if (kind !~ /^(workload|report|explain|picture|sql|sh|text|dot|)$/) wrong(began, "nobody knows what a " kind " is")
}

function put_line(line, end) {
    if (option["tab"]) gsub("→", "\t", line)
    printf "%s%s", line, end > target
}

# writes the lines of a text into the file target
function put_text(    i, end) {
    printf "%s", option["bom"] ? "\357\273\277" : "" > target
    end = option["crlf"] ? "\r\n" : "\n"
    for (i = 1; i <= lines; i++) put_line(text[i], option["cut"] && i == lines ? "" : end)
    close(target)
}

# takes the numbers off the lines and keeps the text for the tables
function take_numbers(    i) {
    for (i = 1; i <= lines; i++) {
        if (text[i] !~ /^ *[0-9]+  / || text[i] + 0 != i) wrong(began + i, "this line should have number " i)
        sub(/^ *[0-9]+  /, "", text[i])
        base[i] = text[i]
    }
    bases = lines
}

# the lines between two that differ in one field, a number that counts up; `count` is how many stand in `long` already
function count_up(before, after,    a, b, n, m, i, field, k, line) {
    n = split(before, a, " ")
    m = split(after, b, " ")
    for (i = 1; i <= n; i++) if (a[i] != b[i]) { m += field ? 1000 : 0; field = i }
    if (n != m || !field || a[field] !~ /^[0-9]+$/ || b[field] !~ /^[0-9]+$/) { wrong(began, "the lines around ... do not count up"); return }
    for (k = a[field] + 1; k < b[field] + 0; k++) {
        line = ""
        for (i = 1; i <= n; i++) line = line (i > 1 ? " " : "") (i == field ? k : a[i])
        long[++count] = line
    }
}

# writes out what `...` stands for
function lengthen(    i, k, words) {
    count = 0
    for (i = 1; i <= lines; i++) {
        if (text[i] == "...") count_up(text[i - 1], text[i + 1])
        else if (text[i] ~ /^\.\.\. [0-9]+ times$/) { split(text[i], words, " "); for (k = 2; k <= words[2]; k++) long[++count] = text[i - 1] }
        else long[++count] = text[i]
    }
    for (i = 1; i <= count; i++) text[i] = long[i]
    lines = count
}

# an example: what is expected of the file (or of the last text)
function example(what, where, subject) { print ++number, where, what, subject }

function put_want(    i) {
    target = made "/" (number + 1) ".want"
    printf "" > target
    for (i = 1; i <= lines; i++) print text[i] > target
    close(target)
}

function end_workload() {
    if (pending) wrong(pending, "nothing is said of this text")
    if (option["numbered"]) take_numbers()
    if (option["short"]) lengthen()
    pending = file == "" ? began : 0
    target = made "/" (number + 1) "." (file == "" ? "text" : "want")
    put_text()
    current = file == "" ? target : path_of(page, file)
    if (file != "") example("same", began, path_of(page, file))
    else number++
}

function end_block() {
    if (kind == "workload") end_workload()
    else if (kind ~ /^(report|explain|picture)$/) {
        if (file == "" && current == "") { wrong(began, "there is no text before this " kind); return }
        put_want()
        example(kind, began, file == "" ? current : path_of(page, file))
        if (file == "") pending = 0
    }
}

# a cell of a table without the spaces around it, and what stands in a cell that is one code span
function trimmed(cell) { sub(/^ +/, "", cell); sub(/ +$/, "", cell); return cell }
function code(cell) { return cell ~ /^`[^`]+`$/ ? substr(cell, 2, length(cell) - 2) : "" }

# writes the numbered text with a line put in, changed or taken out
function put_changed(how, at, line,    i) {
    target = made "/" (number + 1) ".text"
    for (i = 1; i <= bases; i++) {
        if (i != at || how == "after") print base[i] > target
        if (i == at && how != "without") print line > target
    }
    close(target)
    return target
}

# a row of a table: cells[2] where, cells[3] line, cells[4] report, the last one right
function row(    cells, count, place, line, report, right) {
    count = split($0, cells, "|")
    split(trimmed(cells[2]), place, " ")
    line = code(trimmed(cells[3]))
    report = trimmed(cells[4])
    right = rights ? code(trimmed(cells[rights])) : ""
    if (count != columns || place[1] !~ /^(for|after|without)$/ || place[2] < 1 || place[2] > bases || line == "") {
        wrong(NR, "this row is none, or there is no numbered text before it")
        return
    }
    if (place[1] == "without" && line != base[place[2]]) wrong(NR, "line " place[2] " is another")
    lines = 2
    text[1] = report ~ /^[0-9]+ [0-9]+$/ ? "refused line" : "verdict programs nodes edges back"
    text[2] = report
    put_want()
    example("row", NR, put_changed(place[1], place[2], line))
    if (right != "") example("right", NR, put_changed(place[1], place[2], right))
}

function begin_table(    cells, i) {
    columns = split($0, cells, "|")
    rights = 0
    for (i = 5; i < columns; i++) if (trimmed(cells[i]) == "right") rights = i
    table = 2
}

/^```/ {
    if (!fence) { fence = 1; began = NR; lines = 0; read_info(substr($0, 4)) }
    else { fence = 0; end_block() }
    next
}
fence { text[++lines] = $0; next }
/^ *```|^~~~/ { wrong(NR, "a fence begins in the first column and has three backquotes") }
/^\| *where *\| *line *\| *report *\|/ { begin_table(); next }
table == 2 { table = 1; if ($0 !~ /^\|[-:| ]+\|$/) wrong(NR, "this table has no rule under its head"); next }
table == 1 { if (/^\|/) { row(); next } table = 0 }
/^\| *(for|after|without) [0-9]+ *\|/ { wrong(NR, "this row stands in no table of examples") }
END {
    if (fence) wrong(began, "this fence is never closed")
    if (pending) wrong(pending, "nothing is said of this text")
}
