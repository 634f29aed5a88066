# pages-links.awk: the relative links of a page, of all forms, as lines `LINE FILE ANCHOR`, FILE from the repository's folder.
# Needs pages-paths.awk. Variable: page.

function link(target,    at, anchor) {
    sub(/^</, "", target)
    sub(/>?( .*)?$/, "", target)
    if (target == "" || target ~ /^[a-z]+:/) return
    at = index(target, "#")
    anchor = at ? substr(target, at + 1) : ""
    if (at) target = substr(target, 1, at - 1)
    print NR, (target == "" ? page : path_of(page, target)), anchor
}

/^ *```/ { fence = !fence; next }
fence { next }
{
    rest = $0
    gsub(/`[^`]*`/, "code", rest)
    if (rest ~ /^\[[^]]+\]: /) { target = rest; sub(/^\[[^]]+\]: */, "", target); link(target); next }
    while (match(rest, /\]\([^)]*\)/)) {
        link(substr(rest, RSTART + 2, RLENGTH - 3))
        rest = substr(rest, RSTART + RLENGTH)
    }
}
