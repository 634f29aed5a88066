# pages-paths.awk: paths for pages-examples.awk and pages-links.awk.

# the path, from the repository's folder, of a file that a page names; one that leaves the folder begins with `..`
function path_of(page, file,    parts, count, kept, n, i, all) {
    sub(/[^\/]*$/, "", page)
    count = split(page file, parts, "/")
    n = 0
    for (i = 1; i <= count; i++) {
        if (parts[i] == "" || parts[i] == ".") continue
        if (parts[i] == ".." && n > 0 && kept[n] != "..") n--
        else kept[++n] = parts[i]
    }
    all = n ? kept[1] : "."
    for (i = 2; i <= n; i++) all = all "/" kept[i]
    return all
}
