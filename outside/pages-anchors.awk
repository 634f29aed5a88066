# pages-anchors.awk: the names by which links reach the headings of a page: small letters, no punctuation, a hyphen for each space; a name that was
# there before gets a number.
/^ *```/ { fence = !fence; next }
fence { next }
/^#+ / {
    name = tolower($0)
    sub(/^#+ +/, "", name)
    sub(/ +#*$/, "", name)
    gsub(/\]\([^)]*\)/, "", name)
    gsub(/[][`!"#$%&'()*+,.\/:;<=>?@\\^{|}~]/, "", name)
    gsub(/ /, "-", name)
    print (name in seen ? name "-" seen[name] : name)
    seen[name]++
}
