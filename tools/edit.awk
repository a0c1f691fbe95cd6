# edit.awk EDIT FILE: FILE with the text after `old: ` in EDIT, which stands in it once, replaced by the text after `new: `.
FNR == NR { if (sub(/^old: /, "")) old = $0; else if (sub(/^new: /, "")) new = $0; next }
{
    rest = $0
    while (old != "" && (at = index(rest, old))) {
        found++
        printf "%s%s", substr(rest, 1, at - 1), new
        rest = substr(rest, at + length(old))
    }
    print rest
}
END { if (found != 1) { print "the old text stands in " FILENAME " " found + 0 " times" >"/dev/stderr"; exit 1 } }
