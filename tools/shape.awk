# shape.awk CRATES: a line for each crate of crates.txt that stands under none of the ten headings or under another than its name says, and for each crate of code
# whose line names a crate that stands neither above it nor under laws.
BEGIN {
    split("words packets rows session files face laws clients probe programs", names, " ")
    for (i in names) known[names[i]] = 1
}
function own(name) {
    if (name == "sdi") return "face"
    if (name ~ /^law_/ || name == "demands") return "laws"
    if (name ~ /^use_/) return "clients"
    if (name ~ /^probe(_|$)/) return "probe"
    return ""
}
/^# [a-z]+$/ { heading = $2; if (!(heading in known)) print "crates.txt: " heading " is none of the ten headings"; next }
{ sub(/#.*/, "") }
/:/ {
    name = $1
    sub(/:.*/, "", name)
    sub(/[^:]*:/, "")
    crates[++count] = name
    under[name] = heading
    place[name] = count
    line[name] = $0
}
END {
    for (i = 1; i <= count; i++) {
        name = crates[i]
        heading = under[name]
        role = own(name)
        if (!(heading in known)) print "crates.txt: " name " stands under no heading"
        else if (role != "" && role != heading) print "crates.txt: " name " stands under " heading ", and by its name under " role
        else if (role == "" && heading ~ /^(face|laws|clients|probe)$/) print "crates.txt: " name " stands under " heading ", where its name does not belong"
        if (heading !~ /^(words|packets|rows|session|files)$/) continue
        n = split(line[name], names, " ")
        for (k = 1; k <= n; k++)
            if (names[k] in place && place[names[k]] > i && under[names[k]] != "laws")
                print "crates.txt: " name " names " names[k] ", which stands below it"
    }
}
