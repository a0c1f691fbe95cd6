# twice.awk SOURCE..: a line for each function of the clients' modules `twice` and each call that it makes twice or more, tab between them: the function
# (use_row::twice::check) and the call (row::check, or Session::feed for a method).
function over() {
    if (name == "") return
    for (call in made) {
        if (made[call] >= 2) printf "%s\t%s\n", name, call
        delete made[call]
    }
    for (variable in type) delete type[variable]
    name = ""
}
FNR == 1 { over(); split(FILENAME, path, "/"); crate = path[2] }
/^pub fn / { over(); name = $3; sub(/[(<].*/, "", name); name = crate "::twice::" name }
name != "" {
    rest = $0
    while (match(rest, /[a-z_]+: (&mut |&)?[A-Z][A-Za-z0-9]*/)) {
        variable = word = substr(rest, RSTART, RLENGTH)
        rest = substr(rest, RSTART + RLENGTH)
        sub(/:.*/, "", variable)
        sub(/.* /, "", word)
        type[variable] = word
    }
    rest = $0
    while (match(rest, /[A-Za-z_][A-Za-z0-9_]*(::|\.)[a-z_][A-Za-z0-9_]*\(/)) {
        call = substr(rest, RSTART, RLENGTH - 1)
        rest = substr(rest, RSTART + RLENGTH)
        variable = call
        sub(/[:.].*/, "", variable)
        if (variable in type) sub(/.*\./, type[variable] "::", call)
        made[call]++
    }
}
END { over() }
