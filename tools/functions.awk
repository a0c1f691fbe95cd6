# functions.awk SOURCE..: a line for each public function of these files crates/CRATE/src/*.rt, tab between its fields: its name (crate::name, or crate::Type::name),
# the definitions that its contract names, as `crate File name`, and what is wrong with the contract (a precondition, or no postcondition).
function over() {
    if (name == "") return
    m = split(contract, words, /[ \t(){},;]+/)
    defs = kits = ""
    places = 0
    for (i = 1; i <= m; i++) {
        word = words[i]
        if (!(word in home) || word in listed) continue
        listed[word] = 1
        from = home[word]
        if (!(from in names)) place[++places] = from
        names[from] = names[from] (names[from] == "" ? "" : ", ") "`" word "`"
    }
    # what the kit defines is told where there is nothing else
    for (i = 1; i <= places; i++)
        if (place[i] ~ /^the kit/) kits = kits (kits == "" ? "" : "; ") names[place[i]] " of " place[i]
        else defs = defs (defs == "" ? "" : "; ") place[i] " " names[place[i]]
    if (defs == "") defs = kits
    for (word in listed) delete listed[word]
    for (word in names) delete names[word]
    fault = wants ? "it has a precondition" : ensures ? "" : "it has no postcondition"
    printf "%s\t%s\t%s\n", name, defs, fault
    name = ""
}
FNR == 1 {
    over()
    for (word in home) delete home[word]
    type = ""
    split(FILENAME, path, "/")
    crate = path[2]
}
# names brought in: `ghost use Rattle.bits.specs.Bits.{number};`, of the kit `Rattle.std.specs.Prelude`
using || /^ghost use / {
    brought = using ? brought $0 : $0
    using = $0 !~ /;/
    if (using) next
    from = brought
    sub(/^ghost use /, "", from)
    sub(/\.\{.*/, "", from)
    list = brought
    sub(/.*\.\{/, "", list)
    sub(/\}.*/, "", list)
    if (from !~ /^Rattle\./) next
    of = from
    sub(/^Rattle\./, "", of)
    sub(/\..*/, "", of)
    if (of == "std") of = "the kit's"
    file = from
    sub(/.*\./, "", file)
    m = split(list, words, /[ ,]+/)
    for (i = 1; i <= m; i++) home[words[i]] = of " " file
    next
}
/^impl / { type = $2 "::" }
/^}/ { over(); type = "" }
/^ *pub (extern "C" )?fn / {
    over()
    name = $0
    sub(/.*fn /, "", name)
    sub(/[(<].*/, "", name)
    name = crate "::" type name
    contract = ""
    wants = ensures = inside = 0
}
name != "" {
    if (/^ *requires /) { wants = 1; inside = 0 }
    if (/^ *ensures /) ensures = inside = 1
    if (/^ *\{/) over()
    else if (inside) contract = contract " " $0
}
END { over() }
