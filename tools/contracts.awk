# contracts.awk input=1 EDITS input=2 TWICE input=3 FUNCTIONS input=4 FACE, with part=face or inner: the tables of tools/contracts.
function error(text) { print "error: " text >"/dev/stderr"; bad = 1 }
input == 1 { edit = $3; sub(/.*\//, "", edit); ruled[$1] = ruled[$1] (ruled[$1] == "" ? "" : "; ") $2 ": `" edit "`"; edits[$1]++; next }
input == 2 { if (!($2 in twice)) twice[$2] = $1; next }
input == 3 { functions[++count] = $2; layer[count] = $1; defined[$2] = $3; crate = $2; sub(/::.*/, "", crate); code[crate] = 1; if ($4 != "") error($2 ": " $4); next }
{
    calls++
    heading[calls] = $1
    face[calls] = $2
    own[calls] = $3
    about[calls] = $4
    refuses[calls] = $5
    shown[$3] = 1
}
END {
    for (i = 1; i <= calls; i++) {
        name = own[i]
        method = name
        sub(/^[a-z0-9_]+::/, "", method)
        client = name in twice ? twice[name] : face[i] in twice ? twice[face[i]] : method in twice ? twice[method] : ""
        if (!(name in defined)) error("crates/sdi: " name " is no public function of a crate of code")
        if (edits[name] < 2) error(name " is a call of the face with fewer than two must-fail edits")
        if (client == "") error(name " is a call of the face, and no client calls it twice")
        if (refuses[i] == "") error("crates/sdi: " face[i] " does not say what it refuses")
        if (part != "face") continue
        if (heading[i] != heading[i - 1]) {
            printf "%s### %s\n\n", (i == 1 ? "" : "\n"), toupper(substr(heading[i], 1, 1)) substr(heading[i], 2)
            print "| call | what it is for | refuses | definitions | called twice by | rules out |"
            print "|---|---|---|---|---|---|"
        }
        printf "| `%s`, which is `%s` | %s | %s | %s | `%s` | %s |\n", face[i], name, about[i], refuses[i], defined[name], client, ruled[name]
    }
    for (i = 1; i <= count; i++) {
        name = functions[i]
        if (name in shown) continue
        if (!edits[name]) error(name " is a public function without a must-fail edit")
        if (part != "inner") continue
        if (layer[i] != before) {
            printf "%s### Inside %s\n\n", (before == "" ? "" : "\n"), layer[i]
            print "| function | definitions | rules out |"
            print "|---|---|---|"
            before = layer[i]
        }
        printf "| `%s` | %s | %s |\n", name, defined[name], ruled[name]
    }
    for (name in ruled) {
        crate = name
        sub(/::.*/, "", crate)
        if (crate in code && !(name in defined)) error("a must-fail edit names " name ", which is no public function")
    }
    exit bad
}
