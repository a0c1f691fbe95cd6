# face.awk SOURCE: a line for each call of the face crates/sdi/src/lib.rt, in its order, tab between its fields: the heading above it, its name in the face, its own
# name, what it is for, and the numbers with which it refuses (as they stand there).
function call(face, own, text) {
    refuses = text
    if (!sub(/.*Refuses /, "", refuses)) refuses = ""
    sub(/\.$/, "", refuses)
    sub(/ *Refuses .*/, "", text)
    printf "%s\tsdi::%s\t%s\t%s\t%s\n", heading, face, own, text, refuses
}
/^\/\/ ---- / { heading = substr($0, 9); said = ""; next }
/^\/\/ - [a-z_]+: / { methods++; method[methods] = $3; sub(/:$/, "", method[methods]); sub(/^\/\/ - [a-z_]+: /, ""); told[methods] = $0; next }
/^\/\/ / { if (methods) told[methods] = told[methods] " " substr($0, 4); else said = said (said == "" ? "" : " ") substr($0, 4); next }
/^pub use / {
    own = $3
    sub(/;$/, "", own)
    face = $4 == "as" ? $5 : own
    sub(/;$/, "", face)
    sub(/.*::/, "", face)
    if (methods) for (i = 1; i <= methods; i++) call(face "::" method[i], own "::" method[i], told[i])
    else if (said !~ /^Types[.;]/) call(face, own, said)
    if (said !~ /^Types[.;]/) said = ""
    methods = 0
    next
}
/^$/ { said = "" }
