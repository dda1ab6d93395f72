# signatures.awk FILES: the calls that a crate exports, from its source. For each function marked #[unsafe(no_mangle)], a line: its name,
# what it returns, then a word for each argument, or two: a number is i32, i64, float or double, a list `ptr i64`, its address and its
# length. A struct returned is the word `struct`.
# A function whose arguments or answer are of another form, or that this cannot read, is refused by name: a struct by value, a number of
# less than 32 bits, a struct of floats alone. Those travel in other ways on x86-64 and on Arm, and no call here has been tried with them.

function plain(type) {
    if (type == "f32") return "float"
    if (type == "f64") return "double"
    if (type ~ /^[ui]32$/) return "i32"
    if (type ~ /^([ui]64|[ui]size)$/) return "i64"
    return ""
}

function refuse(name, why) {
    print "native-archive: " name ": " why >"/dev/stderr"
    bad = 1
}

# The words for a returned type; a struct has fields that are plain, and not floats alone: those come back in registers of their own on Arm.
function returned(name, type,    n, k, field, floats) {
    if (type == "") return "void"
    if (plain(type) != "") return plain(type)
    if (!(type in fields)) { refuse(name, "returns " type ", which is no struct of this crate"); return "" }
    n = split(fields[type], field, " ")
    for (k = 1; k <= n; k++) {
        if (plain(field[k]) == "") refuse(name, "returns " type ", which has a field of type " field[k])
        if (field[k] ~ /^f/) floats++
    }
    if (floats == n) refuse(name, "returns " type ", which has floats alone")
    return "struct"
}

function passed(name, type) {
    if (type ~ /^&(mut )?\[[A-Za-z0-9_]+\]$/) return "ptr i64"
    if (plain(type) == "") refuse(name, "takes a " type ", which may travel in another way on Arm")
    return plain(type)
}

# head: everything from `fn` to the contract or the body
function exported(head,    name, inside, back, n, k, argument, type, words) {
    name = head; sub(/^.*fn /, "", name); sub(/[^A-Za-z0-9_].*$/, "", name)
    inside = head; sub(/^[^(]*\(/, "", inside)
    back = inside; sub(/\).*$/, "", inside); sub(/^[^)]*\)/, "", back)
    gsub(/->|[ \t]/, "", back)
    words = returned(name, back)
    n = split(inside, argument, ",")
    for (k = 1; k <= n; k++) {
        type = argument[k]; sub(/^[^:]*:/, "", type); gsub(/^[ \t]+|[ \t]+$/, "", type)
        if (type != "") words = words " " passed(name, type)
    }
    heads[++count] = name " " words
}

{ sub(/\/\/.*/, "") }
/^[ \t]*pub struct [A-Za-z0-9_]+ *\{/ { struct = $0; sub(/^.*struct /, "", struct); sub(/[ {].*$/, "", struct); fields[struct] = ""; next }
struct != "" && /\}/ { struct = "" }
struct != "" { type = $0; sub(/^[^:]*:/, "", type); gsub(/[ \t,]/, "", type); fields[struct] = fields[struct] " " type }
/^[ \t]*#\[unsafe\(no_mangle\)\]/ { open = 1; text = ""; sub(/^.*no_mangle\)\]/, "") }
open { text = text " " $0 }
open && /(ensures|requires|\{)/ { open = 0; sub(/(ensures|requires|\{).*$/, "", text); waiting[++texts] = text }
END {
    for (k = 1; k <= texts; k++) exported(waiting[k])
    if (count == 0) refuse("the crate", "exports no function")
    if (bad) exit 1
    for (k = 1; k <= count; k++) print heads[k]
}
