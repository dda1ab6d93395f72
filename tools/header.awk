# header.awk BYTES HEADER: the functions that an archive gives, beside those that a header declares. BYTES is `od -An -v -tu1 ARCHIVE`; the
# archive's index, its first member, has the name of every function that it gives. One that only one of the two has is told by its name,
# and the status is 1. A declaration begins its line; what is static is the header's own. HEADER may be any other list of lines that begin
# with a name and a parenthesis; -v of=WORDS says what it is, in place of "the header".

function refuse(name, why) {
    print "native-archive: " name ": " why >"/dev/stderr"
    bad = 1
}

# 8 bytes of the archive and 60 of the index's head stand before it: how many names, a place of four bytes for each, the names, each ended by 0
function given(    at, left, name) {
    if (byte[8] != 47 || byte[9] != 32) { refuse("the archive", "has no index"); return }
    left = ((byte[68] * 256 + byte[69]) * 256 + byte[70]) * 256 + byte[71]
    for (at = 72 + 4 * left; left > 0 && at < bytes; at++) {
        if (byte[at] != 0) { name = name sprintf("%c", byte[at]); continue }
        if (!(name in declared)) refuse(name, "in the archive, but not declared in " of)
        met[name]
        name = ""
        left--
    }
}

BEGIN { if (of == "") of = "the header" }
FNR == NR { for (k = 1; k <= NF; k++) byte[bytes++] = $k + 0; next }
/^[a-z]/ && !/^static / && match($0, /[A-Za-z0-9_]+\(/) { declared[substr($0, RSTART, RLENGTH - 1)] }
END {
    given()
    for (name in declared) if (!(name in met)) refuse(name, "declared in " of ", but not in the archive")
    exit bad
}
