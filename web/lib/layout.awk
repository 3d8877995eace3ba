# Checks LLVM text: nothing in it depends on how long a pointer is, so it means the same with pointers of 4 bytes as with those of 8.
# - Memory is laid out in bytes: a local variable is a plain value or an array of bytes, and addresses are computed in bytes. So a pointer inside a
#   structure has the room that the lowering gave it, and a shorter one fits.
# - A local variable that holds a pointer is only loaded and stored as a pointer, so its length is never taken for 8.
# - A value of several parts is loaded or stored whole only if its parts lie as far apart with shorter pointers: it has no pointer, or it is a pointer and
#   then 64 bits. The one exception is a load of `{ i8, ptr }`, whose parts narrow.awk loads one by one.
# - An address becomes a number of 64 bits by `ptrtoaddr` alone, which narrow.awk writes for a shorter pointer. No number becomes a pointer, and there is
#   no machine code.
# Ends with status 1 and the line if the text has anything else.

function fail() {
    print "layout.awk: line " FNR " depends on the length of a pointer: " $0 > "/dev/stderr"
    failed = 1
    exit 1
}

/^define/ { split("", slots); next }
!/^ / { next }
/ptrtoint|inttoptr|addrspacecast| asm / { fail() }
/ptrtoaddr/ && !/^  %[A-Za-z0-9_.]+ = ptrtoaddr ptr [^ ,]+ to i64$/ { fail() }
/ (load|store) [[{<]/ {
    type = $0
    sub(/^.* (load|store) /, "", type)
    sub(/}.*/, "}", type)
    if (type ~ /ptr/ && type != "{ ptr, i64 }" && !/^  %[A-Za-z0-9_.]+ = load \{ i8, ptr \}, ptr %[A-Za-z0-9_.]+, align 8$/) fail()
}
/getelementptr/ && !/getelementptr (inbounds )?(nuw )?i8,/ { fail() }
/= alloca / {
    if (!/= alloca (i1|i8|i16|i32|i64|double|ptr|\[[0-9]+ x i8\]),/) fail()
    if (/= alloca ptr,/) slots[$1] = 1
    allocas++
    next
}
{
    line = $0
    while (match(line, /%[A-Za-z0-9_.]+/)) {
        name = substr(line, RSTART, RLENGTH)
        line = substr(line, RSTART + RLENGTH)
        if (name in slots && index($0, "load ptr, ptr " name ",") == 0 && $0 !~ ("store ptr [^ ]+, ptr " name ",")) fail()
    }
}
END {
    if (failed) exit 1
    if (!allocas) { print "layout.awk: no LLVM text" > "/dev/stderr"; exit 1 }
}
