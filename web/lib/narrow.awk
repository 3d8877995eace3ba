# Rewrites the library's LLVM module, as text that layout.awk has passed, from x86-64 to a target with pointers of 4 bytes, whose own `target` lines are to
# stand before what this prints. An address that becomes a number is its 32 bits with zeros before them, so numbers of addresses compare and subtract as
# they do on x86-64 where all memory lies below 2 to the power 32. A load of `{ i8, ptr }` takes its pointer from 8 bytes on, where the stores put it.
# Ends with status 1 if an address becomes a number, or such a value is loaded or stored, in another way.

/^target (datalayout|triple) = / { next }

/^attributes / { sub(/ "target-cpu"="[^"]*"/, "") }

/ptrtoaddr/ {
    if ($0 !~ /^  %[A-Za-z0-9_.]+ = ptrtoaddr ptr [^ ,]+ to i64$/) {
        print "narrow.awk: line " FNR " takes an address in another way: " $0 > "/dev/stderr"
        failed = 1
        exit 1
    }
    print "  " $1 ".short = ptrtoaddr ptr " $5 " to i32"
    print "  " $1 " = zext i32 " $1 ".short to i64"
    next
}

/ (load|store) \{ i8, ptr \}/ {
    if ($0 !~ /^  %[A-Za-z0-9_.]+ = load \{ i8, ptr \}, ptr %[A-Za-z0-9_.]+, align 8$/) {
        print "narrow.awk: line " FNR " loads or stores a byte and a pointer in another way: " $0 > "/dev/stderr"
        failed = 1
        exit 1
    }
    from = $9
    sub(/,$/, "", from)
    print "  " $1 ".byte = load i8, ptr " from ", align 8"
    print "  " $1 ".place = getelementptr i8, ptr " from ", i64 8"
    print "  " $1 ".pointer = load ptr, ptr " $1 ".place, align 8"
    print "  " $1 ".half = insertvalue { i8, ptr } poison, i8 " $1 ".byte, 0"
    print "  " $1 " = insertvalue { i8, ptr } " $1 ".half, ptr " $1 ".pointer, 1"
    next
}

{ print }

END { exit failed }
