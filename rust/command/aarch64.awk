# Rewrites the library's LLVM module, as text, from the C calling convention of x86-64 Linux to that of aarch64 Linux. The two differ in one point here:
# if a struct of more than 16 bytes is returned, x86-64 takes its address as an ordinary first parameter and returns that address, while aarch64 takes it in
# a register of its own, which LLVM calls `sret`, and returns nothing. Smaller structs, numbers and pointers go the same way in both.
# A call that returns anything else than expected is an error.

/^target (datalayout|triple) = / { next }

/^define [^@]*@sitgurp_/ {
    calls++
    if (/^define noundef ptr @sitgurp_[a-z_]*\(ptr noundef %a0/) {
        sub(/^define noundef ptr /, "define void ")
        sub(/\(ptr noundef %a0/, "(ptr noundef sret(i8) %a0")
        returns_struct = 1
    } else if (!/^define (\{ i64, i64 \}|noundef i32) @sitgurp_/) {
        print "a call returns neither a struct nor a number: " $0 > "/dev/stderr"
        failed = 1
    }
}
returns_struct && /^  ret / {
    if ($0 != "  ret ptr %a0") {
        print "a call does not return the address of its struct: " $0 > "/dev/stderr"
        failed = 1
    }
    $0 = "  ret void"
}
/^}$/ { returns_struct = 0 }

/^attributes / { sub(/ "target-cpu"="[^"]*"/, "") }

{ print }

END { exit failed || !calls }
