# The forms in which ./install puts the proved library in place. `here` is the repository.
. "$here/web/lib/kit.sh"

# Prints the version that the header has.
header_version() {
    sed -n 's/^#define SITGURP_VERSION "\(.*\)"$/\1/p' "$here/include/sitgurp.h"
}

# Prints the names of the calls that the header declares, those with a body in the header left out.
header_calls() {
    sed -n 's/^[a-z0-9_]* \(sitgurp_[a-z_]*\)(.*/\1/p' "$here/include/sitgurp.h"
}

# Links the shared library $1 from the static one. It exports the header's names alone, and needs nothing but the C library.
shared_library() {
    local major
    major=$(header_version | cut -d. -f1)
    {
        echo "SITGURP_$major {"
        echo 'global:'
        header_calls | sed 's/$/;/'
        echo 'local: *;'
        echo '};'
    } > "$1.map"
    "${CC:-cc}" -shared -nostartfiles -s -Wl,-soname,"libsitgurp.so.$major" -Xlinker "--version-script=$1.map" -Wl,-z,defs,-z,relro,-z,now \
        -Wl,--whole-archive "$archive" -Wl,--no-whole-archive -o "$1"
    rm "$1.map"
}

# Compiles the library's LLVM module for Linux on aarch64, and writes the static library $1.
aarch64_library() {
    local clang ar words parts=$1.parts
    library_and_module
    clang=$(kit_clang)
    ar=$(kit_home)/toolchain/bin/llvm-ar
    mapfile -t words < <(kit_flags)
    mkdir -p "$parts"
    "$clang" --target=x86_64-linux-gnu -Wno-override-module -Xclang -disable-llvm-passes -S -emit-llvm -x ir "$here/target/web/module.bc" \
        -o "$parts/x86_64.ll"
    awk -f "$here/rust/command/aarch64.awk" "$parts/x86_64.ll" > "$parts/aarch64.ll"
    "$clang" --target=aarch64-linux-gnu -O3 -fPIC "${words[@]}" -mllvm -aarch64-load-store-renaming=false -Wno-override-module -c -x ir \
        "$parts/aarch64.ll" -o "$parts/capi.o"
    rm -f "$1"
    "$ar" rcD "$1" "$parts/capi.o"
    rm -r "$parts"
}
