# The Rattle kit: where its compiler is, and how the static library is built so that its LLVM module is kept too. `here` is the repository, whose
# rust/command/build.sh has been read.

# Prints the kit's folder, the one above that of `rt`.
kit_home() {
    local rt
    rt=$(readlink -f "$(command -v rt)") || { echo 'the command rt is not found' >&2; return 2; }
    (cd "$(dirname "$rt")/.." && pwd -P)
}

# Prints the kit's clang, which also links WebAssembly if it is called wasm-ld.
kit_clang() {
    readlink -f "$(kit_home)/toolchain/bin/clang"
}

# Prints the words by which the kit has clang leave out what compiles some correct code wrongly: those that it gives for WebAssembly.
kit_flags() {
    printf '%s\n' -mllvm -expand-div-rem-bits=64 -mllvm -expand-fp-convert-bits=64 -ffunction-sections -fdata-sections -mllvm -trap-unreachable \
        -mllvm -no-x86-call-frame-opt -mllvm -disable-machine-licm -mllvm -disable-postra-machine-licm -mllvm -sink-common-insts=false
}

# Makes the folder $1 a toolchain of links to the kit's. Its clang copies the LLVM module that it is given to $2, and is otherwise the kit's.
toolchain_that_saves() {
    local tools entry
    tools=$(kit_home)/toolchain
    rm -rf "$1"
    mkdir -p "$1/bin"
    ln -s "$tools/lib" "$1/lib"
    for entry in "$tools"/bin/*; do
        [ "${entry##*/}" = clang ] || ln -s "$entry" "$1/bin/"
    done
    cat > "$1/bin/clang" <<.
#!/bin/sh
for word; do
    case \$word in *.bc) cp "\$word" '$2' ;; esac
done
exec '$tools/bin/clang' "\$@"
.
    chmod +x "$1/bin/clang"
}

# Proves capi over the libraries in crates/*/out, and builds the static library by the toolchain $1. `rt lib` calls the compiler so too, but with the kit's
# toolchain alone.
static_library() {
    local kit name words=()
    kit=$(kit_home)
    for name in $(sed -n 's/^capi staticlib://p' "$here/crates.txt"); do
        words+=(--extern "$name=$here/crates/$name/out/rlib/$name.rlib")
    done
    for name in $(crates_under capi); do
        words+=(-L "dependency=$here/crates/$name/out/rlib")
    done
    mkdir -p "$here/crates/capi/out" "$here/target"
    (cd "$here/crates/capi" && in_memory "$kit/bin/rattle" build --crate-name capi src/lib.rt --extern "std=$kit/rlibs/std.rlib" \
        -L "dependency=$kit/rlibs" "${words[@]}" --antt-project "$kit/rattle/logic/antt-project.json" --logic-built "$kit/logic_built" --jobs 2 \
        --links capi= --crate-type staticlib --toolchain "$1" --backend llvm --incremental out/incremental -o "$archive") > "$here/target/run.log" 2>&1
}

# Writes the static library and its LLVM module, target/web/module.bc, over the libraries in crates/*/out.
archive_and_module() {
    local module=$here/target/web/module.bc tools=$here/target/web/toolchain
    mkdir -p "$here/target/web"
    rm -f "$module"
    toolchain_that_saves "$tools" "$module"
    static_library "$tools" || failed 'rattle build of crates/capi'
    rm -r "$tools"
    [ -f "$module" ] || { echo 'rattle build gave clang no LLVM module (*.bc)' >&2; exit 2; }
}

# Writes both if one is missing or older than the crates, once these are proved.
library_and_module() {
    ! is_old "$archive" || rm -f "$here/target/web/module.bc"
    if is_old "$here/target/web/module.bc"; then
        prove
        archive_and_module
    fi
}
