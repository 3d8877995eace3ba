# Shared by ./run, ./install, ./test and web/build: proves the library and builds the command if they are missing or older than their sources.
# `here` is the repository.

# Where `rt lib` in crates/capi writes the static library.
archive=$here/crates/capi/out/libcapi.a

# Tells whether a file is missing, or older than the crates. What `rt` makes in a crate's out/ is no source.
is_old() {
    [ ! -f "$1" ] || [ -n "$(find "$here/crates" "$here/crates.txt" -name out -prune -o -newer "$1" \( ! -type d -o -path "$here/crates/*/*" \) -print -quit)" ]
}

# Prints how many crates to prove at once, for a number of cores and of free megabytes. The largest check takes 2.4 GB, and its files 0.6 GB.
jobs_for() {
    local by_cores=$(($1 < 4 ? $1 + 1 : 2 * $1)) by_memory=$(($2 / 3000))
    local jobs=$((by_cores < by_memory ? by_cores : by_memory))
    echo $((jobs < 1 ? 1 : jobs))
}

# Prints how many checks this machine has memory for at once. RT_JOBS overrides it.
parallel_checks() {
    local megabytes
    megabytes=$(awk '/^MemAvailable:/ { print int($2 / 1024) }' /proc/meminfo 2>/dev/null || true)
    echo "${RT_JOBS:-$(jobs_for "$(nproc)" "${megabytes:-3000}")}"
}

# Prints how many crates to prove at once on this machine: no more than cores, since fewer checks at once share the caches better. RT_JOBS overrides it.
# `rt ci` chooses for itself, for crates and for must-fail edits.
parallel_crates() {
    local jobs cores
    jobs=$(parallel_checks)
    cores=$(nproc)
    echo "${RT_JOBS:-$((jobs < cores ? jobs : cores))}"
}

# Prints a new folder in memory, or nothing if there is none with room for the files of every check at once. Programs must be allowed to run there.
memory_folder() {
    local folder room=$((600 * $(parallel_checks)))
    folder=$(mktemp -d /dev/shm/sitgurp.XXXXXX 2>/dev/null) || return 0
    if [ "$(df -Pm "$folder" | awk 'NR == 2 { print $4 }')" -ge "$room" ] && cp "$(type -P true)" "$folder" && "$folder/true"; then
        rm "$folder/true"
        chmod 711 "$folder"
        echo "$folder"
    else
        rm -rf "$folder"
    fi
}

# Runs a command with its temporary files in memory if possible, and else where they would be. Each check writes thousands of small files and removes
# them; on a disk that can take a third of its time. The prover's allocator keeps memory that it has freed, which it would else ask for again.
in_memory() (
    folder=
    if [ -z "${TMPDIR:-}" ]; then
        folder=$(memory_folder)
        trap '[ -z "$folder" ] || rm -rf "$folder"' EXIT
    fi
    TMPDIR=${folder:-${TMPDIR:-/tmp}} MIMALLOC_PURGE_DELAY=${MIMALLOC_PURGE_DELAY:--1} "$@"
)

# Prints the crates that a crate uses, directly or not, in the order of crates.txt.
crates_under() {
    awk -v goal="$1" '
        function reach(name,    words, count, k) {
            if (!(name in line) || name in seen) return
            seen[name] = 1
            count = split(line[name], words, " ")
            for (k = 2; k <= count; k++) reach(words[k])
        }
        !/^#/ && NF { name = $1; sub(/:$/, "", name); line[name] = $0; names[++listed] = name }
        END { reach(goal); for (k = 1; k <= listed; k++) if (names[k] != goal && names[k] in seen) print names[k] }
    ' "$here/crates.txt"
}

# Reads what `rt all check` prints, and counts the crates on standard error, each as its check has ended.
proving() {
    local total=$1 done=0 line
    while IFS= read -r line; do
        case $line in
        '== summary') ;;
        '== '*)
            done=$((done + 1))
            printf 'crate %d of %d: %s\n' "$done" "$total" "${line#== }" >&2
            ;;
        esac
    done
}

# Prints the end of what `rt` said, and exits.
failed() {
    tail -n 20 "$here/target/run.log" >&2
    echo "$1 has failed; $here/target/run.log has all that it said" >&2
    exit 2
}

# Proves all crates, several at once, and leaves their libraries in crates/*/out. What is up to date is not proved again.
prove() {
    local jobs
    jobs=$(parallel_crates)
    mkdir -p "$here/target"
    echo "proving the library: once, some minutes, up to $jobs crates at once" >&2
    (cd "$here" && in_memory rt all check --jobs "$jobs" 2>&1) | tee "$here/target/run.log" | proving "$(grep -c '^[a-z]' "$here/crates.txt")" ||
        failed 'rt all check'
}

# Builds the static library. `rt lib` alone would prove one crate after the other, so they are proved before.
library() {
    if is_old "$archive"; then
        prove
        (cd "$here/crates/capi" && in_memory rt lib) >"$here/target/run.log" 2>&1 || failed 'rt lib in crates/capi'
    fi
}

# Builds a proved program, crates/NAME/out/NAME. `rt run` runs it too, on an empty sheet.
program_built() {
    local name=$1
    if is_old "$here/crates/$name/out/$name"; then
        (cd "$here/crates/$name" && in_memory rt run) </dev/null >"$here/target/run.log" 2>&1 || failed "rt run in crates/$name"
        # a crate that the program does not use may have changed
        touch "$here/crates/$name/out/$name"
    fi
}

# Builds the page, and prints where it is. This writes the static library too.
page_built() {
    [ -f "$here/target/web/sitgurp.html" ] || echo 'building the page: once' >&2
    "$here/web/build" >&2
    echo "$here/target/web/sitgurp.html"
}

# Builds the command, and prints where it is.
command_built() {
    [ -x "$here/rust/target/release/sitgurp" ] || echo 'building the command: once' >&2
    (cd "$here/rust" && cargo build --offline --quiet --release -p command) >&2
    echo "$here/rust/target/release/sitgurp"
}
