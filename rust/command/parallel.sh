#!/usr/bin/env bash
# `sitgurp stream` under GNU parallel: one stream for each core, each with one thread, on 100,000 tables of at most 256 cells. Each answer is held against the
# second implementation, and against one stream on all cores. Reports tables per second and core, by the time that the cores worked. It is no part of
# ./test: it installs the package `parallel` of the distribution where that is missing.
# usage: rust/command/parallel.sh [TABLES [SEED [CELLS]]]
set -euo pipefail
cd "$(dirname "$0")/../.."
tables=${1:-100000} seed=${2:-1} cells=${3:-256}
cores=$(nproc)
command -v parallel > /dev/null || apt-get install -y --no-install-recommends parallel > /dev/null
(cd rust && cargo build --offline --quiet --release -p load -p command)
built=$PWD/rust/target/release
folder=$(mktemp -d)
trap 'rm -rf "$folder"' EXIT
"$built/requests" write "$tables" "$seed" "$cells" > "$folder/requests"

# timed NAME COMMAND ..: runs it on the requests, and reports how long it took.
timed() {
    local name=$1
    shift
    { TIMEFORMAT='%R %U %S' && time "$@" < "$folder/requests" > "$folder/answers-$name"; } 2> "$folder/time"
    awk -v name="$name" -v tables="$tables" -v cores="$cores" '{
        worked = $2 + $3
        printf "%s: %d tables in %.2f s on %d cores, %.2f s of core time: %.0f tables a second and core\n", name, tables, $1, cores, worked, tables / worked
    }' "$folder/time"
}

timed parallel parallel --will-cite --pipe --keep-order --block 2M -j "$cores" "$built/sitgurp" stream --jobs 1
timed alone "$built/sitgurp" stream
cmp "$folder/answers-parallel" "$folder/answers-alone"
"$built/requests" check "$tables" "$seed" "$cells" < "$folder/answers-parallel"
