#!/usr/bin/env bash
# Under valgrind: the three programs on a hundred generated sheets each, good and damaged; each command of `sitgurp` on the examples; and
# some thousand calls of the library on buffers and sheets that lie on the heap with nothing after them. Ends with status 1 where valgrind
# reports an error, or where a program writes something else than the second implementation.
# The programs and the library are those in crates/*/out: `rt run` in crates/settle, make and tidy, and `rt lib` in crates/capi.
set -euo pipefail
cd "$(dirname "$0")/../.."
seed=${1:-1}
sheets=100
calls=3000
# what is only possibly lost is a record that Rust's library keeps of the main thread
tool=(valgrind --quiet --error-exitcode=99 --leak-check=full --show-leak-kinds=definite --errors-for-leak-kinds=definite)
folder=$(mktemp -d)
trap 'rm -rf "$folder"' EXIT
(cd rust && cargo build --offline --quiet --release -p load -p reference -p command)
built=rust/target/release
sitgurp=$PWD/$built/sitgurp
failed=0

# program PROGRAM KIND
program() {
    local errors=0 differing=0 sheet
    "$built/sheets" "$2" "$sheets" "$seed" "$folder/$1"
    for sheet in "$folder/$1"/*; do
        "${tool[@]}" "crates/$1/out/$1" < "$sheet" > "$folder/said" 2> "$folder/report" || {
            errors=$((errors + 1))
            cat "$folder/report"
        }
        "$built/reference" "$1" < "$sheet" | cmp -s - "$folder/said" || differing=$((differing + 1))
    done
    echo "$1: $sheets sheets, $errors with valgrind errors, $differing unlike the second implementation"
    [ "$errors" = 0 ] && [ "$differing" = 0 ] || failed=1
}

# What is behind `sitgurp`, with the status that is due.
of_sitgurp() {
    local due=$1 status=0
    shift
    commands=$((commands + 1))
    "${tool[@]}" "$sitgurp" "$@" > "$folder/said" 2> "$folder/report" || status=$?
    [ "$status" = "$due" ] || {
        amiss=$((amiss + 1)) failed=1
        echo "sitgurp $*: status $status where $due is due"
        cat "$folder/report"
    }
}

echo "seed $seed"
program settle net
program make table
program tidy loose
commands=0 amiss=0
printf 'name from to\nweight 0 2\nlight 1 1\nnear 0 8\n' > "$folder/shade.arrivals"
printf 'stroke;near;ink\n0;0;0\n' > "$folder/short.csv"
export SITGURP_PAGE=$PWD/web/page/page.html
printf '{"id":1,"call":"count","sheets":["%s"]}\nx\n' "$(awk '{ printf "%s\\n", $0 }' examples/seven.table)" > "$folder/calls"
cd examples
of_sitgurp 0 make shade.table
of_sitgurp 0 make --shallow seven.table
of_sitgurp 1 make majority.table
of_sitgurp 1 make -d "$folder/nets" figure1.table majority.table seven.table
of_sitgurp 0 why majority.table
of_sitgurp 0 check shade.net shade.table
of_sitgurp 1 check figure1.net shade.table
of_sitgurp 0 tidy export.txt
of_sitgurp 1 tidy --csv "$folder/short.csv"
of_sitgurp 0 invert shade.table
of_sitgurp 0 table shade.net
of_sitgurp 0 eval shade.net weight=2 light=0 near=1
of_sitgurp 0 settle seven.net
of_sitgurp 0 same shade.net shade.net
of_sitgurp 0 keep shade.net shade.table
of_sitgurp 0 gates figure1.net
of_sitgurp 0 count seven.table
of_sitgurp 0 shallower seven.net seven.net
of_sitgurp 0 arrivals shade.net "$folder/shade.arrivals" --delay 4
of_sitgurp 0 draw shade.net
of_sitgurp 0 matrix shade.table --group weight,near
of_sitgurp 0 page shade.table -o "$folder/shade.html"
of_sitgurp 0 glyph shade.net letter.txt --at light=0,-1 --at near=-1,0
of_sitgurp 0 stream "$folder/calls"
of_sitgurp 0 generate "$folder/prefix"
of_sitgurp 1 settle "$folder/shade.arrivals"
of_sitgurp 2 settle no.net
cd ..
echo "sitgurp: $commands commands, $amiss with valgrind errors or another status than is due"
"${tool[@]}" "$built/load" "$calls" "$seed" | tail -n 1 || failed=1
exit "$failed"
