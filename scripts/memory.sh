#!/usr/bin/env bash
# Refuses each request for memory in turn: of the tests of the modules `memory`, and of the program.
#
# usage: scripts/memory.sh
#
# It preloads scripts/refuse.c, which it builds with `cc`, into the test programs and the program that `rt ci` leaves in the folders `out`
# (`rt test` in crates/tests_tables, crates/tests_values, crates/tests_rows, crates/tests_streams and crates/tests_json, and `rt run` in crates/rows,
# build them too). A test runs with its request 1, 2, .. refused, until a run makes fewer requests; that run must pass. In each run before it
# the call that was refused memory must say so: the test ends with its error. The requests that the program makes before it decodes are
# refused as `fault Memory` too. So no run ends with an answer in place of a refusal.
# The tests whose names begin with `nothing` make no more requests than the test `nothing` of tests_rows, which is empty. Every other run makes
# more: a test more than that one, and the program more than without words. A decimal that is cut short makes one more, for its packed bytes.
# A second row that is lent makes none, of one event and of a file, and no line of JSON after the first.
# The status is 0 if all of this holds, 1 if it doesn't, and 2 if a program or `cc` isn't there.
set -eu
here=$(cd "$(dirname "$0")/.." && pwd)
tables=$here/crates/tests_tables/out/tests_tables_tests
values=$here/crates/tests_values/out/tests_values_tests
rows=$here/crates/tests_rows/out/tests_rows_tests
streams=$here/crates/tests_streams/out/tests_streams_tests
json=$here/crates/tests_json/out/tests_json_tests
program=$here/crates/rows/out/rows
for file in "$tables" "$values" "$rows" "$streams" "$json" "$program"; do
    if [ ! -x "$file" ]; then
        echo "$file is not built: run 'rt ci' first" >&2
        exit 2
    fi
done
if ! command -v cc >/dev/null; then
    echo "there is no C compiler (cc) to build scripts/refuse.c with" >&2
    exit 2
fi
folder=$(mktemp -d)
trap 'rm -rf "$folder"' EXIT
cc -shared -fPIC -O2 -o "$folder/refuse.so" "$here/scripts/refuse.c" -ldl

fail() {
    echo "FAILED: $*" >&2
    exit 1
}

# Runs a command with the request of this number refused, none for 0. Sets `status` and `requests`; the output is in the files out and err.
run() {
    status=0
    FAIL_AT=$1 FAIL_SHOW=1 LD_PRELOAD=$folder/refuse.so "${@:2}" >"$folder/out" 2>"$folder/err" || status=$?
    requests=$(sed -n 's/^requests //p' "$folder/err")
    [ -n "$requests" ] || fail "${*:2} told no count of its requests: status $status, $(cat "$folder/out" "$folder/err")"
}

# Whether the run ended as one that was refused memory: a test with the error, that of a file with its position, the program with the line of
# the fault and no other.
was_refused() {
    if [ "$1" = "$program" ]; then
        [ "$status" -eq 1 ] && [ "$(cat "$folder/out")" = 'fault Memory' ]
    else
        [ "$status" -eq 101 ] && grep -qxE 'error: (Memory|AllocError|AllocFailed|FileError \{ position: [0-9]+, error: Memory \})' "$folder/err"
    fi
}

# Runs a command with each of its requests refused, more than `least`. The last run, which makes fewer, must end with status 0 and print the
# text that is given first, if it isn't empty.
each_request() {
    local number=1
    while run "$number" "${@:2}" && [ "$requests" -ge "$number" ]; do
        was_refused "$2" || fail "${*:2} with request $number refused: status $status, $(cat "$folder/out" "$folder/err")"
        number=$((number + 1))
    done
    [ "$status" -eq 0 ] || fail "${*:2}: status $status, $(cat "$folder/out" "$folder/err")"
    [ -z "$1" ] || [ "$(cat "$folder/out")" = "$1" ] || fail "${*:2} printed $(cat "$folder/out")"
    [ "$requests" -gt "$least" ] || fail "${*:2} makes no request of its own"
    count=$((count + number - 1))
}

count=0
run 0 "$rows" tests::memory::nothing
[ "$status" -eq 0 ] || fail "nothing: status $status"
least=$requests
for tests in "$tables" "$values" "$rows" "$streams" "$json"; do
    "$tests" --list >"$folder/list"
    names=$(sed -n 's/^\(tests::memory::[A-Za-z0-9_]*\): test$/\1/p' "$folder/list")
    [ -n "$names" ] || fail "$tests has no tests of the module memory"
    [ "$(wc -l <<<"$names")" -eq "$(grep -c '^tests::memory::' "$folder/list")" ] || fail "a test of the module memory has another name than expected"
    grep -q '^tests::memory::nothing' <<<"$names" || fail "$tests has no test whose name begins with nothing"
    for name in $names; do
        run 0 "$tests" "$name"
        case $name in
        tests::memory::nothing*) [ "$status" -eq 0 ] && [ "$requests" -eq "$least" ] || fail "$name makes $requests requests" ;;
        *) each_request '' "$tests" "$name" ;;
        esac
    done
done
run 0 "$values" tests::memory::two_decimals
made=$requests
[ "$status" -eq 0 ] || fail "two_decimals: status $status"
run 0 "$values" tests::memory::two_decimals_compared
[ "$status" -eq 0 ] && [ "$requests" -eq "$made" ] || fail "comparing two decimals: status $status, $((requests - made)) requests"
run 0 "$rows" tests::memory::lent_row
made=$requests
run 0 "$rows" tests::memory::two_lent_rows
[ "$status" -eq 0 ] && [ "$requests" -eq "$made" ] || fail "a second lent row: status $status, $((requests - made)) requests"
run 0 "$streams" tests::memory::lent_pair
made=$requests
run 0 "$streams" tests::memory::two_lent_pairs
[ "$status" -eq 0 ] && [ "$requests" -eq "$made" ] || fail "a second lent row of a file: status $status, $((requests - made)) requests"
run 0 "$json" tests::memory::line
made=$requests
run 0 "$json" tests::memory::three_lines
[ "$status" -eq 0 ] && [ "$requests" -eq "$made" ] || fail "two more lines of JSON: status $status, $((requests - made)) requests"
run 0 "$values" tests::memory::decimal_cut_short
[ "$status" -eq 0 ] && [ "$requests" -eq $((least + 1)) ] || fail "a decimal cut short: status $status, $((requests - least)) requests"

# Two inserted rows, an update with other columns in each image, and a partial update of a JSON document.
table=010000000000010001640001740002030F020A0002
run 0 "$program"
least=$requests
each_request '- -> {@0=42, @1=x6162}
- -> {@0=-1, @1=NULL}' "$program" 8 1E 10 10 $table 010000000000010002000203002A00000002616202FFFFFFFF
each_request '{@0=7} -> {@1=NULL}' "$program" 8 1F 10 10 $table 01000000000001000200020102000700000001
each_request '{} -> {@1=diffs(1)}' "$program" 8 27 10 10 010000000000010001640001740002F5F502040403 01000000000001000200020002010200050000000203242E61
echo "$count requests for memory were refused in turn"
