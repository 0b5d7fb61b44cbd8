#!/usr/bin/env bash
# Counts what the built program does for a row: instructions, by valgrind's callgrind, and calls of `write`.
#
# usage: scripts/instructions.sh [COLUMNS [full]]
#        scripts/instructions.sh FEW MANY MORE
#        scripts/instructions.sh one [full]
#        scripts/instructions.sh kept
#        scripts/instructions.sh trees
#
# COLUMNS are the letters of scripts/make_rows.py; without them the table has ten columns. With `full` it has optional metadata. FEW, MANY and
# MORE are files of the program's six words, one a line, of the same table with 30, 330 and 630 rows. The instructions of a row are the
# difference of two runs, divided by 300: of the whole program, and of decoding alone. Decoding is the call of `run` without the calls in it of
# `hex_bytes`, which reads the hexadecimal digits, and of `push_image`, which makes the text of a row: both events are read, with cells that are
# lent. Of `N`, `T` and `Y`, which are one column of NEWDECIMAL(12,2), TIMESTAMP2(6) and YEAR, those of the call that makes the text of the cell
# are counted too. What a further column of a row costs is the difference of two tables, such as `N` and `NN`. With `one` it counts decoding of an
# insert and of an update of one row of the ten columns. Build the program with `rt run` in crates/rows.
#
# With `kept` and `trees` it counts in tests, which `rt test` builds. `kept`, in crates/tests_streams, reads the events of `one` a second time, by
# the plan that is kept. `trees`, in crates/tests_json, calls `jsonb::Value::parse` for a tree of 10,000 numbers and two of 10,000 keys and
# values.
set -eu
here=$(cd "$(dirname "$0")/.." && pwd)
# The instructions of the calls of a function in a test.
instructions_in_test() {
    valgrind --tool=callgrind --callgrind-out-file=/dev/null --collect-atstart=no "--toggle-collect=$1" "$tests" "$2" 2>&1 |
        sed -n 's/^==[0-9]*== Collected : //p'
}
# Sets `tests` to the test program of a crate.
find_tests() {
    tests=$here/crates/$1/out/$1_tests
    if [ ! -x "$tests" ]; then
        echo "$tests is not built: run 'rt test' in crates/$1 first" >&2
        exit 2
    fi
}
case "${1:-}" in
kept)
    find_tests tests_streams
    for test in insert update; do
        echo "$test of one row: $(instructions_in_test '*read_again*' "tests::kept::${test}_read_twice")"
        echo "the same with full metadata: $(instructions_in_test '*read_again*' "tests::kept::named_${test}_read_twice")"
    done
    exit
    ;;
trees)
    find_tests tests_json
    for test in ten_thousand_numbers ten_thousand_keys_by_ten ten_thousand_keys_by_a_thousand; do
        echo "$test: $(($(instructions_in_test '*jsonb::value::Value::parse' "tests::trees::$test") / 10000)) instructions each"
    done
    exit
    ;;
esac
program=$here/crates/rows/out/rows
if [ ! -x "$program" ]; then
    echo "$program is not built: run 'rt run' in crates/rows first" >&2
    exit 2
fi
folder=$(mktemp -d)
trap 'rm -rf "$folder"' EXIT
# The instructions of a run on a file of words, with further words for callgrind.
instructions() {
    mapfile -t words <"$1"
    valgrind --tool=callgrind --callgrind-out-file="$folder/callgrind" "${@:2}" "$program" "${words[@]}" 2>"$folder/log" >"$folder/out"
    sed -n 's/^==[0-9]*== Collected : //p' "$folder/log"
}
# Decoding alone: the first function is where callgrind begins to count, and it doesn't count in the others.
decoding=(--collect-atstart=no '--toggle-collect=*rows::run::run*' '--toggle-collect=*hex_bytes*' '--toggle-collect=*push_image*')

if [ "${1:-}" = one ]; then
    "$here/scripts/make_rows.py" all 1 ${2:+"$2"} >"$folder/insert"
    "$here/scripts/make_rows.py" all 1 ${2:+"$2"} update >"$folder/update"
    for event in insert update; do
        echo "$event of one row: $(instructions "$folder/$event" "${decoding[@]}")"
    done
    exit
fi

if [ $# -eq 3 ]; then
    cp "$1" "$folder/30"
    cp "$2" "$folder/330"
    cp "$3" "$folder/630"
else
    for count in 30 330 630; do
        "$here/scripts/make_rows.py" "${1:-all}" $count ${2:+"$2"} >"$folder/$count"
    done
fi

few=$(instructions "$folder/30" "${decoding[@]}")
many=$(instructions "$folder/330" "${decoding[@]}")
more=$(instructions "$folder/630" "${decoding[@]}")
few_all=$(instructions "$folder/30")
many_all=$(instructions "$folder/330")
mapfile -t words <"$folder/330"
writes=$(valgrind --tool=none --trace-syscalls=yes "$program" "${words[@]}" 2>&1 >/dev/null | grep -c 'sys_write')
echo "instructions a row: $(((many_all - few_all) / 300)), of which decoding: $(((many - few) / 300))"
echo "decoding, a row of the rows 331 to 630: $(((more - many) / 300))"
case "${1:-}" in
N) cell=push_decimal ;;
T) cell=push_timestamp ;;
Y) cell=push_year ;;
*) cell= ;;
esac
if [ -n "$cell" ]; then
    call=(--collect-atstart=no "--toggle-collect=*$cell*")
    few=$(instructions "$folder/30" "${call[@]}")
    many=$(instructions "$folder/330" "${call[@]}")
    [ "$many" -gt "$few" ] || { echo "$cell is no function of its own in the program" >&2; exit 2; }
    echo "a call of $cell: $(((many - few) / 300))"
fi
echo "calls of write for 330 rows: $writes, for $(wc -c <"$folder/out") bytes"
