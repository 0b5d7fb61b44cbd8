#!/usr/bin/env bash
# Counts what the programs of bench/budget.txt take, and compares it with the figures there.
#
# usage: scripts/budget.sh [--write]
#
# The instructions are counted by valgrind's callgrind, of the whole program or of the calls of one function; the requests for memory are the calls of
# malloc, calloc and realloc, counted by scripts/refuse.c. The programs are those that `rt ci` leaves in crates/NAME/out (`rt run` builds them too). As
# many are counted side by side as there are processors, up to four.
#
# A figure is off where it differs by more than two hundredths, either way. That fails, and so does a program that fails or prints its usage. Where the
# kit, valgrind or the C library isn't the one that the file names, what is off is printed and doesn't fail. With --write the figures and the versions
# go into the file.
#
# The status is 0 if nothing fails, 1 if something does, and 2 if a program, valgrind or `cc` isn't there.
set -eu
here=$(cd "$(dirname "$0")/.." && pwd)
budget=$here/bench/budget.txt

# Writes the figures of a line into the file NAME.figures, or what is wrong with its run into NAME.failed. The arguments are its name, PROGRAM,
# PROGRAM:FUNCTION or PROGRAM:FUNCTION-OTHER.., and its words.
count() {
    local name=$1 program=${2%%:*} call=() words=() status=0 input=/dev/null
    if [ "$program" != "$2" ]; then
        IFS=- read -ra call <<<"${2#*:}"
        call=("${call[@]/#/--toggle-collect=*}")
        call=(--collect-atstart=no "${call[@]/%/*}")
    fi
    for word in "${@:3}"; do
        case $word in
        @*) mapfile -t -O ${#words[@]} words <"${word#@}" ;;
        \<*) input=${word#<} ;;
        *) words+=("$word") ;;
        esac
    done
    local run=("$here/crates/$program/out/$program" "${words[@]}")
    FAIL_SHOW=1 LD_PRELOAD=./refuse.so "${run[@]}" <"$input" >"$name.out" 2>"$name.err" || status=$?
    if [ "$status" -ne 0 ] || grep -qE "^(usage|$program )" "$name.out"; then
        echo "status $status, $(cat "$name.out" "$name.err" | head -c 500)" >"$name.failed"
        return
    fi
    valgrind --tool=callgrind --callgrind-out-file=/dev/null "${call[@]}" "${run[@]}" <"$input" >/dev/null 2>"$name.log"
    local instructions requests
    instructions=$(sed -n 's/^==[0-9]*== Collected : //p' "$name.log")
    requests=$(sed -n 's/^requests //p' "$name.err")
    if [ "${instructions:-0}" -gt 0 ] && [ "${requests:-0}" -gt 0 ]; then
        echo "$instructions $requests" >"$name.figures"
    else
        echo "'$instructions' instructions and '$requests' requests were counted" >"$name.failed"
    fi
}

# A run of this script in the folder of another, which counts one line.
if [ "${1:-}" = --count ]; then
    count "${@:2}"
    exit
fi
if [ $# -gt 1 ] || [ "${1:---write}" != --write ]; then
    echo "usage: scripts/budget.sh [--write]" >&2
    exit 2
fi
for tool in valgrind cc; do
    command -v "$tool" >/dev/null || { echo "$tool is not on this machine" >&2; exit 2; }
done
programs=$(awk '$1 == "count" { sub(":.*", "", $5); print $5 }' "$budget" | sort -u)
for program in $programs; do
    [ -x "$here/crates/$program/out/$program" ] || { echo "$program is not built: run 'rt ci' first" >&2; exit 2; }
done

folder=$(mktemp -d)
trap 'rm -rf "$folder"' EXIT
cd "$folder"
cc -shared -fPIC -O2 -o refuse.so "$here/scripts/refuse.c" -ldl
while read -r kind name words; do
    read -ra words <<<"$words"
    case $kind in
    file) "$here/scripts/make_file.py" "${words[0]}" "$name" "${words[@]:1}" >/dev/null ;;
    words) "$here/scripts/make_rows.py" "${words[@]}" >"$name" ;;
    esac
done <"$budget"
awk '$1 == "count" { $1 = $3 = $4 = ""; print }' "$budget" |
    xargs -L 1 -P "$(printf '%s\n' "$(nproc)" 4 | sort -n | head -n 1)" "$here/scripts/budget.sh" --count

# Tells of a figure that is off: what it is, how many there are, and how many the budget has.
off=0
compare() {
    local difference=$(($2 - $3))
    if [ $((${difference#-} * 50)) -gt "$3" ]; then
        echo "$1: $2, where the budget has $3"
        off=$((off + 1))
    fi
}

# What is off fails where the versions are those of the file, and the figures aren't to be written.
strict=1
[ $# -eq 0 ] || strict=0
failed=0 counted=0
while IFS= read -r line; do
    read -r kind name instructions requests words <<<"$line"
    case $kind in
    kit | valgrind | library)
        case $kind in
        kit) version=$(rt version) ;;
        valgrind) version=$(valgrind --version) ;;
        library) version=$(getconf GNU_LIBC_VERSION) ;;
        esac
        if [ "$line" != "$kind $version" ]; then
            echo "the budget is of '$line', and here it is '$kind $version'"
            strict=0
        fi
        line="$kind $version"
        ;;
    count)
        if [ -e "$name.failed" ]; then
            echo "FAILED: $name: $(cat "$name.failed")"
            failed=1
        else
            read -r made asked <"$name.figures"
            compare "$name, instructions" "$made" "$instructions"
            compare "$name, requests for memory" "$asked" "$requests"
            line=$(printf 'count %-22s %10d %8d  %s' "$name" "$made" "$asked" "$words")
            counted=$((counted + 1))
        fi
        ;;
    esac
    printf '%s\n' "$line" >>written
done <"$budget"
[ $# -eq 0 ] || [ "$failed" -eq 1 ] || cp written "$budget"
echo "$counted runs were counted, and $off of their figures are off"
[ "$failed" -eq 0 ] && { [ "$off" -eq 0 ] || [ "$strict" -eq 0 ]; }
