#!/usr/bin/env bash
# Runs the tests of each crate that has some, without proofs, and prints how many passed and how many failed: `N passed, M failed`.
#
# usage: scripts/test.sh
#
# It begins with the output of each crate whose tests fail. Tests that can't be built, or don't end, count as one that failed. As many crates
# are worked on at a time as there are processors. The status is 0 if all tests pass, else 1.
set -eu
cd "$(dirname "$0")/.."

if ! command -v rt >/dev/null; then
    echo "rt is not on this machine: the tests need the Rattle kit named in README.md" >&2
    exit 1
fi
folder=$(mktemp -d)
trap 'rm -rf "$folder"' EXIT

# Runs the tests of a crate. Its output is in the file of the crate's name, and where the status isn't 0, there is a file NAME.failed.
run_tests='cd "crates/$1" && { rt try --test >"$2/$1" 2>&1 || touch "$2/$1.failed"; }'
crates=$(grep -l '^mod tests;' crates/*/src/*.rt | cut -d / -f 2)
xargs -P "$(nproc)" -I NAME sh -c "$run_tests" sh NAME "$folder" <<<"$crates"

passed=0
failed=0
for crate in $crates; do
    # The line is `test result: .. N passed; M failed; ..`.
    read -r good bad <<<"$(sed -n 's/^test result: .* \([0-9]*\) passed; \([0-9]*\) failed;.*/\1 \2/p' "$folder/$crate" | tail -n 1)"
    if [ -e "$folder/$crate.failed" ] || [ -z "$bad" ]; then
        echo "crates/$crate:"
        cat "$folder/$crate"
        [ "${bad:-0}" -gt 0 ] || bad=1
    fi
    passed=$((passed + ${good:-0}))
    failed=$((failed + bad))
done
echo "$passed passed, $failed failed"
[ "$failed" -eq 0 ]
