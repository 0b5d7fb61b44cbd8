#!/usr/bin/env bash
# Runs the built program over a file of real events, one JSON object a line, and compares each line that it prints.
#
# usage: scripts/replay.sh FILE
#
# corpus/mariadb.jsonl is such a file.
#
# Each object has the program's six words as "mlen", "type", "plen", "wlen", "map_hex" and "rows_hex", the lines that must be printed as
# the list "expected", and a name, "id". The status must be 0. An event that the program says is `Unhandled` is a line `unhandled: ID`; one
# that differs is `differs: ID`, with what was expected and what was printed; the last line counts. The status of this script is 1 where an
# event differs, and 2 where there is no program or no file. Build the program with `rt run` in crates/rows.
set -u
here=$(cd "$(dirname "$0")/.." && pwd)
program=$here/crates/rows/out/rows
if [ $# -ne 1 ] || [ ! -r "$1" ]; then
    echo "usage: scripts/replay.sh FILE" >&2
    exit 2
fi
if [ ! -x "$program" ]; then
    echo "$program is not built: run 'rt run' in crates/rows first" >&2
    exit 2
fi
python3 - "$program" "$1" <<'PYTHON'
import json, subprocess, sys

program, path = sys.argv[1:]
agree, unhandled, differ = 0, 0, []
with open(path, encoding="utf-8") as lines:
    for line in lines:
        if not line.strip():
            continue
        event = json.loads(line)
        words = [str(event[key]) for key in ("mlen", "type", "plen", "wlen", "map_hex", "rows_hex")]
        run = subprocess.run([program, *words], capture_output=True)
        expected = "".join(text + "\n" for text in event["expected"]).encode()
        if run.returncode == 0 and run.stdout == expected and not run.stderr:
            agree += 1
        elif run.returncode == 1 and run.stdout == b"fault Unhandled\n":
            unhandled += 1
            print(f"unhandled: {event['id']}")
        else:
            differ.append(event["id"])
            print(f"differs: {event['id']}: status {run.returncode}")
            for name, text in (("expected", expected), ("printed", run.stdout + run.stderr)):
                for row in text.decode("utf-8", "replace").splitlines():
                    print(f"  {name}: {row}")
print(f"{agree} agree, {unhandled} unhandled, {len(differ)} differ")
sys.exit(1 if differ else 0)
PYTHON
