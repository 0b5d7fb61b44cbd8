#!/usr/bin/env python3
"""Runs the program `changes` on real binlog files, and on damaged copies of them.

    python3 scripts/changes.py PROGRAM FILE..

PROGRAM is the built program (crates/changes/out/changes). Each FILE is a `.bin.gz`, a binlog file of a MariaDB server, with a
`.jsonl.gz` beside it: a line for each rows event in order, with `pos` (where the event begins), `time`, `server_id`, `gtid`, `db`, `table`,
`op` and `lines` (its rows, in the form of the program `rows`).

- `--text` prints these lines, each after its place, with names in backquotes where they need it, and nothing else (none of the files has a negative TIME
  of the old format in its `.jsonl.gz` without its sign).
- Each line of JSON, read by Python's `json`, is that of a plain decoding of the file (that of scripts/json_rows.py), with its source.
- Standard input gives the same as the file.
- `--table` gives the lines of that table, for each table, and `--database` and `--op` those of theirs; `--count` gives their numbers.
- `--start-position` and `--stop-position` at each rows event give the lines from it on, and before it.
- A copy that is cut in one of its last events gives the lines before it and one message; so does one with a byte changed, if it has checksums. `--count`
  gives the numbers of these lines.
- A copy whose event lacks the last byte of its last row gives the lines before that row, the row's number in the message, and with `--count` the
  numbers of these lines: events of one row, whose first row is faulty, and of several.
"""
import gzip
import json
import re
import subprocess
import sys
import tempfile
import zlib
from collections import Counter
from pathlib import Path

sys.path.insert(0, str(Path(__file__).resolve().parent))
import json_rows  # noqa: E402


class Failed(Exception):
    """The program did something else than it should."""


def check(holds, what):
    if not holds:
        raise Failed(what)


def run(program, *words, data=None, status=0, message=""):
    ran = subprocess.run([program, "--quiet", *words], input=data, capture_output=True)
    told = ran.stderr.decode()
    check(ran.returncode == status, f"{words}: status {ran.returncode}, {told}")
    check(len(told.splitlines()) == (status != 0) and re.search(message, told), f"{words}: {told}")
    return ran.stdout.decode().splitlines()


def events_of(data):
    """The position, the type, the header's length of post-headers and the body of each event."""
    at, lengths, sums = 4, b"", False
    while at < len(data):
        kind = data[at + 4]
        size = int.from_bytes(data[at + 9:at + 13], "little")
        raw = data[at:at + size]
        if kind == 0x0F:
            lengths, sums = raw[19 + 57:-5], raw[-5] == 1
            body = raw[19:-5]
        else:
            body = raw[19:-4] if sums else raw[19:]
            check(not sums or zlib.crc32(raw[:-4]) == int.from_bytes(raw[-4:], "little"), f"checksum at {at}")
        yield at, kind, lengths, body
        at += size


def decoded(data):
    """The position and the rows of each rows event, by a plain decoding."""
    maps = {}
    for at, kind, lengths, body in events_of(data):
        if kind == 0x13:
            maps[body[:6]] = body
        elif kind in (0x17, 0x18, 0x19):
            line = {
                "mlen": lengths[0x13 - 1], "type": f"{kind:02X}", "plen": lengths[kind - 1], "wlen": lengths[0x1E - 1],
                "map_hex": maps[body[:6]].hex(), "rows_hex": body.hex(),
            }
            yield at, json_rows.pairs_of(line)


def sources(name, rows):
    """The sources of all lines, in order, as lists of members."""
    number = json_rows.Number
    return [
        [
            ("file", name), ("pos", number(str(event["pos"]))), ("row", number(str(row))), ("ts_ms", number(str(event["time"] * 1000))),
            ("server_id", number(str(event["server_id"]))), ("gtid", event["gtid"]), ("db", event["db"]), ("table", event["table"]),
        ]
        for event in rows for row in range(len(event["lines"]))
    ]


def same_source(found, expected):
    texts = [[(k, v.text if isinstance(v, json_rows.Number) else v) for k, v in members] for members in (found, expected)]
    return texts[0] == texts[1]


def check_json(program, path, rows, data):
    lines = run(program, str(path))
    pairs = [(at, pair) for at, pairs in decoded(data) for pair in pairs]
    expected = sources(path.name, rows)
    check(len(lines) == len(pairs) == len(expected), f"{len(lines)} lines of {len(pairs)}")
    for line, (at, pair), source in zip(lines, pairs, expected):
        found = json_rows.read(line)
        check([name for name, _ in found] == ["op", "source", "before", "after"], line)
        check(same_source(found[1][1], source), line)
        check(json_rows.is_same([found[0]] + found[2:], pair), f"{line} is not {pair}")
    piped = run(program, "-", data=data)
    check([line.replace('"file":"-"', f'"file":"{path.name}"', 1) for line in piped] == lines, "standard input differs")
    return lines


def shown(name):
    """A name as `--text` has it: with a tab as `\\t`, and in backquotes if it has another character than letters, digits, `_`, `$`, `@` and those that
    aren't ASCII. (No file has a name with another control character or a backslash.)"""
    plain = re.fullmatch(r"(?:[0-9A-Za-z_$@]|[^\0-\x7f])+", name)
    return name if plain else "`" + name.replace("`", "``").replace("\t", "\\t") + "`"


def with_shown_names(line, image):
    """The line of a row whose columns have the names of this image of it, with the names as `--text` has them."""
    for name in image:
        for before in ("{", ", "):
            line = line.replace(f"{before}{name}=", f"{before}{shown(name)}=")
    return line


def check_text(program, path, rows, lines):
    found = iter(json.loads(line) for line in lines)
    wanted = []
    for event in rows:
        for line in event["lines"]:
            row = next(found)
            line = with_shown_names(line, row["before"] or row["after"])
            wanted.append(f"{path.name}:{event['pos']} {shown(event['db'])}.{shown(event['table'])} {line}")
    check(run(program, "--text", str(path)) == wanted, "text differs")


def check_filters(program, path, rows, lines):
    by_line = [event for event in rows for _ in event["lines"]]

    def check_words(words, keep):
        found = run(program, *words, str(path))
        check(found == [line for line, event in zip(lines, by_line) if keep(event)], f"{words} differs")

    for table in {(event["db"], event["table"]) for event in rows}:
        check_words(["--table", f"{table[0]}.{table[1]}"], lambda e, t=table: (e["db"], e["table"]) == t)
    for database in {event["db"] for event in rows}:
        check_words(["--database", database, "--op", "c,d"], lambda e, d=database: e["db"] == d and e["op"] != "u")
    check_words(["--table", "no.table"], lambda e: False)
    for event in rows[:: max(1, len(rows) // 20)]:
        check_words(["--start-position", str(event["pos"])], lambda e, p=event["pos"]: e["pos"] >= p)
        check_words(["--stop-position", str(event["pos"])], lambda e, p=event["pos"]: e["pos"] < p)
    check_count(program, path, by_line)


def check_count(program, path, by_line, status=0):
    numbers = Counter((e["db"], e["table"], e["op"]) for e in by_line)
    tables = sorted({(e["db"], e["table"]) for e in by_line}, key=lambda t: (t[0].encode(), t[1].encode()))
    expected = [[str(numbers[t + (op,)]) for op in "cud"] + [f"{t[0]}.{t[1]}"] for t in tables]
    expected.append([str(sum(e["op"] == op for e in by_line)) for op in "cud"] + ["(all)"])
    found = [line.split(None, 3) for line in run(program, "--count", str(path), status=status)[1:]]
    check(found == expected, f"counts differ: {found} is not {expected}")


def check_damage(program, path, rows, lines, data, folder):
    places = [at for at, *_ in events_of(data)]
    by_line = [event for event in rows for _ in event["lines"]]
    before = {at: sum(e["pos"] < at for e in by_line) for at in places}
    damaged = folder / path.name
    sums = data[places[1] - 5] == 1
    for at, end in list(zip(places, places[1:] + [len(data)]))[-4:]:
        for cut in {at + 1, at + 19, (at + end) // 2, end - 1} - {at}:
            damaged.write_bytes(data[:cut])
            check(run(program, str(damaged), status=1) == lines[: before[at]], f"cut at {cut} differs")
            check_count(program, damaged, by_line[: before[at]], status=1)
        if sums:
            damaged.write_bytes(data[: end - 5] + bytes([data[end - 5] ^ 1]) + data[end - 4:])
            check(run(program, str(damaged), status=1) == lines[: before[at]], f"damage at {end - 5} differs")
            check_count(program, damaged, by_line[: before[at]], status=1)


def ends_with_cell(line):
    """Whether the last image of a row has a cell with bytes, so that it can't be read without the last one."""
    before, after = line.split(" -> ")
    image = before if after == "-" else after
    return any(cell and cell.split("=")[-1] not in ("NULL", "x") for cell in image[1:-1].split(", "))


def check_faulty_rows(program, path, rows, lines, data, folder):
    faulty = folder / path.name
    by_line = [event for event in rows for _ in event["lines"]]
    places = [at for at, *_ in events_of(data)]
    sums = 4 if data[places[1] - 5] == 1 else 0
    whole = [event for event in rows if event["lines"] and ends_with_cell(event["lines"][-1])]
    single = [event for event in whole if len(event["lines"]) == 1]
    several = [event for event in whole if len(event["lines"]) > 1]
    for event in single[:: max(1, len(single) // 10)] + several[:: max(1, len(several) // 10)]:
        at, last = event["pos"], len(event["lines"]) - 1
        size = int.from_bytes(data[at + 9:at + 13], "little")
        raw = data[at:at + 9] + (size - 1).to_bytes(4, "little") + data[at + 13:at + size - sums - 1]
        faulty.write_bytes(data[:at] + raw + (zlib.crc32(raw).to_bytes(4, "little") if sums else b""))
        count = sum(e["pos"] < at for e in by_line) + last
        found = run(program, str(faulty), status=1, message=rf" at {at}: row {last} of \S+ can't be read: ")
        check(found == lines[:count], f"a faulty row at {at} differs")
        check_count(program, faulty, by_line[:count], status=1)


def folder_in(folder, name):
    inner = folder / name
    inner.mkdir()
    return inner


def check_file(program, name, folder):
    data = gzip.open(name).read()
    path = folder / Path(name).name.removesuffix(".gz")
    path.write_bytes(data)
    beside = name.replace(".bin.gz", ".jsonl.gz")
    rows = [json.loads(line) for line in gzip.open(beside, "rt", encoding="utf-8")]
    lines = check_json(program, path, rows, data)
    check_filters(program, path, rows, lines)
    if path.stat().st_size < 120000:
        check_damage(program, path, rows, lines, data, folder_in(folder, "damaged"))
    check_faulty_rows(program, path, rows, lines, data, folder_in(folder, "faulty"))
    check_text(program, path, rows, lines)
    return len(lines)


def main():
    if len(sys.argv) < 3:
        sys.exit(__doc__)
    status = 0
    for name in sys.argv[2:]:
        with tempfile.TemporaryDirectory() as folder:
            try:
                print(f"{name}: {check_file(sys.argv[1], name, Path(folder))} lines agree")
            except Failed as failed:
                print(f"{name}: {failed}")
                status = 1
    sys.exit(status)


if __name__ == "__main__":
    main()
