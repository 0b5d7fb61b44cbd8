#!/usr/bin/env python3
"""Counts the instructions that decoding takes for a cell of each form, in built checkouts.

usage: scripts/cells.py CHECKOUT..
       scripts/cells.py owned CHECKOUT..

Without `owned` the cells are lent. The program is crates/rows/out/rows of each checkout, which `rt run` in crates/rows proves and builds.
Decoding is the call of `run` without the calls in it of `hex_bytes`, which reads the hexadecimal digits, and of `push_image`, which makes the text
of a row. That holds from commit 5301de0 on; before it the program owned its cells, and the script counted its calls of `decode_pairs`.

With `owned` each cell has memory of its own. The program is crates/binlog_count/out/binlog_count, which reads a file with the two events. Decoding
is the call of `collect`, which makes the list of an event's pairs; the memory is given back outside of it. The commit 05c4d77, with which
docs/PERF.md compares, has no such program; its figures there are of the calls of `decode_pairs`.

A row of one INT cell is read, and rows with one and two more cells of the form. A row is the difference of two events, of 330 and of 30 rows,
divided by 300. Prints for each form and checkout what the first cell of the form costs, and what the second does. With two checkouts or more the
last column is the second cell in the last checkout over that in the first.
"""
import functools
import subprocess
import sys
import tempfile
from concurrent.futures import ThreadPoolExecutor
from pathlib import Path

import make_file

LONG = (3, b"", b"\x2a\0\0\0")
# The server of a file that is read, and the post-header lengths that it writes, from type 1 on.
MYSQL = b"8.0.36"
MYSQL_LENS = bytes.fromhex("000d0008000000000400040000006000041a08000000080808020000000a0a0a2a2a001234000a2800")


def counted(text, len_bytes):
    return len(text).to_bytes(len_bytes, "little") + text


def small_object():
    """The JSON document {"a": 1, "bc": "text"} in binary form."""
    keys, value = b"abc", counted(b"text", 1)
    entries = bytes.fromhex("12000100 13000200") + b"\x05\x01\0" + b"\x0c\x15\0"
    size = 4 + len(entries) + len(keys) + len(value)
    return b"\0" + bytes.fromhex("0200") + size.to_bytes(2, "little") + entries + keys + value


NUMBER = b"\x05\x2a\0"
# The name of a form, the type's number, its metadata, and a cell.
FORMS = [
    ("TINY", 1, b"", b"\x2a"),
    ("SHORT", 2, b"", b"\x2a\0"),
    ("INT24", 9, b"", b"\x2a\0\0"),
    ("LONG", *LONG),
    ("LONGLONG", 8, b"", b"\x2a" + bytes(7)),
    ("FLOAT", 4, b"\x04", bytes.fromhex("0000c03f")),
    ("DOUBLE", 5, b"\x08", bytes.fromhex("000000000000f83f")),
    ("NEWDECIMAL(4,2)", 246, b"\x04\x02", bytes.fromhex("8c22")),
    ("NEWDECIMAL(12,2)", 246, b"\x0c\x02", bytes.fromhex("80000030390c")),
    ("NEWDECIMAL(30,10)", 246, b"\x1e\x0a", bytes.fromhex("8c149aa4350dfb38d2075bcd1500")),
    ("BIT(1)", 16, b"\x01\x00", b"\x01"),
    ("BIT(20)", 16, b"\x04\x02", b"\x01\x02\x03"),
    ("SET", 254, b"\xf8\x01", b"\x05"),
    ("ENUM of 1 byte", 254, b"\xf7\x01", b"\x02"),
    ("ENUM of 2 bytes", 254, b"\xf7\x02", b"\x02\0"),
    ("STRING(12)", 254, b"\xfe\x0c", counted(b"twelve bytes", 1)),
    ("STRING(300)", 254, b"\xee\x2c", counted(b"twelve bytes", 2)),
    ("VARCHAR(60)", 15, b"\x3c\0", counted(b"twelve bytes", 1)),
    ("VARCHAR(300)", 15, b"\x2c\x01", counted(b"twelve bytes", 2)),
    ("VAR_STRING(60)", 253, b"\x3c\0", counted(b"twelve bytes", 1)),
    ("BLOB of 1 byte", 252, b"\x01", counted(b"twelve bytes", 1)),
    ("BLOB of 2 bytes", 252, b"\x02", counted(b"twelve bytes", 2)),
    ("BLOB of 4 bytes", 252, b"\x04", counted(b"twelve bytes", 4)),
    ("GEOMETRY", 255, b"\x04", counted(bytes(25), 4)),
    ("VECTOR", 242, b"\x04", counted(bytes(12), 4)),
    ("DATE", 10, b"", bytes.fromhex("7bc70f")),
    ("NEWDATE", 14, b"", bytes.fromhex("7bc70f")),
    ("TIME", 11, b"", bytes.fromhex("e09304")),
    ("TIME2(0)", 19, b"\x00", bytes.fromhex("80b710")),
    ("TIME2(3)", 19, b"\x03", bytes.fromhex("80b71004d2")),
    ("TIME2(6)", 19, b"\x06", bytes.fromhex("80b71001e240")),
    ("DATETIME", 12, b"", (20191127123000).to_bytes(8, "little")),
    ("DATETIME2(0)", 18, b"\x00", bytes.fromhex("99a4b6c780")),
    ("DATETIME2(3)", 18, b"\x03", bytes.fromhex("99a4b6c78004d2")),
    ("DATETIME2(6)", 18, b"\x06", bytes.fromhex("99a4b6c78001e240")),
    ("TIMESTAMP", 7, b"", bytes.fromhex("a86dde5d")),
    ("TIMESTAMP2(0)", 17, b"\x00", bytes.fromhex("5dde6da8")),
    ("TIMESTAMP2(3)", 17, b"\x03", bytes.fromhex("5dde6da804d2")),
    ("TIMESTAMP2(6)", 17, b"\x06", bytes.fromhex("5dde6da801e240")),
    ("YEAR", 13, b"", b"\x77"),
    ("JSON, a number", 245, b"\x04", counted(NUMBER, 4)),
    ("JSON, an object", 245, b"\x04", counted(small_object(), 4)),
    ("LONG, NULL", 3, b"", b""),
    ("VARCHAR(60), NULL", 15, b"\x3c\0", b""),
    ("JSON, NULL", 245, b"\x04", b""),
]
# Cells of a partial update: a JSON diff that removes `$.a`, one that replaces it by a number, and a whole document.
REMOVE = counted(b"\x02" + counted(b"$.a", 1), 4)
REPLACE = counted(b"\x00" + counted(b"$.a", 1) + counted(NUMBER, 1), 4)
PARTIAL = [
    ("JSON, a removal", REMOVE, True),
    ("JSON, a replacement", REPLACE, True),
    ("JSON, a number in a partial update", counted(NUMBER, 4), False),
]


def bits(flags):
    """A bitmap."""
    return sum(flag << place for place, flag in enumerate(flags)).to_bytes((len(flags) + 7) // 8, "little")


def table(columns):
    """The body of a table map event."""
    metadata = b"".join(column[1] for column in columns)
    types = bytes(column[0] for column in columns)
    head = bytes(6) + b"\1\0" + b"\1d\0" + b"\1t\0" + bytes([len(columns)]) + types
    return head + bytes([len(metadata)]) + metadata + bits([True] * len(columns))


def inserts(columns, count):
    """The words of an event of so many inserted rows; a cell without bytes is NULL."""
    row = bits([not column[2] for column in columns]) + b"".join(column[2] for column in columns)
    rows = bytes(6) + b"\1\0" + b"\2\0" + bytes([len(columns)]) + bits([True] * len(columns)) + row * count
    return ["8", "1E", "10", "10", table(columns).hex(), rows.hex()]


def partial_updates(columns, count, is_partial):
    """The words of an event of so many partial updates, whose image before has the first column alone."""
    before = b"\0" + columns[0][2]
    options = b"\1" + bits([True] * (len(columns) - 1)) if is_partial and len(columns) > 1 else b"\0"
    after = options + bits([False] * len(columns)) + b"".join(column[2] for column in columns)
    images = bits([True] + [False] * (len(columns) - 1)) + bits([True] * len(columns))
    rows = bytes(6) + b"\1\0" + b"\2\0" + bytes([len(columns)]) + images + (before + after) * count
    return ["8", "27", "10", "10", table(columns).hex(), rows.hex()]


def instructions(program, words, functions):
    """What a run of the program takes: the first function is where callgrind begins to count, and it doesn't count in the others."""
    call = ["--collect-atstart=no", *(f"--toggle-collect=*{function}*" for function in functions)]
    valgrind = ["valgrind", "--tool=callgrind", "--callgrind-out-file=/dev/null", *call]
    answer = subprocess.run([*valgrind, program, *words], capture_output=True, text=True)
    if answer.returncode != 0 or "fault" in answer.stdout:
        sys.exit(f"{program} {' '.join(words)[:200]}: status {answer.returncode}\n{answer.stdout[-200:]}{answer.stderr[-500:]}")
    return int(answer.stderr.split("Collected : ")[1].split()[0])


def lent(checkout, words):
    """What decoding takes with cells that are lent."""
    return instructions(f"{checkout}/crates/rows/out/rows", words, ["rows::run::run", "hex_bytes", "push_image"])


def owned(checkout, words):
    """What decoding takes with cells that are owned."""
    _, event_type, *_, table_map, rows = words
    with tempfile.NamedTemporaryFile() as out:
        file = make_file.File(out, None, MYSQL, MYSQL_LENS)
        file.event(0x13, bytes.fromhex(table_map))
        file.event(int(event_type, 16), bytes.fromhex(rows))
        out.flush()
        return instructions(f"{checkout}/crates/binlog_count/out/binlog_count", ["owned", "memory", out.name], ["decode::collect"])


def row(decoding, words_of):
    """What a row takes."""
    return (decoding(words_of(330)) - decoding(words_of(30))) / 300


def cells(decoding, words_of):
    """What the first and the second cell of a form take."""
    none, one, two = (row(decoding, lambda count: words_of(more, count)) for more in (0, 1, 2))
    return one - none, two - one


def forms():
    """The name of each form, and a function from the number of its cells and of rows to the program's words."""
    for name, *column in FORMS:
        yield name, lambda more, count, column=column: inserts([LONG] + [column] * more, count)
    for name, cell, is_partial in PARTIAL:
        column = (245, b"\x04", cell)
        yield name, lambda more, count, column=column, is_partial=is_partial: partial_updates([LONG] + [column] * more, count, is_partial)


def main():
    is_owned = sys.argv[1:2] == ["owned"]
    checkouts = [Path(word).resolve() for word in sys.argv[1 + is_owned :]]
    if not checkouts:
        sys.exit(__doc__)
    ways = [functools.partial(owned if is_owned else lent, checkout) for checkout in checkouts]
    print(f"{'form':36}" + "".join(f"{'first':>8}{'second':>8}" for _ in ways))
    with ThreadPoolExecutor(2) as pool:
        jobs = [(name, [pool.submit(cells, decoding, words_of) for decoding in ways]) for name, words_of in forms()]
        for name, answers in jobs:
            figures = [answer.result() for answer in answers]
            ratio = f"{figures[-1][1] / figures[0][1]:8.2f}" if len(figures) > 1 else ""
            print(f"{name:36}" + "".join(f"{first:8.0f}{second:8.0f}" for first, second in figures) + ratio, flush=True)


if __name__ == "__main__":
    main()
