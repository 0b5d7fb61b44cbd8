#!/usr/bin/env python3
"""Runs the program `changes` on files of one row with long cells, and looks at its lines and its memory.

usage: scripts/long_cells.py PROGRAM

PROGRAM is the built program (crates/changes/out/changes). Each file has one rows event, an insert of a row of some 16 MiB: one TEXT cell of latin1, of
control characters, of UTF-8 with escapes and without, of bytes, and of a table without metadata; and 4,096 cells, the most columns that a server
allows, just below and above the length from which on texts stand apart. The line, read by Python's `json`, must have the row's texts. Its memory may
be at most 16 MiB and four times the file.

Prints a line for each file: the seconds, the MiB, and how many times the file that is. `cc` has to be installed. The status is 0 if all lines and
memory are as they must be, 1 if not, and 2 if PROGRAM isn't there.
"""
import base64
import json
import shutil
import struct
import subprocess
import sys
import tempfile
from pathlib import Path

sys.path.insert(0, str(Path(__file__).resolve().parent))
import make_file  # noqa: E402
import time_changes  # noqa: E402

MIB = 1 << 20
LONG = 16 * MIB
UTF8, LATIN1, BINARY, NONE = 45, 8, 63, 0

# The collation, the bytes of a cell and what they are as JSON, and how many such cells the row has.
CASES = {
    "latin1, of three bytes each in UTF-8": (LATIN1, b"\x80" * LONG, "€" * LONG, 1),
    "latin1, of two": (LATIN1, b"\xe9" * LONG, "é" * LONG, 1),
    "control characters of latin1": (LATIN1, b"\x01" * LONG, "\x01" * LONG, 1),
    "control characters": (UTF8, b"\x01" * LONG, "\x01" * LONG, 1),
    "zero bytes, without metadata": (NONE, bytes(LONG), "\0" * LONG, 1),
    "as many escapes as a text in its line has": (UTF8, b'\x01"""""""' * (LONG // 8), '\x01"""""""' * (LONG // 8), 1),
    "letters": (UTF8, b"abcdefgh" * (LONG // 8), "abcdefgh" * (LONG // 8), 1),
    "bytes": (BINARY, b"\x01bcdefgh" * (LONG // 8), None, 1),
    "4,096 cells of 511 control characters": (UTF8, b"\x02" * 511, "\x02" * 511, 4096),
    "4,096 cells of 4,096": (UTF8, b"\x02" * 4096, "\x02" * 4096, 4096),
}


def write_file(path, collation, cell, count):
    """Writes the file of a row of so many such cells."""
    metadata = make_file.field(2, bytes([collation])) if collation else b""
    types, lengths, bits = b"\xfc" * count, b"\4" * count, (count + 7) // 8
    head = (18).to_bytes(6, "little") + b"\1\0"
    table = b"\4shop\0\5items\0" + make_file.number(count) + types + make_file.number(count) + lengths + b"\xff" * bits + metadata
    row = bytes(bits) + (struct.pack("<I", len(cell)) + cell) * count
    with open(path, "wb") as out:
        file = make_file.File(out, None)
        file.event(0x13, head + table)
        file.event(0x17, head + make_file.number(count) + make_file.bits(range(count), count) + row)


def main():
    if len(sys.argv) != 2 or not shutil.which(sys.argv[1]):
        print(__doc__, file=sys.stderr)
        return 2
    program, wrong = Path(shutil.which(sys.argv[1])).resolve(), 0
    with tempfile.TemporaryDirectory() as folder:
        starter, path = Path(folder) / "starter", Path(folder) / "file"
        subprocess.run(["cc", "-O2", "-x", "c", "-o", starter, "-"], input=time_changes.STARTER, text=True, check=True)
        for name, (collation, cell, text, count) in CASES.items():
            write_file(path, collation, cell, count)
            micros, memory = time_changes.run([starter, program, "--quiet", path]).stderr.splitlines()[-1].split()
            lines = time_changes.run([program, "--quiet", path], subprocess.PIPE).stdout.splitlines()
            value = {"base64": base64.b64encode(cell).decode()} if text is None else text
            size, mib = path.stat().st_size / MIB, int(memory) / 1024
            is_right = len(lines) == 1 and list(json.loads(lines[0])["after"].values()) == [value] * count
            verdict = "" if is_right and mib <= 16 + 4 * size else ": WRONG LINE" if not is_right else ": TOO MUCH"
            wrong += bool(verdict)
            print(f"{name}: {int(micros) / 1e6:.3f} seconds, {mib:.1f} MiB, {mib / size:.1f} times the file{verdict}", flush=True)
    return 1 if wrong else 0


if __name__ == "__main__":
    sys.exit(main())
