#!/usr/bin/env python3
"""Writes a binlog file of ROWS inserted or updated rows of twelve columns, as a MariaDB server writes it, with checksums.

usage: scripts/make_file.py ROWS OUT [single [TABLES [random]]] [--columns COUNT] [--width COUNT] [--present COUNT] [--updates] [--plain] [--once]
       scripts/make_file.py ROWS OUT --event LETTERS [--full]

The rows are in rows events of at most 8 KB, 10,000 rows a statement. With `single` each row is a statement of its own: a table map event and a
rows event of one row. The table map event has full metadata: signs, character sets, names, the values of the ENUM and a key. With TABLES there
are so many tables, to which the statements go by turns, or with `random` in an order that looks random.

The columns: INT UNSIGNED (the key), BIGINT, VARCHAR(60), CHAR(12), DECIMAL(12,2), DOUBLE, DATETIME(3), TIMESTAMP, DATE, ENUM, TINYINT, TEXT. A row
takes about 88 bytes. The values are the same for each run; about one in ten of those that may be NULL is.

For wide tables:

--columns COUNT   so many columns in each table, those after the twelfth INT
--width COUNT     so many columns in each rows event, if not as many as in its table
--present COUNT   so many columns in the image, the first ones, if not all
--updates         updates in place of inserts, as with the row image MINIMAL: the key alone is in the image before, and the other columns of the image
                  in that after
--plain           no optional metadata
--once            all tables are mapped once, at the beginning, and all rows events are of one statement

With --event there are two events after the description: the table map event and the one rows event that make_rows.py prints for these LETTERS,
with --full those with optional metadata.
"""
import argparse
import functools
import itertools
import struct
import subprocess
import sys
import zlib
from dataclasses import dataclass
from pathlib import Path

EVENT_SIZE = 8192
ROWS_OF_A_STATEMENT = 10000
VERSION = b"10.11.19-MariaDB-log"
TIME = 1795633164
# The post-header lengths that MariaDB 10.11 writes, from type 1 on.
LENS = bytes.fromhex("380d000800120004040404120000e400041a08000000080808020000000a0a0a0000000000000a0a0a") + bytes(119)
LENS += bytes.fromhex("041304000d0808080a0a0a")

ENUM_VALUES = [b"red", b"green", b"blue"]
NAMES = "id amount name code price ratio created changed day color level note".split()


def numbers():
    """Numbers of 32 bits that look random, always the same."""
    state = 1
    while True:
        state = (state * 6364136223846793005 + 1442695040888963407) % 2**64
        yield state >> 32


def decimal(cents):
    """A number of cents as the packed form of NEWDECIMAL(12,2): groups of 1, 9 and 2 digits."""
    whole, part = divmod(abs(cents), 100)
    packed = bytearray(bytes([whole // 10**9]) + (whole % 10**9).to_bytes(4, "big") + bytes([part]))
    if cents < 0:
        packed = bytearray(255 - byte for byte in packed)
    packed[0] ^= 0x80
    return bytes(packed)


def datetime3(random):
    """A DATETIME(3)."""
    month = (next(random) % 50 + 1990) * 13 + next(random) % 12 + 1
    packed = (month << 5 | next(random) % 28 + 1) << 17 | next(random) % 24 << 12 | next(random) % 60 << 6 | next(random) % 60
    return (packed + 0x8000000000).to_bytes(5, "big") + (next(random) % 1000 * 10).to_bytes(2, "big")


def date(random):
    return (next(random) % 28 + 1 | (next(random) % 12 + 1) << 5 | (next(random) % 50 + 1990) << 9).to_bytes(3, "little")


def letters(random, least, most, len_bytes):
    """A text of ASCII letters after its length."""
    count = least + next(random) % (most - least + 1)
    return count.to_bytes(len_bytes, "little") + bytes(97 + next(random) % 26 for _ in range(count))


# The type's number, its metadata, and how a cell is made; the first column is the number of the row.
COLUMNS = [
    (3, b"", None),
    (8, b"", lambda r: (next(r) << 32 | next(r)).to_bytes(8, "little")),
    (15, b"\x3c\x00", lambda r: letters(r, 4, 28, 1)),
    (254, b"\xfe\x0c", lambda r: letters(r, 6, 12, 1)),
    (246, b"\x0c\x02", lambda r: decimal(next(r) * 251 - 2**39)),
    (5, b"\x08", lambda r: struct.pack("<d", next(r) / 1024)),
    (18, b"\x03", datetime3),
    (17, b"\x00", lambda r: next(r).to_bytes(4, "big")),
    (10, b"", date),
    (254, b"\xf7\x01", lambda r: bytes([next(r) % len(ENUM_VALUES) + 1])),
    (1, b"", lambda r: bytes([next(r) % 256])),
    (252, b"\x02", lambda r: letters(r, 8, 40, 2)),
]


@dataclass(frozen=True)
class Shape:
    """What the tables and their rows events have: the columns of a table, those of a rows event, the first ones, which are in its images, and whether
    it has the key in one image and the others in a second one."""

    columns: int
    width: int
    present: int
    has_metadata: bool
    is_update: bool = False

    def images(self):
        """The columns of each image."""
        return [range(1), range(1, self.present)] if self.is_update else [range(self.present)]


def number(value):
    """A number as MySQL packs lengths: in one byte up to 250, else in two or three bytes after one that says so."""
    if value < 251:
        return bytes([value])
    return b"\xfc" + value.to_bytes(2, "little") if value < 2**16 else b"\xfd" + value.to_bytes(3, "little")


def bits(places, of):
    """A bitmap of so many bits, of which those of a range are set."""
    return ((1 << places.stop) - (1 << places.start)).to_bytes((of + 7) // 8, "little")


def field(kind, value):
    """A field of optional metadata."""
    return bytes([kind]) + number(len(value)) + value


def counted(texts):
    return b"".join(number(len(text)) + text for text in texts)


def optional_metadata(columns):
    """Signs are those of the numeric columns: INT, BIGINT, DECIMAL, DOUBLE, TINYINT, and the INT columns after the twelfth."""
    signs = b"\x80" + bytes((5 + columns - len(COLUMNS) + 7) // 8 - 1)
    names = NAMES + [f"c{place}" for place in range(len(COLUMNS), columns)]
    optional = field(1, signs) + field(2, b"\x08")
    optional += field(4, counted(name.encode() for name in names))
    return optional + field(6, bytes([len(ENUM_VALUES)]) + counted(ENUM_VALUES)) + field(8, b"\0") + field(10, b"\x08")


@functools.cache
def table_map(table, shape):
    """The body of the table map event of a table."""
    metadata = b"".join(column[1] for column in COLUMNS)
    nullable = ((1 << shape.columns) - 2).to_bytes((shape.columns + 7) // 8, "little")
    types = bytes(column[0] for column in COLUMNS) + b"\3" * (shape.columns - len(COLUMNS))
    head = table_id(table).to_bytes(6, "little") + b"\1\0" + b"\4shop\0" + counted([name_of(table)]) + b"\0"
    optional = optional_metadata(shape.columns) if shape.has_metadata else b""
    return head + number(shape.columns) + types + number(len(metadata)) + metadata + nullable + optional


def table_id(table):
    return 18 + table


def name_of(table):
    return b"items%d" % table if table else b"items"


def image(places, key, random):
    """An image of these columns: a bit for each, set if it is NULL, and the cells of the others."""
    count = len(places)
    nulls, cells = (1 << (count + 7) // 8 * 8) - (1 << count), b""
    for bit, place in enumerate(places):
        if place == 0:
            cells += key.to_bytes(4, "little")
        elif next(random) % 10 == 0:
            nulls |= 1 << bit
        else:
            cells += COLUMNS[place][2](random) if place < len(COLUMNS) else next(random).to_bytes(4, "little")
    return nulls.to_bytes((count + 7) // 8, "little") + cells


def row(key, random, shape):
    return b"".join(image(places, key, random) for places in shape.images())


class File:
    def __init__(self, out, shape, version=VERSION, lens=LENS):
        self.out = out
        self.shape = shape
        self.position = 4
        out.write(b"\xfebin")
        self.event(15, struct.pack("<H", 4) + version.ljust(50, b"\0") + struct.pack("<IB", TIME, 19) + lens + b"\1")

    def event(self, event_type, body, flags=0):
        size = 19 + len(body) + 4
        self.position += size
        raw = struct.pack("<IBIIIH", TIME, event_type, 1, size, self.position % 2**32, flags) + body
        self.out.write(raw + struct.pack("<I", zlib.crc32(raw)))

    def begin(self, number, tables):
        """A GTID event, and the table map events of these tables."""
        self.event(0xA2, struct.pack("<QIB", number, 0, 0) + bytes(6), 8)
        for table in tables:
            self.event(0x13, table_map(table, self.shape))

    def rows(self, table, rows, is_last):
        """Rows events of a table, of at most EVENT_SIZE bytes if they have more than one row; the last may end the statement."""
        head = number(self.shape.width) + b"".join(bits(places, self.shape.width) for places in self.shape.images())
        room = EVENT_SIZE - 19 - 4 - 8 - len(head)
        while rows:
            data = bytearray()
            while rows and (not data or len(data) + len(rows[0]) <= room):
                data += rows.pop(0)
            flags = b"\1\0" if is_last and not rows else b"\0\0"
            self.event(0x18 if self.shape.is_update else 0x17, table_id(table).to_bytes(6, "little") + flags + head + data)

    def end(self, number):
        """An XID event."""
        self.event(0x10, struct.pack("<Q", number))


def words():
    parser = argparse.ArgumentParser(description=__doc__, formatter_class=argparse.RawDescriptionHelpFormatter)
    parser.add_argument("rows", type=int)
    parser.add_argument("out")
    parser.add_argument("single", nargs="?", choices=["single"])
    parser.add_argument("tables", nargs="?", type=int, default=1)
    parser.add_argument("order", nargs="?", choices=["random"])
    parser.add_argument("--columns", type=int, default=len(COLUMNS))
    parser.add_argument("--width", type=int)
    parser.add_argument("--present", type=int)
    parser.add_argument("--updates", action="store_true")
    parser.add_argument("--plain", action="store_true")
    parser.add_argument("--once", action="store_true")
    parser.add_argument("--event")
    parser.add_argument("--full", action="store_true")
    said = parser.parse_args()
    if said.columns < len(COLUMNS):
        parser.error(f"a table has at least {len(COLUMNS)} columns")
    return said


def order(tables, is_random):
    """The tables to which the statements go."""
    return (value % tables for value in (numbers() if is_random else itertools.count()))


def write_event(said):
    """Writes the file of one rows event."""
    command = [sys.executable, Path(__file__).with_name("make_rows.py"), said.event, str(said.rows), *["full"] * said.full]
    table, rows = subprocess.run(command, check=True, capture_output=True, text=True).stdout.split()[-2:]
    with open(said.out, "wb") as out:
        file = File(out, None)
        file.event(0x13, bytes.fromhex(table))
        file.event(0x1E, bytes.fromhex(rows))
        print(f"{file.position} bytes")


def main():
    said = words()
    if said.event:
        return write_event(said)
    width = said.width or said.columns
    shape = Shape(said.columns, width, min(said.present or width, width), not said.plain, said.updates)
    step = 1 if said.single else ROWS_OF_A_STATEMENT
    random, tables = numbers(), order(said.tables, said.order == "random")
    with open(said.out, "wb") as out:
        file = File(out, shape)
        if said.once:
            file.begin(1, range(said.tables))
        for first in range(0, said.rows, step):
            rows = [row(key, random, shape) for key in range(first, min(first + step, said.rows))]
            table, transaction = next(tables), first // step + 1
            is_last = not said.once or first + step >= said.rows
            if not said.once:
                file.begin(transaction, [table])
            file.rows(table, rows, is_last)
            if is_last:
                file.end(transaction)
        print(f"{file.position} bytes")


if __name__ == "__main__":
    main()
