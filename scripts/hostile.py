#!/usr/bin/env python3
"""Runs the built program on COUNT made-up inputs, and checks what must hold of every input. Or runs `changes` on files that could be slow.

usage: scripts/hostile.py SEED COUNT [FIRST]
       scripts/hostile.py --slow PROGRAM

Input N of a seed is always the same, whatever COUNT is; FIRST is the first N, 0 if left out. With COUNT 1 the words of the input are printed too.
Some inputs are intact, and must end with status 0 and all their pairs. The others are damaged: cut, with flipped bits, with other counts and
lengths, or with bytes that were taken out or put in.

Of every input it checks: the status is 0, 1 or 2, and no signal ended the program; it took at most 2 seconds and 256 MiB, with the memory of
Python, which starts it; every line has a form of docs/PROGRAM.md; there is at most one fault line, the last, exactly with status 1, and it isn't
`Memory`; there are at most as many lines of pairs as the rows data has bytes, so with the fault at most one line more. Where the rows event is cut
before its rows data, this has no bytes. The script prints each input that breaks one of these, and then how many inputs ended with each status; its
own status is 1 where one broke, and 2 where there is no program. Build the program with `rt run` in crates/rows first.

With --slow PROGRAM is the built `changes` (crates/changes/out/changes). scripts/hostile_files.py makes files of at most 128 KiB and of at most 1 MiB,
on which it could take much longer than their length says: tables of which hardly a column is in an image, images that alternate, many events beside a
large table map event. `changes` reads each as JSON, as text and with `--count`. No file of 128 KiB may take more than 2 seconds of the processor, and
none of 1 MiB more than 4, beside a second for each 100 MB that is printed. What is slow still stands in a list there, with the reason: it is told, and
is no failure. It prints a line for each run, and last how many there were and how many went wrong. That takes two minutes.
"""
import os
import random
import re
import resource
import subprocess
import sys
import time

import hostile_files

PROGRAM = os.path.join(os.path.dirname(os.path.abspath(__file__)), "..", "crates", "rows", "out", "rows")
MOST_SECONDS = 2
MOST_KIB = 256 * 1024
# No more pairs after so many bytes of rows data, and no more bytes than an argument of a program can have as digits.
ENOUGH_BYTES = 20_000
MOST_BYTES = 60_000

CELL = (
    rb"(?:NULL|-?[0-9]+|x(?:[0-9a-f]{2})*|f32:[0-9a-f]{8}|f64:[0-9a-f]{16}|date\([0-9]+(?:,[0-9]+){6}\)|time\((?:true|false)(?:,[0-9]+){5}\)"
    rb"|(?:array|object|diffs)\([0-9]+\)|scalar)"
)
PLACE = rb"[^\n=]*=" + CELL
IMAGE = rb"(?:-|\{(?:" + PLACE + rb"(?:, " + PLACE + rb")*)?\})"
PAIR = re.compile(IMAGE + b" -> " + IMAGE)
FAULT = re.compile(
    rb"fault (?:UnexpectedEof|BadLenEnc|BytesRemaining|Unhandled|BadVarLen|NoColumnType|MissingMetadata|UnknownEnum|UnknownBlob|DecimalScale"
    rb"|DecimalGroup|TimeRange|YearRange|EmptyPair|Jsonb\([A-Za-z]+\)"
    rb"|(?:UnknownJsonbType|UnknownLiteralType|UnknownJsonDiffOperation|UnknownColumnType|UnexpectedColumnType)\([0-9]+\))"
)

# The types of rows events: writes, updates, deletes, and the partial update.
WRITES, UPDATES, DELETES, PARTIAL = (0x17, 0x1E), (0x18, 0x1F), (0x19, 0x20), 0x27
NUMERIC = {1, 2, 3, 4, 5, 8, 9, 246}
ENUM, SET, STRING, JSON = 247, 248, 254, 245


def little(number, size):
    return (number % 256**size).to_bytes(size, "little")


def lenenc(number):
    """A length-encoded number."""
    if number < 251:
        return bytes([number])
    return b"\xfc" + little(number, 2) if number < 2**16 else b"\xfd" + little(number, 3)


def bits(flags, last_first=False):
    """Flags as bits, eight to a byte, the first in the lowest bit or, with `last_first`, in the highest."""
    packed = bytearray((len(flags) + 7) // 8)
    for place, flag in enumerate(flags):
        packed[place // 8] |= flag << (7 - place % 8 if last_first else place % 8)
    return bytes(packed)


def text(r, most):
    return r.randbytes(r.randint(0, most))


# Binary JSON. A value is its type byte and its bytes.


def json_scalar(r):
    """A number, a literal, a string or an opaque value."""
    size, kind = r.choice([(1, 4), (2, 5), (2, 6), (4, 7), (4, 8), (8, 9), (8, 10), (8, 11), (0, 12), (0, 15)])
    if kind == 4:
        return kind, bytes([r.randint(0, 2)])
    if kind == 12:
        return kind, var_text(text(r, 200))
    return (kind, r.randbytes(size)) if kind != 15 else (kind, bytes([r.choice([12, 246, 252])]) + var_text(text(r, 20)))


def var_text(value):
    """Bytes after their length in groups of seven bits."""
    return bytes([len(value)]) + value if len(value) < 128 else bytes([len(value) % 128 + 128, len(value) // 128]) + value


def json_value(r, depth):
    """A value of at most so many nested containers."""
    if depth == 0 or r.random() < 0.4:
        return json_scalar(r)
    if r.random() < 0.05:
        return deep(r.randint(1, 120))
    if r.random() < 0.15:
        return overlapping(r, depth)
    values = [json_value(r, depth - 1) for _ in range(r.randint(0, 4))]
    if values and r.random() < 0.2:
        values += [r.choice(values)] * r.randint(1, 30)
    return container(r, values, r.random() < 0.5, r.random() < 0.1)


def container(r, values, is_array, is_large):
    """An array, or an object, of values; equal values may share their bytes."""
    size = 4 if is_large else 2
    keys = [] if is_array else sorted((b"%x" % place).rjust(r.randint(1, 3), b"k") for place in range(len(values)))
    head = 2 * size + len(keys) * (size + 2) + len(values) * (1 + size)
    entries, tail = b"", b""
    for key in keys:
        entries += little(head + len(tail), size) + little(len(key), 2)
        tail += key
    places = {}
    for kind, value in values:
        if kind in (4, 5, 6) or (is_large and kind in (7, 8)):
            entries += bytes([kind]) + value.ljust(size, b"\0")
            continue
        if value not in places or r.random() < 0.3:
            places[value] = head + len(tail)
            tail += value
        entries += bytes([kind]) + little(places[value], size)
    whole = little(len(values), size) + little(head + len(tail), size) + entries + tail
    return (2 if is_array else 0) + is_large, whole


def deep(count):
    """So many arrays in each other."""
    kind, value = 4, b"\0"
    for _ in range(count):
        kind, value = container(random.Random(0), [(kind, value)], True, False)
    return kind, value


def overlapping(r, depth):
    """A container of a string, of a value that lies inside the string's bytes, and of numbers that lie over entries, over the string and over each
    other. If it is an object, its keys lie anywhere."""
    kind, inner = json_value(r, depth - 1)
    if kind in (4, 5, 6) or len(inner) > 9000:
        kind, inner = 9, r.randbytes(8)
    count, is_array = r.randint(3, 6), r.random() < 0.5
    first = 4 if is_array else 4 + 4 * count
    head = first + 3 * count
    outer = var_text(inner)
    size = head + len(outer) + 8
    values = [(12, head), (kind, head + len(outer) - len(inner))]
    for place in range(2, count):
        after = first + 3 * place + 3
        values.append((r.randint(7, 11), r.randint(after, r.choice([head, size - 8]))))
    entries = b"" if is_array else b"".join(little(r.randint(head, size - 3), 2) + little(r.randint(0, 3), 2) for _ in values)
    entries += b"".join(bytes([kind]) + little(at, 2) for kind, at in values)
    return 2 if is_array else 0, little(count, 2) + little(size, 2) + entries + outer + r.randbytes(8)


def json_cell(r):
    document = json_value(r, 3)
    cell = bytes([document[0]]) + document[1] + text(r, r.choice([0, 0, 9])) if r.random() < 0.95 else b""
    return little(len(cell), 4) + cell


def diffs_cell(r):
    cell = b""
    for _ in range(r.randint(0, 3)):
        operation, path = r.randint(0, 2), b"$." + b"k" * r.randint(0, 20)
        cell += bytes([operation]) + lenenc(len(path)) + path
        if operation < 2:
            kind, value = json_value(r, 2)
            cell += lenenc(len(value) + 1) + bytes([kind]) + value
    return little(len(cell), 4) + cell


# Columns. Each maker gives a type byte, its metadata, and how a cell is made: None where only NULL can be one.


def fixed(kind, size):
    metadata = bytes([size]) if kind in (4, 5) else b""
    return lambda r: (kind, metadata, lambda: r.randbytes(size))


def with_length(value, size):
    return little(len(value), size) + value


def texts(kind):
    def make(r):
        most = r.choice([20, 80, 255, 256, 4000])
        return kind, little(most, 2), lambda: with_length(text(r, min(most, 60)), 1 if most < 256 else 2)

    return make


def string(r):
    most = r.choice([30, 255, 260, 1000])
    first = STRING ^ (most >> 8 & 3) << 4
    return STRING, bytes([first, most % 256]), lambda: with_length(text(r, 25), 1 if most < 256 else 2)


def blob(kind):
    def make(r):
        size = r.randint(1, 4)
        return kind, bytes([size]), lambda: with_length(text(r, 60), size)

    return make


def variant(kind, most):
    """An ENUM or a SET: as a server writes it, with the type byte of a STRING, or with its own."""

    def make(r):
        size = r.randint(1, most)
        return r.choice([STRING, kind]), bytes([kind, size]), lambda: r.randbytes(size)

    return make


def without_cells(kind):
    return lambda r: (kind, b"", None)


def bit(r):
    count = r.randint(1, 64)
    return 16, bytes([count % 8, count // 8]), lambda: r.randbytes((count + 7) // 8)


def decimal(r):
    precision = r.randint(1, 65)
    scale = r.randint(0, min(30, precision))

    def cell():
        groups = b""
        for count, short_first in ((precision - scale, True), (scale, False)):
            short = [count % 9] if count % 9 else []
            for digits in short + [9] * (count // 9) if short_first else [9] * (count // 9) + short:
                groups += r.randrange(10**digits).to_bytes((0, 1, 1, 2, 2, 3, 3, 4, 4, 4)[digits], "big")
        packed = bytearray(groups if r.random() < 0.5 else bytes(255 - byte for byte in groups))
        packed[0] ^= 0x80
        return bytes(packed)

    return 246, bytes([precision, scale]), cell


def with_fraction(kind, whole):
    """A time of so many bytes before its fraction, of zero to six decimals."""

    def make(r):
        decimals = r.randint(0, 6)
        size = (decimals + 1) // 2

        def cell():
            fraction = r.randrange(100**size).to_bytes(size, "big")
            return (2 ** (8 * whole - 1) + r.randrange(2 ** (8 * whole - 1))).to_bytes(whole, "big") + fraction

        return kind, bytes([decimals]), cell

    return make


def old_datetime(r):
    return 12, b"", lambda: little(r.randrange(10**14), 8)


def typed_array(r):
    kind, size = r.choice([(1, 1), (2, 2), (3, 4), (8, 8)])
    return 20, bytes([kind]), lambda: r.randbytes(size)


def json(r):
    return JSON, b"\4", lambda: json_cell(r)


# The types whose cells have no format, numbers that are no types, and types that a server never writes as a type byte.
CELL_LESS, UNKNOWN, UNUSUAL = [0, 6, 243], [21, 100, 244], [14, ENUM, SET]
FIXED = ((1, 1), (2, 2), (3, 4), (4, 4), (5, 8), (7, 4), (8, 8), (9, 3), (10, 3), (11, 3), (13, 1), (14, 3))
MAKERS = [fixed(kind, size) for kind, size in FIXED] + [without_cells(kind) for kind in CELL_LESS]
MAKERS += [texts(15), texts(253), string, variant(ENUM, 2), variant(SET, 8), bit, decimal, old_datetime, typed_array, json, json, json]
MAKERS += [blob(kind) for kind in (249, 250, 251, 252, 255, 242)] + [with_fraction(17, 4), with_fraction(18, 5), with_fraction(19, 3)]


# Kinds of optional fields that no server writes today. A whole field of one is skipped.
UNKNOWN_FIELDS = [0, 14, 255]


def field(kind, value):
    return bytes([kind]) + lenenc(len(value)) + value


def numbers(values):
    return b"".join(lenenc(value) for value in values)


def variants(r):
    """The names of the variants of an ENUM or a SET."""
    names = [text(r, 5) for _ in range(r.randint(0, 4))]
    return lenenc(len(names)) + b"".join(lenenc(len(name)) + name for name in names)


def charsets(r, default, listed, count):
    """The fields of these two kinds, for so many columns: a default with pairs, and a list."""
    pairs = [number for place in range(count) if r.random() < 0.4 for number in (place, 63)]
    return [field(default, numbers([255] + pairs)), field(listed, numbers(r.choice([8, 33, 63, 255, 300]) for _ in range(count)))]


def optional_metadata(r, columns):
    """Optional metadata for these columns: each field there or not, those of unknown kinds among them, in any order."""
    kinds = [column[0] for column in columns]
    real = [metadata[0] if kind == STRING and metadata[0] in (ENUM, SET) else kind for kind, metadata, _ in columns]
    names = b"".join(with_length(bytes(r.choices(b"abcxyz_ 19\xc3\xa9", k=r.randint(0, 9))), 1) for _ in columns)
    keys = [place for place in range(len(columns)) if r.random() < 0.3]
    fields = [
        field(1, bits([r.random() < 0.5 for kind in kinds if kind in NUMERIC], last_first=True)),
        field(4, names),
        field(5, b"".join(variants(r) for kind in real if kind == SET)),
        field(6, b"".join(variants(r) for kind in real if kind == ENUM)),
        field(7, numbers(r.randint(0, 8) for kind in real if kind == 255)),
        field(8, numbers(keys)),
        field(9, numbers(number for place in keys for number in (place, r.choice([0, 3, 700])))),
        field(12, bits([r.random() < 0.9 for _ in columns], last_first=True)),
        field(13, numbers(r.choice([2, 2048]) for kind in real if kind == 242)),
    ]
    fields += [field(kind, text(r, 9)) for kind in UNKNOWN_FIELDS]
    fields += charsets(r, 2, 3, sum(kind in (15, 252, 253, STRING) for kind in real))
    fields += charsets(r, 10, 11, sum(kind in (ENUM, SET) for kind in real))
    chosen = [value for value in fields if r.random() < 0.5]
    r.shuffle(chosen)
    return b"".join(chosen)


# The two events. `lengths` are the three post-header lengths: of table map events, of the rows event, and of WRITE_ROWS_EVENT.


def post_header_lengths(r, event_type):
    """Mostly those of a server. With 6 an event has a table id of four bytes."""
    own = 8 if event_type < 0x1A else 10
    return r.choice([8, 8, 8, 6]), r.choice([own, own, own, 6]), r.choice([10, 10, 10, 10, 8, 6])


def id_size(length):
    return 4 if length == 6 else 6


def table_id(r, length):
    return r.randbytes(id_size(length)) + b"\1\0"


def image_count(event_type):
    return 2 if event_type in UPDATES or event_type == PARTIAL else 1


def table_map(r, length, columns):
    metadata = b"".join(column[1] for column in columns)
    table = table_id(r, length) + b"\1d\0\1t\0" + lenenc(len(columns)) + bytes(column[0] for column in columns)
    table += lenenc(len(metadata)) + metadata + r.randbytes((len(columns) + 7) // 8)
    optional = optional_metadata(r, columns) if r.random() < 0.7 else b""
    return table + optional if len(table + optional) <= MOST_BYTES else table


def extra_data(r):
    """A number of two bytes that counts itself, and the bytes after it; 0 and 1 are read as 2."""
    count = r.choice([2, 2, 2, 0, 1, 3, r.randint(4, 40), 300])
    return little(count, 2) + r.randbytes(max(count - 2, 0))


def columns_and_images(r, images):
    """The columns of a table, and for each image which of them are in it. Some tables have thousands of columns, of which hardly one is there."""
    if r.random() < 0.02:
        columns = [r.choice(MAKERS)(r)] * r.choice([1000, 5000, 10_000])
        there = {r.randrange(len(columns)) for _ in range(r.randint(0, 2))}
        return columns, [[place in there for place in range(len(columns))] for _ in range(images)]
    count = r.choice([0, 1, 1, 2, 3, 4, 6, 9, 20, 300]) if r.random() < 0.9 else r.randint(0, 40)
    columns = [r.choice(MAKERS)(r) for _ in range(count)]
    return columns, [[r.random() < 0.8 for _ in columns] for _ in range(images)]


def events(r):
    """The post-header lengths, a table map event, and the type, the bytes and the count of pairs of a rows event of its table."""
    event_type = r.choice(WRITES + UPDATES + DELETES + (PARTIAL, PARTIAL))
    columns, images = columns_and_images(r, image_count(event_type))
    count = len(columns)
    lengths = post_header_lengths(r, event_type)
    table = table_map(r, lengths[0], columns)
    data, pairs = b"", 0
    for _ in range(r.randint(0, 6) if count else 0):
        if len(data) < ENOUGH_BYTES:
            one = pair(r, event_type, columns, images)
            times = min(r.choice([1, 5000]), ENOUGH_BYTES // len(one)) if count >= 1000 and one else 1
            data += one * times
            pairs += times
    rows = table_id(r, lengths[1]) + (extra_data(r) if lengths[1] == lengths[2] else b"") + lenenc(count) + b"".join(map(bits, images)) + data
    return lengths, table, event_type, rows, pairs if data else 0


def pair(r, event_type, columns, images):
    """The bytes of a pair of rows."""
    data = b""
    for number, image in enumerate(images):
        partial = [False] * len(columns)
        if event_type == PARTIAL and number == 1:
            is_partial = r.random() < 0.5
            data += lenenc(is_partial + 2 * r.randint(0, 100))
            if is_partial:
                raw = [place for place, column in enumerate(columns) if column[0] == JSON]
                flags = [r.random() < 0.5 for _ in raw]
                data += bits(flags)
                for place, flag in zip(raw, flags):
                    partial[place] = flag
        cells = [place for place, is_there in enumerate(image) if is_there]
        nulls = [columns[place][2] is None or r.random() < 0.2 for place in cells]
        data += bits(nulls)
        for place, is_null in zip(cells, nulls):
            if not is_null:
                data += diffs_cell(r) if partial[place] else columns[place][2]()
    return data


# Bytes that damage puts in.
PUT_IN = [0, 1, 0xFA, 0xFB, 0xFC, 0xFD, 0xFE, 0xFF] + CELL_LESS + UNKNOWN + UNUSUAL


def damage(r, data):
    """The bytes with one to four things wrong, a third of them near the start, where the counts are."""
    data = bytearray(data)
    for _ in range(r.choice([1, 1, 2, 4])):
        place = r.randrange(min(len(data), r.choice([30, MOST_BYTES, MOST_BYTES])) + 1)
        way = r.randrange(12)
        if way == 0:
            del data[r.randrange(len(data) + 1) :]
        elif way == 1:
            del data[place : place + r.randint(1, 4)]
        elif way == 2:
            data[place:place] = r.randbytes(r.randint(1, 9))
        elif way == 3:
            data += r.randbytes(r.randint(1, 40))
        elif place < len(data):
            data[place] = data[place] ^ 1 << r.randrange(8) if way < 9 else r.choice(PUT_IN)
    return bytes(data)


# What the script reads of damaged events. IndexError says that a part can't be read.


def take_lenenc(data, at):
    """A length-encoded number and the place after it."""
    size = {0xFC: 2, 0xFD: 3, 0xFE: 8}.get(data[at], 0)
    end = at + 1 + size
    if data[at] in (0xFB, 0xFF) or end > len(data):
        raise IndexError
    return int.from_bytes(data[at + 1 : end], "little") if size else data[at], end


def rows_data_len(rows, event_type, lengths):
    """How many bytes of rows data the event has; none if it ends before them."""
    try:
        at = id_size(lengths[1]) + 2
        if lengths[1] == lengths[2]:
            at += max(rows[at] + 256 * rows[at + 1], 2)
        count, at = take_lenenc(rows, at)
    except IndexError:
        return 0
    return max(len(rows) - at - image_count(event_type) * ((count + 7) // 8), 0)


def optional_place(table, length):
    """Where the optional metadata begins."""
    at = id_size(length) + 2
    at += table[at] + 2
    at += table[at] + 2
    count, at = take_lenenc(table, at)
    metadata_len, at = take_lenenc(table, at + count)
    return at + metadata_len + (count + 7) // 8


def without_line_ends(table, length):
    """The table map event with no byte 0A and no `=` in the names of its columns: a name with one of these would look like two lines or names."""
    table = bytearray(table)
    try:
        at = optional_place(table, length)
        while at < len(table):
            kind = table[at]
            value_len, at = take_lenenc(table, at + 1)
            if kind == 4:
                table[at : at + value_len] = table[at : at + value_len].replace(b"\n", b"\x0b").replace(b"=", b"-")
            at += value_len
    except IndexError:
        pass
    return bytes(table)


def run(words):
    """The status of the program, what it printed, and the seconds that it took; no status if it didn't end."""
    start = time.monotonic()
    try:
        ended = subprocess.run([PROGRAM, *words], stdout=subprocess.PIPE, stderr=subprocess.DEVNULL, timeout=5 * MOST_SECONDS)
    except subprocess.TimeoutExpired:
        return None, b"", time.monotonic() - start
    return ended.returncode, ended.stdout, time.monotonic() - start


def wrong(status, out, seconds, data_len, pairs):
    """What is wrong with a run, if anything. `pairs` is the count of an intact input."""
    if status not in (0, 1, 2):
        return f"status {status}"
    if seconds > MOST_SECONDS:
        return f"took {seconds:.1f} seconds"
    lines = out.split(b"\n")
    if lines.pop() != b"":
        return "the last line has no end"
    if b"fault Memory" in lines:
        return "a request for memory failed"
    if (status == 1) != bool(lines and FAULT.fullmatch(lines[-1])) or (status == 2 and lines):
        return f"status {status} with these lines"
    if status == 1:
        lines.pop()
    if not all(PAIR.fullmatch(line) for line in lines):
        return "a line of no known form"
    if len(lines) > data_len:
        return f"{len(lines)} pairs of {data_len} bytes"
    if pairs is not None and (status, len(lines)) != (0, pairs):
        return f"status {status} and {len(lines)} pairs of an intact input of {pairs}"
    return None


def make(seed, number):
    """The words of an input, the bytes of its rows data, and the count of its pairs if it is intact."""
    r = random.Random(f"{seed} {number}")
    lengths, table, event_type, rows, pairs = events(r)
    way = r.randrange(4)
    if way in (1, 3):
        table = without_line_ends(damage(r, table), lengths[0])
    if way in (2, 3):
        rows = damage(r, rows)
    if way or len(rows) > MOST_BYTES:
        rows, pairs = rows[:MOST_BYTES], None
    words = [str(lengths[0]), f"{event_type:02X}", str(lengths[1]), str(lengths[2]), table.hex(), rows.hex()]
    return words, rows_data_len(rows, event_type, lengths), pairs


def need(program, crate):
    if not os.access(program, os.X_OK):
        print(f"{program} is not built: run 'rt run' in crates/{crate} first", file=sys.stderr)
        sys.exit(2)


def main():
    if len(sys.argv) not in (3, 4):
        sys.exit(__doc__)
    if sys.argv[1] == "--slow":
        need(sys.argv[2], "changes")
        sys.exit(1 if hostile_files.main(sys.argv[2]) else 0)
    need(PROGRAM, "rows")
    seed, count, first = int(sys.argv[1]), int(sys.argv[2]), int(sys.argv[3]) if sys.argv[3:] else 0
    ended, broken, slowest = {}, 0, 0.0
    for number in range(first, first + count):
        words, data_len, pairs = make(seed, number)
        if count == 1:
            print(*words)
        status, out, seconds = run(words)
        ended[status] = ended.get(status, 0) + 1
        slowest = max(slowest, seconds)
        fault = wrong(status, out, seconds, data_len, pairs)
        if fault is None and resource.getrusage(resource.RUSAGE_CHILDREN).ru_maxrss > MOST_KIB:
            fault = "took more than 256 MiB, or an input before it did"
        if fault is not None:
            broken += 1
            print(f"input {number}: {fault}")
    print(f"{count} inputs of seed {seed}:", ", ".join(f"{ended[status]} with status {status}" for status in sorted(ended, key=str)))
    most = resource.getrusage(resource.RUSAGE_CHILDREN).ru_maxrss
    print(f"at most {slowest:.2f} seconds and {most // 1024} MiB; {broken} broken")
    sys.exit(1 if broken else 0)


if __name__ == "__main__":
    main()
