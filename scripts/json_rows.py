#!/usr/bin/env python3
"""Compares the JSON of `row_json` with a plain decoding of real events.

    python3 scripts/json_rows.py FILE ..

FILE has one JSON object a line: a pair of a table map event and a rows event of a MariaDB server, with
`mlen`, `type`, `plen` and `wlen` (the post-header lengths in decimal, the type in hexadecimal), and
`map_hex` and `rows_hex` (the events' bodies). A program that writes their rows by `row_json` is made
in a copy of the workspace and run by `rt try`; the gate doesn't run it. Each of its lines is read by
Python's `json`, and compared with what this script makes of the two events by docs/JSON.md.

Two values are the same where they are of the same type and equal; members and their order count.
"""

import base64
import json
import shutil
import struct
import subprocess
import sys
import tempfile
from datetime import datetime, timedelta
from pathlib import Path

ROOT = Path(__file__).resolve().parent.parent

PROGRAM = """
//! Writes the rows of the events of a file as lines of JSON, with an empty line after those of each.
#![tactic(auto)]

use anyhow::{Error, anyhow};
use binlog_base::below::{ParseBuf, Server};
use binlog_consts::consts::EventType;
use binlog_table::table_map::TableMapEvent;
use mysql_binlog_rows::rows_event::{LentPair, RowsEvent, RowsEventCtx};
use row_json::{LineRoom, TableJson, write_line};
use std::alloc::Global;
use std::io::Write;
use std::{env, fs};

fn number(word: &str) -> Result<u8, Error> {
    word.parse::<u8>().map_err(|_| anyhow!("not a number"))
}

fn bytes(alloc: Global, word: &str) -> Result<Vec<u8>, Error> {
    hex::decode(alloc, word).map_err(|_| anyhow!("not hexadecimal"))
}

fn add_lines(
    alloc: Global,
    words: &[&str],
    room: &mut LineRoom,
    lines: &mut Vec<u8>,
) -> Result<(), Error> {
    let map = bytes(alloc, words[4])?;
    let rows = bytes(alloc, words[5])?;
    let event_type = EventType::try_from(number(words[1])?).map_err(|_| anyhow!("no type"))?;
    let ctx = RowsEventCtx {
        event_type,
        post_header_len: number(words[2])?,
        write_rows_post_header_len: number(words[3])?,
    };
    let table: TableMapEvent<'_> = ParseBuf(&map).parse(number(words[0])?)?;
    let table = table.with_server(Server::MariaDb);
    let event: RowsEvent<'_> = ParseBuf(&rows).parse(ctx)?;
    let columns = TableJson::new(alloc, &table)?;
    let mut rows = event.rows(alloc, &table);
    let mut pair = LentPair::new(alloc);
    while let Some(read) = rows.next_lent(&mut pair) {
        read?;
        write_line(alloc, room, lines, &columns, &event, &pair)?;
    }
    lines.push(b'\\n')?;
    Ok(())
}

fn main(rt: HostRuntime) -> Result<(), Error> {
    let alloc = rt.alloc();
    let mut room = LineRoom::new(alloc);
    let mut lines = Vec::new(alloc);
    for word in env::args(&rt)?.skip(1) {
        let file = fs::read_to_string(&rt, &word)?;
        for line in file.lines() {
            let mut words = Vec::new(alloc);
            for word in line.split_whitespace() {
                words.push(word)?;
            }
            add_lines(alloc, &words, &mut room, &mut lines)?;
        }
    }
    rt.stdout().write_all(&lines)?;
    Ok(())
}
"""

USES = (
    "json_rows: binlog_base binlog_consts binlog_table mysql_binlog_rows row_json anyhow hex\n"
)

# Type bytes.
(TINY, SHORT, LONG, FLOAT, DOUBLE, TIMESTAMP, LONGLONG, INT24) = (1, 2, 3, 4, 5, 7, 8, 9)
(DATE, TIME, DATETIME, YEAR, VARCHAR, BIT) = (10, 11, 12, 13, 15, 16)
(TIMESTAMP2, DATETIME2, TIME2, JSON, DECIMAL) = (17, 18, 19, 245, 246)
(ENUM, SET, BLOB, VAR_STRING, STRING, GEOMETRY) = (247, 248, 252, 253, 254, 255)

ONE_BYTE = {FLOAT, DOUBLE, TIMESTAMP2, DATETIME2, TIME2, JSON, 249, 250, 251, BLOB, GEOMETRY}
TWO_BYTES = {VARCHAR, BIT, DECIMAL, ENUM, SET, VAR_STRING, STRING}
# MariaDB counts YEAR among the numeric columns, and GEOMETRY among the character columns.
NUMERIC = {TINY, SHORT, INT24, LONG, LONGLONG, FLOAT, DOUBLE, DECIMAL, YEAR, 0}
TEXT = {VARCHAR, VAR_STRING, STRING, 249, 250, 251, BLOB, GEOMETRY}

UTF8MB3 = [(33, 33), (76, 76), (83, 83), (192, 215), (223, 223), (576, 578), (1057, 1057)]
UTF8MB3 += [(1107, 1107), (1216, 1216), (1238, 1238), (2048, 2215), (2232, 2247)]
UTF8MB4 = [(0, 0), (45, 46), (224, 247), (255, 323), (608, 610), (1069, 1070), (1248, 1248)]
UTF8MB4 += [(1270, 1270), (2304, 2471), (2488, 2503)]
LATIN1 = [5, 8, 15, 31, 47, 48, 49, 94, 1032, 1071]
ASCII = [11, 65, 1035, 1089]


class Bytes:
    """What is left of an event's bytes."""

    def __init__(self, data):
        self.data = data

    def take(self, count):
        assert count <= len(self.data), "the event is cut"
        taken, self.data = self.data[:count], self.data[count:]
        return taken

    def number(self, count, order="little", signed=False):
        return int.from_bytes(self.take(count), order, signed=signed)

    def lenenc(self):
        first = self.number(1)
        assert first not in (251, 255), "no length-encoded number"
        return first if first < 251 else self.number({252: 2, 253: 3, 254: 8}[first])

    def bits(self, count, order="little"):
        data = self.take((count + 7) // 8)
        shift = (lambda i: i % 8) if order == "little" else (lambda i: 7 - i % 8)
        return [data[i // 8] >> shift(i) & 1 for i in range(count)]


class Column:
    """A column: its real type, its two numbers of metadata, and what the optional metadata says."""

    def __init__(self, raw, chunk):
        self.first, self.second = (tuple(chunk) + (0, 0))[:2]
        self.type, self.raw = raw, raw
        if raw == STRING and self.first:
            self.type = self.first | 0x30
            self.length = (3 - self.first // 16 % 4) * 256 + self.second
        elif raw == STRING:
            self.length = self.second * 256
        self.unsigned = False
        self.charset = 0
        self.names = []
        self.name = None


class Float(float):
    """A FLOAT or DOUBLE that is finite."""

    def __new__(cls, bits, packing):
        made = super().__new__(cls, struct.unpack("<" + packing, bits)[0])
        made.bits, made.packing = bits, packing
        return made


def charset_in(charset, ranges):
    return any(first <= charset <= last for first, last in ranges)


def text_of(data, charset):
    """The text of bytes, or None."""
    if charset in LATIN1:
        return "".join(
            chr(b) if b in (0x81, 0x8D, 0x8F, 0x90, 0x9D) else bytes([b]).decode("cp1252")
            for b in data
        )
    try:
        if charset in ASCII:
            return data.decode("ascii")
        if charset_in(charset, UTF8MB4):
            return data.decode("utf-8")
        if charset_in(charset, UTF8MB3):
            text = data.decode("utf-8")
            return text if all(ord(c) < 0x10000 for c in text) else None
    except UnicodeDecodeError:
        pass
    return None


def base64_of(data):
    return {"base64": base64.b64encode(data).decode()}


def text_or_base64(data, charset):
    text = text_of(data, charset)
    return base64_of(data) if text is None else text


def fraction_text(decimals, microseconds):
    return "." + f"{microseconds:06d}"[:decimals] if decimals else ""


def fraction(event, decimals):
    width = (decimals + 1) // 2
    return event.number(width, "big") * 100 ** (3 - width)


def clock(hours, minutes, seconds):
    return f"{hours:02d}:{minutes:02d}:{seconds:02d}"


def timestamp_text(seconds, microseconds, decimals):
    if seconds == 0 and microseconds == 0:
        return "0000-00-00 00:00:00" + fraction_text(decimals, 0)
    moment = datetime(1970, 1, 1) + timedelta(seconds=seconds)
    return moment.strftime("%Y-%m-%dT%H:%M:%S") + fraction_text(decimals, microseconds) + "Z"


def time2_text(event, decimals):
    width = (decimals + 1) // 2
    value = event.number(3 + width, "big") - (1 << (23 + 8 * width))
    sign, value = ("-", -value) if value < 0 else ("", value)
    whole, part = value >> 8 * width, value & (1 << 8 * width) - 1
    text = clock(whole >> 12 & 0x3FF, whole >> 6 & 0x3F, whole & 0x3F)
    return sign + text + fraction_text(decimals, part * 100 ** (3 - width))


def datetime2_text(event, decimals):
    value = event.number(5, "big") - (1 << 39)
    part = fraction(event, decimals)
    month, day = value >> 22, value >> 17 & 31
    text = clock(value >> 12 & 31, value >> 6 & 63, value & 63)
    date = f"{month // 13:04d}-{month % 13:02d}-{day:02d}"
    return f"{date} {text}" + fraction_text(decimals, part)


def decimal_text(event, precision, scale):
    sizes = [0, 1, 1, 2, 2, 3, 3, 4, 4, 4]
    whole = precision - scale
    groups = [whole % 9] + [9] * (whole // 9), [9] * (scale // 9) + [scale % 9]
    count = sum(sizes[n] for part in groups for n in part)
    data = bytearray(event.take(count))
    is_negative = data[0] < 128
    data[0] ^= 128
    if is_negative:
        data = bytearray(255 - b for b in data)
    left = Bytes(bytes(data))
    texts = [
        "".join(f"{left.number(sizes[n], 'big'):0{n}d}" for n in part if n) for part in groups
    ]
    text = texts[0].lstrip("0") or "0"
    return "-" * is_negative + text + ("." + texts[1] if scale else "")


def names_of_set(column, bits):
    members = [i for i in range(64) if bits >> i & 1]
    if all(i < len(column.names) and column.names[i] is not None for i in members):
        return ",".join(column.names[i] for i in members)
    return bits


def value_of(column, event):
    """The value of a cell that isn't NULL."""
    kind, first, second = column.type, column.first, column.second
    widths = {TINY: 1, SHORT: 2, INT24: 3, LONG: 4, LONGLONG: 8}
    if kind in widths:
        return event.number(widths[kind], signed=not column.unsigned)
    if kind in (FLOAT, DOUBLE):
        packing, width = ("f", 4) if kind == FLOAT else ("d", 8)
        return Float(event.take(width), packing)
    if kind == YEAR:
        year = event.number(1)
        return 1900 + year if year else 0
    if kind == BIT:
        return event.number((first + 8 * second + 7) // 8, "big")
    if kind == DECIMAL:
        return decimal_text(event, first, second)
    if kind == DATE:
        value = event.number(3)
        return f"{value >> 9:04d}-{value >> 5 & 15:02d}-{value & 31:02d}"
    if kind == DATETIME:
        d = f"{event.number(8):014d}"
        return f"{d[:-10]}-{d[-10:-8]}-{d[-8:-6]} {d[-6:-4]}:{d[-4:-2]}:{d[-2:]}"
    if kind == TIME:
        value = event.number(3, signed=True)
        size = abs(value)
        return "-" * (value < 0) + clock(size // 10000, size // 100 % 100, size % 100)
    if kind == TIMESTAMP:
        return timestamp_text(event.number(4), 0, 0)
    if kind == TIMESTAMP2:
        seconds = event.number(4, "big")
        return timestamp_text(seconds, fraction(event, first), first)
    if kind == DATETIME2:
        return datetime2_text(event, first)
    if kind == TIME2:
        return time2_text(event, first)
    if kind == ENUM:
        number = event.number(second)
        if number == 0:
            return ""
        name = column.names[number - 1] if number <= len(column.names) else None
        return number if name is None else name
    if kind == SET:
        return names_of_set(column, event.number(second))
    if kind in (249, 250, 251, BLOB, GEOMETRY):
        data = event.take(event.number(first))
        return base64_of(data) if kind == GEOMETRY else text_or_base64(data, column.charset)
    if kind in (VARCHAR, VAR_STRING, STRING):
        most = column.length if column.raw == STRING else first + 256 * second
        data = event.take(event.number(1 if most < 256 else 2))
        if kind == STRING and column.charset == 63:
            # A BINARY, without the zero bytes at its end.
            return base64_of(data.ljust(most, b"\0"))
        return text_or_base64(data, column.charset)
    raise AssertionError(f"a column of type {kind}")


def set_charsets(columns, fields, default, listed):
    """Sets the character sets of a group of columns, by the two fields that give them."""
    if default in fields:
        left = Bytes(fields[default])
        common = left.lenenc()
        others = {}
        while left.data:
            place = left.lenenc()
            others[place] = left.lenenc()
        for place, column in enumerate(columns):
            column.charset = others.get(place, common)
    elif listed in fields:
        left = Bytes(fields[listed])
        for column in columns:
            column.charset = left.lenenc()


def set_names(columns, fields, kind):
    if kind in fields:
        left = Bytes(fields[kind])
        for column in columns:
            values = [left.take(left.lenenc()) for _ in range(left.lenenc())]
            column.names = [text_of(value, column.charset) for value in values]


def columns_of(body, post_header_len):
    event = Bytes(body)
    event.take(4 if post_header_len == 6 else 6)
    event.take(2)
    for _ in range(2):
        event.take(event.number(1) + 1)
    types = event.take(event.lenenc())
    metadata = Bytes(event.take(event.lenenc()))
    widths = [1 if n in ONE_BYTE else 2 if n in TWO_BYTES else 0 for n in types]
    columns = [Column(n, metadata.take(width)) for n, width in zip(types, widths)]
    event.take((len(types) + 7) // 8)
    fields = {}
    while event.data:
        kind = event.number(1)
        fields[kind] = event.take(event.lenenc())
    if 1 in fields:
        numeric = [column for column in columns if column.raw in NUMERIC]
        for column, sign in zip(numeric, Bytes(fields[1]).bits(len(numeric), "big")):
            column.unsigned = bool(sign)
    set_charsets([c for c in columns if c.type in TEXT], fields, 2, 3)
    set_charsets([c for c in columns if c.type in (ENUM, SET)], fields, 10, 11)
    set_names([c for c in columns if c.type == SET], fields, 5)
    set_names([c for c in columns if c.type == ENUM], fields, 6)
    names = Bytes(fields.get(4, b""))
    for place, column in enumerate(columns):
        name = names.take(names.lenenc()) if names.data else b"@%d" % place
        column.name = name.decode("utf-8", "replace")
    return columns


def image_of(columns, present, event):
    here = [column for column, bit in zip(columns, present) if bit]
    nulls = event.bits(len(here))
    return [(c.name, None if null else value_of(c, event)) for c, null in zip(here, nulls)]


def pairs_of(line):
    """The pairs of a line of the file: an operation, and the rows before and after it."""
    columns = columns_of(bytes.fromhex(line["map_hex"]), line["mlen"])
    kind = int(line["type"], 16)
    event = Bytes(bytes.fromhex(line["rows_hex"]))
    event.take(4 if line["plen"] == 6 else 6)
    event.take(2)
    if line["plen"] == line["wlen"]:
        event.take(max(event.number(2) - 2, 0))
    count = event.lenenc()
    has_before, has_after = kind not in (0x17, 0x1E), kind not in (0x19, 0x20)
    before = event.bits(count) if has_before else None
    after = event.bits(count) if has_after else None
    pairs = []
    while event.data:
        old = image_of(columns, before, event) if has_before else None
        new = image_of(columns, after, event) if has_after else None
        operation = "u" if has_before and has_after else "d" if has_before else "c"
        pairs.append([("op", operation), ("before", old), ("after", new)])
    return pairs


def is_same(found, expected):
    """Whether a value of a line is what it must be."""
    if isinstance(expected, Float):
        if expected != expected:
            return found == "NaN"
        if expected in (float("inf"), float("-inf")):
            return found == ("Infinity" if expected > 0 else "-Infinity")
        if not isinstance(found, Number):
            return False
        return struct.pack("<" + expected.packing, float(found.text)) == expected.bits
    if isinstance(expected, bool) or isinstance(found, Number):
        return isinstance(expected, int) and found.text == str(expected)
    if isinstance(expected, dict):
        expected = list(expected.items())
    if isinstance(expected, list):
        return (
            isinstance(found, list)
            and len(found) == len(expected)
            and all(f[0] == e[0] and is_same(f[1], e[1]) for f, e in zip(found, expected))
        )
    return type(found) is type(expected) and found == expected


class Number:
    """A number of JSON, as its text."""

    def __init__(self, text):
        self.text = text

    def __repr__(self):
        return self.text


def read(line):
    """A line as JSON: objects as lists of their members, and numbers as their texts."""
    return json.loads(line, object_pairs_hook=list, parse_int=Number, parse_float=Number)


def run(events):
    """The lines that the program writes for each of the events."""
    with tempfile.TemporaryDirectory() as folder:
        copy = Path(folder) / "repository"
        ignored = shutil.ignore_patterns("out", ".git")
        shutil.copytree(ROOT, copy, ignore=ignored)
        crate = copy / "crates" / "json_rows"
        (crate / "src").mkdir(parents=True)
        (crate / "src" / "main.rt").write_text(PROGRAM.lstrip())
        with (copy / "crates.txt").open("a") as uses:
            uses.write(USES)
        words = crate / "events.txt"
        words.write_text("".join(
            f"{e['mlen']} {int(e['type'], 16)} {e['plen']} {e['wlen']} {e['map_hex']} {e['rows_hex']}\n"
            for e in events
        ))
        ran = subprocess.run(
            ["rt", "try", "--", str(words)], cwd=crate, stdout=subprocess.PIPE, check=True
        )
    found, lines = [], []
    for line in ran.stdout.decode("utf-8").split("\n")[:-1]:
        if line:
            lines.append(line)
        else:
            found.append(lines)
            lines = []
    return found


def main():
    if len(sys.argv) < 2:
        sys.exit(__doc__)
    events = [json.loads(line) for name in sys.argv[1:] for line in open(name, encoding="utf-8")]
    found = run(events)
    assert len(found) == len(events), f"{len(found)} events of {len(events)}"
    differing = values = 0
    for event, lines in zip(events, found):
        pairs = pairs_of(event)
        values += sum(len(row) for pair in pairs for _, row in pair[1:] if row)
        same = len(lines) == len(pairs)
        for line, pair in zip(lines, pairs):
            if not is_same(read(line), pair):
                print(f"{event['id']}: {line}\n  is not {pair}")
                same = False
        differing += not same
    print(f"{len(events) - differing} of {len(events)} pairs of events agree, {values} values")
    sys.exit(differing > 0)


if __name__ == "__main__":
    main()
