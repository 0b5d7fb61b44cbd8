"""The files of `scripts/hostile.py --slow`: each is made so that reading it could take more than its length and what is printed of it say.

A maker takes a size in bytes and gives the events of a file of at most that size: their types and bodies. All rows events of a file are of one statement.
"""
import itertools
import os
import resource
import signal
import struct
import subprocess
import sys
import tempfile
from pathlib import Path

from make_file import File, field, number, table_id

KIB = 1024
# For each size the seconds of the processor that a run may take, beside what it prints.
MOST_SECONDS = {128 * KIB: 2, 1024 * KIB: 4}
# How many bytes a second it may print beside that.
PRINTED_IN_A_SECOND = 100_000_000
# A run that takes more of them is ended, or one that is known as slow and takes twice what it may.
LIMIT = 30
MODES = {"JSON": [], "--text": ["--text"], "--count": ["--count"]}

# What is slow still of 1,024 KiB: the file, in which forms, and why.
SLOW = [
    ("five images by turns, empty fields", MODES, "events whose images' columns aren't those of one of the last four plans make a plan anew, by a walk over all optional fields"),
    ("wide tables by turns", ["JSON"], "what decides the JSON of all columns is found out anew for each event, where two tables take more than is kept"),
]
KNOWN = {(name, 1024 * KIB, mode): why for name, modes, why in SLOW for mode in modes}

QUERY, TABLE_MAP, WRITE, UPDATE, PARTIAL = 0x02, 0x13, 0x17, 0x18, 0x27
TINY, JSON, STRING = b"\1", b"\xf5", b"\xfe"
# The header and the checksum of an event, and what the body of one for a table begins with.
EVENT = 23
# What a file has before its events.
BEGUN = 256
# An image in which the only column of the image is NULL.
NULL = b"\xff"


def head(table, is_last=False):
    return table_id(table).to_bytes(6, "little") + (b"\1\0" if is_last else b"\0\0")


def table_map(types, metadata=b"", optional=b"", table=0):
    """A table map event of a table with columns of these types."""
    name = b"t%d" % table
    body = head(table) + b"\4shop\0" + number(len(name)) + name + b"\0"
    return TABLE_MAP, body + number(len(types)) + types + number(len(metadata)) + metadata + b"\xff" * ((len(types) + 7) // 8) + optional


def bitmap(count, places):
    return sum(1 << place for place in places).to_bytes((count + 7) // 8, "little")


def rows(event_type, columns, images, data, table=0, is_last=False):
    """A rows event of a table of so many columns, of which these are in the images."""
    extra = b"\2\0" if event_type == PARTIAL else b""
    return event_type, head(table, is_last) + extra + number(columns) + b"".join(bitmap(columns, places) for places in images) + data


def count_left(size, events, each):
    """How many times so many bytes there is room for in a file of this size after these events."""
    return (size - BEGUN - sum(EVENT + len(body) for _, body in events)) // each


def filled(size, first, event_type, columns, images, pair):
    """These events, and a rows event that fills the file with such a pair of rows."""
    empty = rows(event_type, columns, images, b"", is_last=True)
    times = count_left(size, [*first, empty], len(pair))
    return [*first, (event_type, empty[1] + pair * times)]


def repeated(size, first, events):
    """These events, and then the others by turns, as many as there is room for."""
    given, left = list(first), count_left(size, first, 1)
    for event_type, body in itertools.cycle(events):
        left -= EVENT + len(body)
        if left < 0:
            return given
        given.append((event_type, body))


def one_of_many_columns(size):
    columns = size * 4 // 9
    return filled(size, [table_map(TINY * columns)], WRITE, columns, [[columns - 1]], NULL)


def updates_of_many_columns(size):
    columns = size * 2 // 5
    return filled(size, [table_map(TINY * columns)], UPDATE, columns, [[0], [columns - 1]], 2 * NULL)


def partial_updates_of_many_columns(size):
    columns = size // 4
    table = table_map(JSON * columns, b"\4" * columns)
    return filled(size, [table], PARTIAL, columns, [[0], [columns - 1]], NULL + b"\0" + NULL)


def names_of_many_columns(size):
    """The last column of the image is the last of the table, each of which has a name of its own list of values."""
    columns = size // 8
    optional = field(4, b"\1c" * columns) + field(6, b"\0" * columns)
    return filled(size, [table_map(STRING * columns, b"\xf7\1" * columns, optional)], WRITE, columns, [[columns - 1]], NULL)


def alternating_images(size):
    columns = 8000
    events = [rows(WRITE, columns, [[place]], NULL) for place in (0, columns - 1)]
    return repeated(size, [table_map(TINY * columns)], events)


def alternating_images_of_an_update(size):
    columns = 4000
    events = [rows(UPDATE, columns, [[place], [columns - 1 - place]], 2 * NULL) for place in (0, 1)]
    return repeated(size, [table_map(TINY * columns)], events)


def empty_fields(size):
    """Optional fields of a kind that no server writes, without a value."""
    return field(255, b"") * (size // 4)


def with_empty_fields(size):
    return repeated(size, [table_map(TINY, optional=empty_fields(size))], [rows(WRITE, 1, [[0]], NULL)])


def alternating_images_with_empty_fields(size):
    events = [rows(WRITE, 2, [[place]], NULL) for place in (0, 1)]
    return repeated(size, [table_map(2 * TINY, optional=empty_fields(size))], events)


def five_images_with_empty_fields(size):
    """One image more than plans are kept of the table map event that is open."""
    events = [rows(WRITE, 5, [[place]], NULL) for place in range(5)]
    return repeated(size, [table_map(5 * TINY, optional=empty_fields(size))], events)


def values(size):
    """The names of the values of an ENUM, of so many bytes."""
    count = size // 256
    return field(6, number(count) + (number(255) + b"v" * 255) * count)


def many_events_of_a_large_map(size):
    table = table_map(STRING, b"\xf7\2", values(size // 2))
    return repeated(size, [table], [rows(WRITE, 1, [[0]], NULL)])


def two_large_maps(size):
    tables = [table_map(STRING, b"\xf7\2", values(size // 4), table) for table in (0, 1)]
    return repeated(size, tables, [rows(WRITE, 1, [[0]], NULL, table) for table in (0, 1)])


def alternating_images_with_values(size):
    count = size // 2
    table = table_map(2 * STRING, b"\xf7\2" * 2, field(6, number(count) + bytes(count) + b"\0"))
    return repeated(size, [table], [rows(WRITE, 2, [[place]], NULL) for place in (0, 1)])


def an_enum_of_many_values(size):
    count = min(size // 2, 65535)
    table = table_map(STRING, b"\xf7\2", field(6, number(count) + bytes(count)))
    return filled(size, [table], WRITE, 1, [[0]], b"\xfe" + count.to_bytes(2, "little"))


def many_tables(size):
    """A table map event for each rows event, all in force at once, and then rows events of them by turns."""
    one = len(table_map(TINY)[1]) + len(rows(WRITE, 1, [[0]], NULL)[1]) + 2 * EVENT + 6
    count = size // one
    return [table_map(TINY, table=table) for table in range(count)] + [rows(WRITE, 1, [[0]], NULL, table) for table in range(count)]


def wide_tables_by_turns(size):
    """Two tables, of which each rows event has the first column alone."""
    columns = size // 6
    events = [rows(WRITE, 1, [[0]], NULL, table) for table in (0, 1)]
    return repeated(size, [table_map(TINY * columns, table=table) for table in (0, 1)], events)


def a_table_past_those_remembered(size):
    """Events of 4,096 tables, or of as many as there is room for, and then of two more by turns, one of which has many optional fields."""
    count = min(4096, size // 256)
    first = [event for table in range(count) for event in (table_map(TINY, table=table), rows(WRITE, 1, [[0]], NULL, table))]
    fields = field(255, b"") * (size // 8)
    maps = [table_map(TINY, optional=fields, table=count), table_map(TINY, table=count + 1)]
    return repeated(size, first + maps, [rows(WRITE, 1, [[0]], NULL, table) for table in (count, count + 1)])


def statement(text):
    return QUERY, struct.pack("<IIBHH", 1, 0, 0, 0, 0) + b"\0" + text


def statements(begin, middle, end=b""):
    """A maker of statements of 16 KB, whose text begins, goes on and ends so."""

    def make(size):
        event = statement(begin + middle * ((16000 - len(begin) - len(end)) // len(middle)) + end)
        return repeated(size, [], [event])

    return make


def a_long_name(size):
    """The name of the only column is in each line, and a row has one byte."""
    names = field(4, number(2000) + b"n" * 2000)
    return filled(size, [table_map(TINY, optional=names)], WRITE, 1, [[0]], NULL)


MAKERS = {
    "one of many columns": one_of_many_columns,
    "updates of many columns": updates_of_many_columns,
    "partial updates of many columns": partial_updates_of_many_columns,
    "names of many columns": names_of_many_columns,
    "alternating images": alternating_images,
    "alternating images of updates": alternating_images_of_an_update,
    "empty fields": with_empty_fields,
    "alternating images, empty fields": alternating_images_with_empty_fields,
    "five images by turns, empty fields": five_images_with_empty_fields,
    "a large table map event": many_events_of_a_large_map,
    "two large table map events": two_large_maps,
    "alternating images, many values": alternating_images_with_values,
    "an ENUM of many values": an_enum_of_many_values,
    "many tables": many_tables,
    "wide tables by turns": wide_tables_by_turns,
    "a table past those remembered": a_table_past_those_remembered,
    "statements of comments": statements(b"create", b"/**/ "),
    "statements with a comment that doesn't end": statements(b"/*", b"/* *", b"*"),
    "statements with words like SELECT": statements(b"create table t ", b"selec "),
    "a long name": a_long_name,
}


def write_file(path, events):
    with open(path, "wb") as out:
        file = File(out, None)
        for event_type, body in events:
            file.event(event_type, body)
        return file.position


def run(words, limit):
    """The status of a program, how many bytes it printed, the seconds of the processor, and the last line that it told."""

    def set_limit():
        resource.setrlimit(resource.RLIMIT_CPU, (limit, limit + 1))

    with tempfile.TemporaryFile() as told:
        process = subprocess.Popen(words, stdout=subprocess.PIPE, stderr=told, preexec_fn=set_limit)
        printed = 0
        while data := os.read(process.stdout.fileno(), 1 << 20):
            printed += len(data)
        process.stdout.close()
        _, status, used = os.wait4(process.pid, 0)
        process.returncode = os.waitstatus_to_exitcode(status)
        told.seek(0)
        lines = told.read().decode(errors="replace").splitlines()
    return process.returncode, printed, used.ru_utime + used.ru_stime, lines[-1] if lines else ""


def judge(name, size, mode, status, printed, seconds, told):
    """Says how a run went, and returns whether that is wrong."""
    allowed = MOST_SECONDS[size] + printed / PRINTED_IN_A_SECOND
    why = KNOWN.get((name, size, mode))
    is_slow = status == -signal.SIGXCPU or seconds > allowed
    if status not in (0, -signal.SIGXCPU):
        verdict = f"WRONG: status {status}, {told[:200]}"
    elif is_slow and why is None:
        verdict = f"SLOW: more than {allowed:.1f}"
    elif is_slow:
        verdict = f"slow, as is known: {why}"
    elif why is not None:
        verdict = "fine, though it is known as slow: if this is so elsewhere too, it is to be taken off the list"
    else:
        verdict = "fine"
    print(f"{size // KIB:5} KiB  {name + ', ' + mode:52} {seconds:6.2f} s {printed / 1e6:8.1f} MB printed  {verdict}", flush=True)
    return verdict[0].isupper()


def main(program):
    """Runs the program on each file in each form, and returns how many runs went wrong."""
    wrong = 0
    with tempfile.TemporaryDirectory() as folder:
        path = Path(folder) / "file"
        for size, (name, make) in itertools.product(MOST_SECONDS, MAKERS.items()):
            written = write_file(path, make(size))
            if written > size:
                sys.exit(f"{name}: the file has {written} bytes, more than {size}")
            for mode, words in MODES.items():
                limit = 2 * MOST_SECONDS[size] if (name, size, mode) in KNOWN else LIMIT
                wrong += judge(name, size, mode, *run([program, *words, path], limit))
    print(f"{len(MOST_SECONDS) * len(MAKERS) * len(MODES)} runs, {wrong} wrong, {len(KNOWN)} known as slow")
    return wrong
