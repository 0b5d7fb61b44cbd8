#!/usr/bin/env python3
"""Reads whole binlog files with `binlog_file`, and damaged copies of them.

    python3 scripts/files.py FILE..
    python3 scripts/files.py --program PATH    only builds the caller, which also counts pairs: PATH memory FILE, PATH source FILE

Each FILE is a `.bin.gz`, a binlog file, with a `.jsonl.gz` beside it: a line for each rows event in order, with `pos` (where the event begins),
`time`, `db`, `table` and `lines` (its pairs of rows, in the form of the program `rows`). All of these are compared with what the library gives.
TIMEs of the old format have their sign in `lines`.

Then copies of each file of at most 20,000 bytes are read:

- cut at every byte of its last three events: the changes before the cut event, and then the error `Cut` with what is missing;
- with one bit flipped in each of 1,000 places: with checksums, the changes before that event and then an error at its position, unless the bit is
  the in-use flag of the description, or one of its version by which the server is another; without checksums, no more than that the program
  goes on;
- with two events swapped: the same events are read, unless a rows event comes before its table;
- with an event's size set to 0, 18, 19 and 2^32-1: an error at that event; with 19, by which an event of a file without checksums has no body, the
  changes before it, and no error before it.

The caller is written into a copy of the repository in place of the program `rows`, proved and built by `rt run`; the gate doesn't run it. It
reads each file four times, which have to give the same: from memory and from a source, with rows that are owned and with rows that are lent. It
compares owned rows and errors with lent ones itself, and prints those that are lent.
"""
import gzip
import json
import random
import re
import shutil
import struct
import subprocess
import sys
import tempfile
from pathlib import Path

ROOT = Path(__file__).resolve().parent.parent
SMALL = 20000

CALLER = """//! Reads binlog files. The first word says what is printed of each file that is named: `lines`: all changes, read from memory and then from
//! a source, with rows that are lent, each compared with the same row of a reading that owns its rows; `memory`, `source`: how many pairs there are,
//! read from memory or from a source; `crc`: the checksum of the whole file.
#![tactic(auto)]

ghost use Rattle.std.specs.Prelude.{◌≤◌};
ghost use Rattle.binlog_file.specs.Changes.{most_left};
ghost use Rattle.binlog_file.specs.Workings.Walks.{spot_of};
ghost use Rattle.binlog_file.specs.SourceChanges.{items_left};
ghost use Rattle.binlog_file.specs.Workings.SourceWalks.{reading_in};

use binlog_base::below::{Counted, Source};
use binlog_file::change::Change;
use binlog_file::changes::FileChanges;
use binlog_file::choice::AllRows;
use binlog_file::crc::crc32;
use binlog_file::error::FileError;
use binlog_file::file::BinlogFile;
use binlog_file::lent_changes::{LentChange, LentEvent};
use binlog_file::reader::EventBuffer;
use binlog_file::source_changes::SourceChanges;
use mysql_binlog_rows::rows_event::{LentPair, RowPair};
use row_lines::push_line;
use std::alloc::Global;
use std::env;
use std::fs::{self, File};
use std::io::{self, BufWriter, Write};

fn main(rt: HostRuntime) -> io::Result<()> {
    let mut out = BufWriter::new(rt.alloc(), rt.stdout())?;
    let mut words = env::args(&rt)?;
    let _program = words.next();
    let Some(what) = words.next() else {
        return out.flush();
    };
    for path in words {
        print_file(&rt, &mut out, what.as_str(), path.as_str())?;
    }
    out.flush()
}

fn print_file<O: Write>(rt: &HostRuntime, out: &mut O, what: &str, path: &str) -> io::Result<()> {
    match what {
        "memory" => print_number(out, count_memory(rt.alloc(), &fs::read(rt, path)?)),
        "source" => print_number(out, count_source(rt.alloc(), File::open(rt, path)?)),
        "crc" => print_number(out, u64::from(crc32(&fs::read(rt, path)?))),
        _ => {
            print_memory(rt.alloc(), out, &fs::read(rt, path)?)?;
            print_source(rt.alloc(), out, File::open(rt, path)?, File::open(rt, path)?)
        }
    }
}

fn print_number<O: Write>(out: &mut O, number: u64) -> io::Result<()> {
    writeln!(out, "{number}")
}

fn count_memory(alloc: Global, file: &[u8]) -> u64 {
    let mut count: u64 = 0;
    let Ok(changes) = FileChanges::new(alloc, file, AllRows) else {
        return 0;
    };
    for change in changes {
        let Ok(change) = change else {
            return 0;
        };
        count = count.saturating_add(change.pairs().len() as u64);
    }
    count
}

fn count_source<R: io::Read + Drop>(alloc: Global, file: R) -> u64 {
    let mut count: u64 = 0;
    let Ok(file) = BinlogFile::new(alloc, Counted::new(file)) else {
        return 0;
    };
    for change in SourceChanges::new(alloc, file, AllRows) {
        let Ok(change) = change else {
            return 0;
        };
        count = count.saturating_add(change.pairs().len() as u64);
    }
    count
}

fn print_memory<O: Write>(alloc: Global, out: &mut O, file: &[u8]) -> io::Result<()> {
    let owned = FileChanges::new(alloc, file, AllRows);
    match (owned, FileChanges::new(alloc, file, AllRows)) {
        (Ok(mut owned), Ok(mut changes)) => print_events(alloc, out, &mut owned, &mut changes)?,
        (Err(error), _) => print_error(out, error)?,
        (_, Err(error)) => print_error(out, error)?,
    }
    out.write_all(b"end\\n")
}

fn print_events<'a, O: Write>(
    alloc: Global,
    out: &mut O,
    owned: &mut FileChanges<'a, AllRows>,
    changes: &mut FileChanges<'a, AllRows>,
) -> io::Result<()> {
    let mut pair = LentPair::new(alloc);
    while let Some(event) = changes.next_event() {
        match event {
            Ok(LentEvent::Rows(change)) => print_change(alloc, out, owned, changes, change, &mut pair)?,
            Ok(LentEvent::Other(_)) => {}
            Err(error) => print_same_error(out, owned.next(), error)?,
        }
    }
    print_end(out, owned.next().is_none())
}

fn print_change<'a, O: Write>(
    alloc: Global,
    out: &mut O,
    owned: &mut FileChanges<'a, AllRows>,
    changes: &mut FileChanges<'a, AllRows>,
    mut change: LentChange<'a>,
    pair: &mut LentPair<'a>,
) -> io::Result<()>
    ensures { most_left (spot_of changes.new.walk) ≤ most_left (spot_of changes.old.walk) }
{
    let Some(Ok(same)) = owned.next() else {
        return print_end(out, false);
    };
    print_origin(out, &same, &change)?;
    let mut pairs = same.pairs().iter();
    while let Some(item) = changes.next_pair(&mut change, pair) {
        match item {
            Ok(()) => print_pair(alloc, out, pairs.next(), pair)?,
            Err(error) => print_same_error(out, owned.next(), error)?,
        }
    }
    print_end(out, pairs.next().is_none())
}

fn print_source<R: io::Read + Drop, O: Write>(alloc: Global, out: &mut O, file: R, same: R) -> io::Result<()> {
    let owned = BinlogFile::new(alloc, Counted::new(same));
    match (owned, BinlogFile::new(alloc, Counted::new(file))) {
        (Ok(owned), Ok(file)) => {
            let mut owned = SourceChanges::new(alloc, owned, AllRows);
            let mut changes = SourceChanges::new(alloc, file, AllRows);
            print_source_events(alloc, out, &mut owned, &mut changes)?;
        }
        (Err(error), _) => print_error(out, error)?,
        (_, Err(error)) => print_error(out, error)?,
    }
    out.write_all(b"end\\n")
}

fn print_source_events<S: Source + Drop, O: Write>(
    alloc: Global,
    out: &mut O,
    owned: &mut SourceChanges<S, AllRows>,
    changes: &mut SourceChanges<S, AllRows>,
) -> io::Result<()> {
    let mut buffer = EventBuffer::new(alloc);
    while let Some(event) = changes.next_event_of(&mut buffer, &[]) {
        match event {
            Ok(LentEvent::Rows(change)) => print_source_change(alloc, out, owned, changes, change)?,
            Ok(LentEvent::Other(_)) => {}
            Err(error) => print_same_error(out, owned.next(), error)?,
        }
    }
    print_end(out, owned.next().is_none())
}

fn print_source_change<'b, S: Source + Drop, O: Write>(
    alloc: Global,
    out: &mut O,
    owned: &mut SourceChanges<S, AllRows>,
    changes: &mut SourceChanges<S, AllRows>,
    mut change: LentChange<'b>,
) -> io::Result<()>
    ensures { items_left (reading_in changes.new.walk) changes.new.walk.pending
        ≤ items_left (reading_in changes.old.walk) changes.old.walk.pending }
{
    let Some(Ok(same)) = owned.next() else {
        return print_end(out, false);
    };
    print_origin(out, &same, &change)?;
    let mut pairs = same.pairs().iter();
    let mut pair = LentPair::new(alloc);
    while let Some(item) = changes.next_pair(&mut change, &mut pair) {
        match item {
            Ok(()) => print_pair(alloc, out, pairs.next(), &pair)?,
            Err(error) => print_same_error(out, owned.next(), error)?,
        }
    }
    print_end(out, pairs.next().is_none())
}

// Prints `differs` unless the owned reading gave the same as the lent one.
fn print_end<O: Write>(out: &mut O, is_same: bool) -> io::Result<()> {
    if is_same { Ok(()) } else { out.write_all(b"differs\\n") }
}

fn print_same_error<O: Write>(
    out: &mut O,
    owned: Option<Result<Change<'_>, FileError>>,
    error: FileError,
) -> io::Result<()> {
    print_error(out, error)?;
    print_end(out, matches!(owned, Some(Err(same)) if same == error))
}

fn print_error<O: Write>(out: &mut O, error: FileError) -> io::Result<()> {
    let (position, error) = (error.position, error.error);
    writeln!(out, "error {position} {error:?}")
}

fn print_origin<O: Write>(out: &mut O, owned: &Change<'_>, change: &LentChange<'_>) -> io::Result<()> {
    let origin = change.origin();
    let (position, time, server) = (origin.position, origin.timestamp, origin.server_id);
    write!(out, "change {position} {time} {server} ")?;
    out.write_all(change.table().database_name_raw())?;
    out.write_all(b".")?;
    out.write_all(change.table().table_name_raw())?;
    out.write_all(b"\\n")?;
    print_end(out, owned.origin() == origin)
}

fn print_pair<O: Write>(alloc: Global, out: &mut O, owned: Option<&RowPair>, pair: &LentPair<'_>) -> io::Result<()> {
    let mut line = Vec::new(alloc);
    push_line(alloc, &mut line, pair)?;
    out.write_all(&line)?;
    print_end(out, owned == Some(&pair.to_owned(alloc)?))
}
"""

# What is kept and what gets smaller in the caller's loops over lent changes, by function.
MEMORY = """use Rattle.std.proofs.Common.{◌≤◌, length}
use Rattle.binlog_file.specs.Changes.{most_left}
use Rattle.binlog_file.specs.Workings.Walks.{spot_of}
"""
SOURCE = """use Rattle.std.proofs.Common.{◌≤◌, length}
use Rattle.binlog_file.specs.SourceChanges.{items_left}
use Rattle.binlog_file.specs.Workings.SourceWalks.{reading_in}
"""
EVENTS = """
abbrev pub decreases-loop-event : goal.decreases-loop-event
decreases-loop-event g l = """
PAIRS = """
abbrev pub decreases-loop-item : goal.decreases-loop-item
decreases-loop-item g l = length l.change.left

abbrev pub invariant-loop-item : goal.invariant-loop-item
invariant-loop-item g l = """
LEFT = "most_left (spot_of l.{}changes.walk)"
ITEMS = "items_left (reading_in l.{0}changes.walk) l.{0}changes.walk.pending"
PROOFS = {
    "print_events": MEMORY + "GOAL" + EVENTS + LEFT.format(""),
    "print_change": MEMORY + "GOAL" + PAIRS + LEFT.format("") + " ≤ " + LEFT.format("fn."),
    "print_source_events": SOURCE + "GOAL" + EVENTS + ITEMS.format(""),
    "print_source_change": SOURCE + "GOAL" + PAIRS + ITEMS.format("") + " ≤ " + ITEMS.format("fn."),
}

# What of the crate `rows` the caller doesn't need.
NOT_NEEDED = ["args", "stdin", "stdout", "status", "src/run.rt", "src/words.rt", "src/tests.rt", "src/tests", "specs", "proofs"]


def events(data):
    """The position, the type and the size of each event."""
    at = 4
    while at < len(data):
        event_type, size = data[at + 4], struct.unpack_from("<I", data, at + 9)[0]
        yield at, event_type, size
        at += size


def build(folder):
    """The caller, built in a copy of the repository in place of the program `rows`."""
    copy = Path(folder) / "workspace"
    shutil.copytree(ROOT, copy, ignore=shutil.ignore_patterns(".git", "out", "must-fail"))
    crate = copy / "crates" / "rows"
    crates = copy / "crates.txt"
    crates.write_text(crates.read_text().replace("\nrows: ", "\nrows: binlog_file "))
    for name in NOT_NEEDED:
        path = crate / name
        shutil.rmtree(path) if path.is_dir() else path.unlink(missing_ok=True)
    (crate / "src" / "main.rt").write_text(CALLER)
    for function, text in PROOFS.items():
        folder_of = crate / "proofs" / function
        folder_of.mkdir(parents=True)
        goal = f"use Rattle.rows.proofs.{function}.Given as goal\n"
        (folder_of / "Invariants.antt").write_text(text.replace("GOAL", goal) + "\n")
    answer = subprocess.run(["rt", "run"], cwd=crate, capture_output=True, text=True)
    program = crate / "out" / "rows"
    if not program.exists():
        sys.exit(answer.stdout[-3000:] + answer.stderr[-3000:])
    shutil.copy(program, Path(folder) / "program")
    shutil.rmtree(copy)
    return Path(folder) / "program"


def signed(line):
    """The line with the sign of TIMEs of the old format: they are read without it, as numbers that no other TIME has."""

    def change(found):
        days, hours, minutes, seconds = map(int, found.groups())
        number = (24 * days + hours) * 10000 + minutes * 100 + seconds
        if number < 2**23:
            return found.group()
        number = 2**24 - number
        hours = number // 10000
        return f"time(true,{hours // 24},{hours % 24},{number // 100 % 100},{number % 100},0)"

    return re.sub(r"time\(false,(\d+),(\d+),(\d+),(\d+),0\)", change, line)


def run(program, files):
    """What the library gives for each file: a list of changes (position, time, server, table, lines), and the error or None. Each file is read
    from memory and from a source, which have to give the same."""
    given = []
    with tempfile.TemporaryDirectory() as folder:
        for start in range(0, len(files), 200):
            names = []
            for number, file in enumerate(files[start : start + 200]):
                names.append(str(Path(folder) / str(number)))
                Path(names[-1]).write_bytes(file)
            answer = subprocess.run([program, "lines", *names], capture_output=True)
            if answer.returncode != 0:
                sys.exit(f"status {answer.returncode}: {answer.stderr[-2000:]}")
            given += parse(answer.stdout.decode(errors="surrogateescape"))
    if len(given) != 2 * len(files):
        sys.exit(f"{len(given)} of {2 * len(files)} readings")
    for number, (memory, source) in enumerate(zip(given[::2], given[1::2])):
        if memory != source:
            sys.exit(f"file {number} ends with {memory[1]} from memory and with {source[1]} from a source, or its rows differ")
    return given[::2]


def parse(text):
    given, changes, error = [], [], None
    # (a damaged name may have any character at which `splitlines` ends a line)
    for line in text.removesuffix("\n").split("\n"):
        words = line.split(" ")
        if line == "end":
            given.append((changes, error))
            changes, error = [], None
        elif words[0] == "change":
            changes.append((int(words[1]), int(words[2]), int(words[3]), words[4], []))
        elif words[0] == "error":
            error = (int(words[1]), line.split(" ", 2)[2])
        elif line == "differs":
            sys.exit(f"what is owned and what is lent differ in a file, after {changes[-1:]} and the error {error}")
        else:
            changes[-1][-1].append(signed(line))
    return given


def compare(name, data, expected, given):
    changes, error = given
    wrong = 0
    for line, (at, time, server, table, lines) in zip(expected, changes):
        origin = struct.unpack_from("<I", data, at)[0], struct.unpack_from("<I", data, at + 5)[0]
        same = (at, time, table) == (line["pos"], line["time"], line["db"] + "." + line["table"]) and (time, server) == origin
        if not same or lines != line["lines"]:
            wrong += 1
            if wrong < 4:
                print(f"{name}: at {at} {table}: {lines[:1]} where {line['lines'][:1]} is expected")
    print(f"{name}: {len(changes)} of {len(expected)} rows events, {wrong} otherwise than expected, error {error}")
    return wrong == 0 and error is None and len(changes) == len(expected)


def damaged(data):
    """Damaged copies: what was done, the copy, and the position of the first event that is damaged."""
    places = list(events(data))
    for at, _, size in places[-3:]:
        for cut in range(at + 1, at + size):
            yield "cut", data[:cut], at
    source = random.Random(1)
    for _ in range(1000):
        place = source.randrange(4, len(data))
        bit = source.randrange(8)
        copy = bytearray(data)
        copy[place] ^= 1 << bit
        at = max(at for at, _, _ in places if at <= place)
        first = at == 4
        if not (first and place == at + 17 and bit == 0) and not (first and at + 21 <= place < at + 71):
            yield "bit", bytes(copy), at
    for (at, _, size), (_, _, next_size) in zip(places[1:], places[2:]):
        copy = data[:at] + data[at + size : at + size + next_size] + data[at : at + size] + data[at + size + next_size :]
        yield "swap", copy, at
    for at, _, _ in places:
        for size in (0, 18, 19, 2**32 - 1):
            copy = bytearray(data)
            struct.pack_into("<I", copy, at + 9, size)
            yield "no body" if size == 19 else "size", bytes(copy), at


def check_damaged(program, name, data, whole, has_checksums):
    copies = list(damaged(data))
    wrong = 0
    for (what, copy, at), (changes, error) in zip(copies, run(program, [copy for _, copy, _ in copies])):
        before = [change for change in whole[0] if change[0] < at]
        fine = True
        if what == "cut":
            size = struct.unpack_from("<I", data, at + 9)[0]
            missing = at + (19 if len(copy) < at + 19 else size) - len(copy)
            fine = error == (at, f"Cut({missing})") and changes == before
        elif what == "size" or what in ("bit", "no body") and has_checksums:
            fine = error is not None and error[0] == at and changes == before
        elif what == "no body":
            fine = changes[: len(before)] == before and (error is None or error[0] >= at)
        elif what == "swap":
            fine = error is None or "UnknownTable" in error[1] or error[0] >= at
        if not fine:
            wrong += 1
            if wrong < 6:
                print(f"{name}: {what} at {at}: {len(changes)} changes, {len(before)} expected, error {error}")
    print(f"{name}: {len(copies)} damaged copies, {wrong} otherwise than expected")
    return wrong == 0


def main():
    if len(sys.argv) < 2:
        sys.exit(__doc__)
    if sys.argv[1] == "--program":
        with tempfile.TemporaryDirectory() as folder:
            shutil.copy(build(folder), sys.argv[2])
        return
    paths = [Path(path) for path in sys.argv[1:]]
    files = [gzip.open(path).read() for path in paths]
    fine = True
    with tempfile.TemporaryDirectory() as folder:
        program = build(folder)
        for path, data, given in zip(paths, files, run(program, files)):
            name = path.name.removesuffix(".bin.gz")
            expected = [json.loads(line) for line in gzip.open(path.with_name(name + ".jsonl.gz"), "rt")]
            fine &= compare(name, data, expected, given)
            if len(data) <= SMALL:
                at, _, size = next(events(data))
                fine &= check_damaged(program, name, data, given, data[at + size - 5] == 1)
    sys.exit(0 if fine else 1)


if __name__ == "__main__":
    main()
