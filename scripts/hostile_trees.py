#!/usr/bin/env python3
"""Makes trees of COUNT made-up documents of binary JSON, under a limit of memory, and checks what must hold of each.

usage: scripts/hostile_trees.py SEED COUNT [FIRST]

Document N of a seed is always the same, whatever COUNT is; FIRST is the first N, 0 if left out. With COUNT 1 the document is printed too, as
hexadecimal digits. Most documents are containers whose strings, keys or values share their bytes, so that the tree is far larger than the
document; one in four is damaged.

A program of one call, `jsonb::Value::parse`, is written into a copy of the repository, proved and built there, which takes some minutes where
nothing is kept. Of every document it checks: the program ends with a tree, a fault, or `Memory`, and no signal ended it; it took at most two
seconds; and an intact document whose tree takes less than an eighth of the limit gives the tree. The script prints each document that breaks
one of these, and then how many ended in each way; its own status is 1 where one broke.
"""
import collections
import random
import resource
import shutil
import subprocess
import sys
import tempfile
import time
from pathlib import Path

import hostile

ROOT = Path(__file__).resolve().parent.parent
MOST_SECONDS = 2
# What the program may have of memory, all in all.
LIMIT = 128 * 1024 * 1024
MOST_BYTES = 60_000
ENDS = {0: "a tree", 1: "a fault", 3: "Memory"}

CALLER = """//! Makes a tree of a document of binary JSON, given as hexadecimal digits. The status tells what
//! came of it: 0 a tree, 1 a fault, 3 no memory.
#![tactic(auto)]

use binlog_base::below::ParseBuf;
use binlog_base::fault::Fault;
use binlog_values::jsonb::Value;
use std::alloc::Global;
use std::env;
use std::process::ExitCode;

fn status_of(alloc: Global, word: &str) -> u8 {
    let Ok(bytes) = hex::decode(alloc, word) else {
        return 3;
    };
    let value: Result<Value<'_>, Fault> = ParseBuf(&bytes).parse(());
    let Ok(value) = value else {
        return 1;
    };
    match value.parse(alloc) {
        Ok(_) => 0,
        Err(Fault::Memory) => 3,
        Err(_) => 1,
    }
}

fn main(rt: HostRuntime) -> ExitCode {
    let Ok(mut words) = env::args(&rt) else {
        return ExitCode::from(3);
    };
    match words.nth(1) {
        Some(word) => ExitCode::from(status_of(rt.alloc(), &word)),
        None => ExitCode::from(1),
    }
}
"""


def build(folder):
    """Builds the program in a copy of the repository, and returns its path."""
    copy = Path(folder) / "workspace"
    shutil.copytree(ROOT, copy, ignore=shutil.ignore_patterns(".git", "out"))
    with (copy / "crates.txt").open("a") as crates:
        crates.write("tree_of: binlog_base binlog_values hex\n")
    crate = copy / "crates" / "tree_of"
    (crate / "src").mkdir(parents=True)
    (crate / "src" / "main.rt").write_text(CALLER)
    # Without an argument the status is 1.
    (crate / "status").write_text("1\n")
    subprocess.run(["rt", "run"], cwd=crate, check=False, stdout=subprocess.DEVNULL)
    return crate / "out" / "tree_of"


def shared_strings(r):
    """An array or an object of one string, or one string of the whole rest, again and again."""
    count = r.randint(1, 8000)
    size = r.choice([1, 20, 127, 128, 5000, 16000])
    string = (12, hostile.var_text(r.choice([b"a", b"\xc3\xa9"]) * (size // 2 + 1)))
    return same_place([string] * count, r.random() < 0.7)


def same_place(values, is_array):
    """A container whose equal values have the same bytes, and whose keys are all at the same place, each one byte longer than the one before where
    there are at most 300."""
    large = len(values) > 4000
    size = 4 if large else 2
    keys = [] if is_array else [min(place, 300) + 1 for place in range(len(values))]
    head = 2 * size + len(keys) * (size + 2) + len(values) * (1 + size)
    key_bytes = b"k" * max(keys, default=0)
    places, tail = {}, key_bytes
    for _, value in values:
        if value not in places:
            places[value] = head + len(tail)
            tail += value
    entries = b"".join(hostile.little(head, size) + hostile.little(length, 2) for length in keys)
    entries += b"".join(bytes([kind]) + hostile.little(places[value], size) for kind, value in values)
    return (2 if is_array else 0) + large, hostile.little(len(values), size) + hostile.little(head + len(tail), size) + entries + tail


def shared_containers(r):
    """Containers in each other, each with its one child several times."""
    kind, value = 12, hostile.var_text(b"x" * r.randint(0, 100))
    for _ in range(r.randint(1, 12)):
        kind, value = same_place([(kind, value)] * r.randint(1, 6), r.random() < 0.5)
        if len(value) > MOST_BYTES:
            break
    return kind, value


def tree_bytes(kind, value, limit):
    """About how much memory the strings and values of a tree take, counted up to a limit; None where the document isn't plain."""
    if kind == 12:
        return 100 + len(value)
    if kind > 3:
        return 100
    size = 4 if kind % 2 else 2
    count = int.from_bytes(value[:size], "little")
    at, total = 2 * size, 100
    if kind < 2:
        total += sum(100 + int.from_bytes(value[at + n * (size + 2) + size : at + (n + 1) * (size + 2)], "little") for n in range(count))
        at += count * (size + 2)
    for n in range(count):
        entry = value[at + n * (1 + size) : at + (n + 1) * (1 + size)]
        child = entry[0]
        place = int.from_bytes(entry[1:], "little")
        if child in (4, 5, 6) or (size == 4 and child in (7, 8)):
            total += 100
        elif child == 12:
            total += 100 + string_len(value, place)
        elif child < 4:
            wide = 4 if child % 2 else 2
            total += tree_bytes(child, value[place : place + int.from_bytes(value[place + wide : place + 2 * wide], "little")], limit - total)
        else:
            total += 100
        if total > limit:
            return total
    return total


def string_len(value, place):
    """The length before a string, in groups of seven bits."""
    length, shift = 0, 0
    while True:
        byte = value[place]
        length |= byte % 128 << shift
        if byte < 128:
            return length
        place, shift = place + 1, shift + 7


def make(seed, number):
    """A document, and whether it must give a tree."""
    r = random.Random(f"{seed} {number}")
    maker = r.choice([shared_strings, shared_strings, shared_containers, shared_containers, lambda r: hostile.json_value(r, 3)])
    kind, value = maker(r)
    document = bytes([kind]) + value
    if len(document) > MOST_BYTES:
        return document[:MOST_BYTES], False
    if r.randrange(4) == 0:
        return hostile.damage(r, document), False
    is_plain = maker in (shared_strings, shared_containers) and depth_and_count(kind, value)
    return document, is_plain and tree_bytes(kind, value, LIMIT) < LIMIT // 8


def depth_and_count(kind, value):
    """Whether there is at most one value for three bytes of the root, a shared one counted each time."""
    def count(kind, value):
        if kind > 3:
            return 0
        size = 4 if kind % 2 else 2
        number = int.from_bytes(value[:size], "little")
        at = 2 * size + (number * (size + 2) if kind < 2 else 0)
        if number == 0:
            return 0
        child, place = value[at], int.from_bytes(value[at + 1 : at + 1 + size], "little")
        if child > 3:
            return number
        wide = 4 if child % 2 else 2
        return number * (1 + count(child, value[place : place + int.from_bytes(value[place + wide : place + 2 * wide], "little")]))

    return kind > 3 or count(kind, value) <= len(value) // 3


def run(program, document):
    """The status of the program, None where it didn't end, and the seconds that it took."""
    start = time.monotonic()
    limit = lambda: resource.setrlimit(resource.RLIMIT_AS, (LIMIT, LIMIT))
    try:
        ended = subprocess.run([program, document.hex()], stdout=subprocess.DEVNULL, stderr=subprocess.DEVNULL, timeout=5 * MOST_SECONDS, preexec_fn=limit)
    except subprocess.TimeoutExpired:
        return None, time.monotonic() - start
    return ended.returncode, time.monotonic() - start


def wrong(status, seconds, is_tree):
    """What is wrong with a run, if anything."""
    if status not in ENDS:
        return f"status {status}"
    if seconds > MOST_SECONDS:
        return f"took {seconds:.1f} seconds"
    if is_tree and status != 0:
        return f"{ENDS[status]} of an intact document"
    return None


def main():
    if len(sys.argv) not in (3, 4):
        sys.exit(__doc__)
    seed, count, first = int(sys.argv[1]), int(sys.argv[2]), int(sys.argv[3]) if sys.argv[3:] else 0
    ended, broken, slowest = collections.Counter(), 0, 0.0
    with tempfile.TemporaryDirectory() as folder:
        program = build(folder)
        if not program.exists():
            sys.exit("the program wasn't built")
        for number in range(first, first + count):
            document, is_tree = make(seed, number)
            if count == 1:
                print(document.hex())
            status, seconds = run(program, document)
            slowest = max(slowest, seconds)
            ended[ENDS.get(status, f"status {status}")] += 1
            fault = wrong(status, seconds, is_tree)
            if fault is not None:
                broken += 1
                print(f"document {number}: {fault}")
    print(f"{count} documents of seed {seed}:", ", ".join(f"{number} with {end}" for end, number in sorted(ended.items())))
    print(f"at most {slowest:.2f} seconds under a limit of {LIMIT // 1024 // 1024} MiB; {broken} broken")
    sys.exit(1 if broken else 0)


if __name__ == "__main__":
    main()
