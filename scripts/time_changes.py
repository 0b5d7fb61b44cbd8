#!/usr/bin/env python3
"""Times the program `changes` beside `mariadb-binlog`, on the two files of docs/BENCHMARKS.md.

usage: scripts/time_changes.py PROGRAM [--count]

PROGRAM is the built program (crates/changes/out/changes). scripts/make_file.py makes the files, of 100,000 rows each: in events of 8 KB, and as
one-row statements. `PROGRAM FILE`, `PROGRAM --text FILE` and `mariadb-binlog -v --base64-output=DECODE-ROWS FILE` run on both by turns, five times,
their output to /dev/null. Of each it prints the seconds of the processor, for the program and the system, the middle of the five; and the greatest of
the peaks of memory, in KiB, by getrusage.

With --count it prints the instructions a row too, by valgrind's callgrind, of runs on files of 20,000 rows. That takes a minute, and half of one
without.

Debian's mariadb-client and `cc` have to be installed, and for --count valgrind. The status is 0 if all runs ended well and `changes` wrote a line for
each row, 1 if not, and 2 if a program isn't there.
"""
import os
import re
import shutil
import subprocess
import sys
import tempfile
from pathlib import Path

ROWS = 100000
COUNTED_ROWS = 20000
TURNS = 5
FILES = {"events of 8 KB": [], "one-row statements": ["single"]}
BINLOG = "mariadb-binlog"

# A process has at least the peak of the one that started it, and Python takes more than `changes`. So a small program starts them, and says on its
# standard error how many microseconds and KiB were taken.
STARTER = r"""
#define _GNU_SOURCE
#include <fcntl.h>
#include <stdio.h>
#include <sys/resource.h>
#include <sys/wait.h>
#include <unistd.h>

int main(int count, char **words) {
    pid_t child = fork();
    if (child == 0) {
        dup2(open("/dev/null", O_WRONLY), 1);
        execvp(words[1], words + 1);
        _exit(127);
    }
    int status = 1;
    struct rusage used;
    wait4(child, &status, 0, &used);
    long long micros = (used.ru_utime.tv_sec + used.ru_stime.tv_sec) * 1000000LL + used.ru_utime.tv_usec + used.ru_stime.tv_usec;
    fprintf(stderr, "%lld %ld\n", micros, used.ru_maxrss);
    return status != 0;
}
"""


def run(words, out=subprocess.DEVNULL):
    """Runs a command, which has to end well."""
    done = subprocess.run(words, stdout=out, stderr=subprocess.PIPE)
    if done.returncode:
        sys.exit(f"{' '.join(map(str, words))}: status {done.returncode}, {done.stderr.decode()}")
    return done


def make_files(folder, rows):
    """Makes the files of so many rows, and returns their paths by what they are."""
    make, paths = Path(__file__).with_name("make_file.py"), {}
    for what, words in FILES.items():
        paths[what] = folder / f"{rows}_{words[0] if words else 'rows'}"
        run([sys.executable, make, str(rows), paths[what], *words])
    return paths


def measure(commands, starter, paths):
    """The runs of each command on each file: their seconds and KiB."""
    runs = {(what, name): [] for what in paths for name in commands}
    for _ in range(TURNS):
        for what, name in runs:
            micros, memory = run([starter, *commands[name], paths[what]]).stderr.splitlines()[-1].split()
            runs[what, name].append((int(micros) / 1e6, int(memory)))
    return runs


def instructions(command, path):
    """The instructions a row of a command on a file of COUNTED_ROWS."""
    done = run(["valgrind", "--tool=callgrind", "--callgrind-out-file=/dev/null", *command, path])
    return int(re.search(rb"Collected : (\d+)", done.stderr)[1]) / COUNTED_ROWS


def words():
    """The program, and whether instructions are counted."""
    said = [word for word in sys.argv[1:] if word != "--count"]
    if len(said) != 1 or said[0].startswith("-"):
        print(__doc__, file=sys.stderr)
        sys.exit(2)
    count = "--count" in sys.argv
    for tool in [said[0], BINLOG, "cc"] + ["valgrind"] * count:
        if not shutil.which(tool):
            print(f"{tool} is not there", file=sys.stderr)
            sys.exit(2)
    return os.path.abspath(shutil.which(said[0])), count


def main():
    """Prints a line for each file and command, and how the times of `changes` are to those of `mariadb-binlog`."""
    program, count = words()
    commands = {"changes": [program], "changes --text": [program, "--text"], BINLOG: [BINLOG, "-v", "--base64-output=DECODE-ROWS"]}
    with tempfile.TemporaryDirectory() as folder:
        folder = Path(folder)
        starter = folder / "starter"
        subprocess.run(["cc", "-O2", "-x", "c", "-o", starter, "-"], input=STARTER, text=True, check=True)
        paths = make_files(folder, ROWS)
        for path in paths.values():
            lines = run([program, path], subprocess.PIPE).stdout.count(b"\n")
            if lines != ROWS:
                sys.exit(f"{lines} lines of {ROWS} rows")
        runs = measure(commands, starter, paths)
        counted = make_files(folder, COUNTED_ROWS) if count else {}
        middle = {}
        for (what, name), taken in runs.items():
            middle[what, name] = sorted(seconds for seconds, _ in taken)[TURNS // 2]
            line = f"{what}, {name}: {middle[what, name]:.3f} seconds, {max(memory for _, memory in taken):,} KiB"
            if count:
                line += f", {instructions(commands[name], counted[what]):,.0f} instructions a row"
            print(line, flush=True)
    for what in paths:
        print(f"{what}: changes took {middle[what, 'changes'] / middle[what, BINLOG]:.2f} of the time of {BINLOG}")


if __name__ == "__main__":
    main()
