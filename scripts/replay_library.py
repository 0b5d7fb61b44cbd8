#!/usr/bin/env python3
"""Runs the library over a file of real events, read as a server's, and compares the lines.

usage: scripts/replay_library.py mysql|mariadb FILE

FILE is in the form of corpus/mariadb.jsonl. The program has no word for the server, so a `main`
that reads the events with the server named is put in the place of its own, in a copy that is thrown
away, and run by `rt try` (nothing is proved there). An event that differs is a line `differs: ID`,
and the last line counts. The status is 1 where an event differs.
"""
import json
import pathlib
import shutil
import subprocess
import sys
import tempfile

MAIN = '''//! Prints the pairs of rows of each rows event that is a line of the input.
#![tactic(auto)]

pub mod run;
pub mod words;

use binlog_base::below::{ParseBuf, Server};
use binlog_base::fault::Fault;
use binlog_table::table_map::TableMapEvent;
use mysql_binlog_rows::rows_event::{LentPair, RowsEvent};
use row_lines::push_line;
use std::alloc::Global;
use std::io;
use std::io::{BufWriter, Read, Write};
use std::process::ExitCode;

const SERVER: Server = Server::@SERVER@;

fn main(rt: HostRuntime) -> ExitCode {
    match print_all(&rt) {
        Ok(()) => ExitCode::from(0),
        Err(_) => ExitCode::from(1),
    }
}

// Adds the lines of the pairs of two events, up to the first fault.
fn add_lines(alloc: Global, words: &words::Words, lines: &mut Vec<u8>) -> Result<(), Fault> {
    let table: TableMapEvent<'_> = ParseBuf(&words.table).parse(words.table_post_header_len)?;
    let table = table.with_server(SERVER);
    let event: RowsEvent<'_> = ParseBuf(&words.rows).parse(words.ctx)?;
    let mut rows = event.rows(alloc, &table);
    let mut pair = LentPair::new(alloc);
    while let Some(read) = rows.next_lent(&mut pair) {
        read?;
        push_line(alloc, lines, &pair)?;
    }
    Ok(())
}

fn print_all(rt: &HostRuntime) -> io::Result<()> {
    let mut out = BufWriter::new(rt.alloc(), rt.stdout())?;
    let mut text = String::new(rt.alloc());
    rt.stdin().read_to_string(&mut text)?;
    for line in text.lines() {
        let mut list = Vec::new(rt.alloc());
        for word in line.split_whitespace() {
            list.push(String::from_str(rt.alloc(), word)?)?;
        }
        if let Ok(words) = words::Words::read(rt.alloc(), &list) {
            let mut lines = Vec::new(rt.alloc());
            let read = add_lines(rt.alloc(), &words, &mut lines);
            out.write_all(&lines)?;
            if let Err(fault) = read {
                writeln!(out, "fault {fault:?}")?;
            }
        }
        writeln!(out, "==")?;
    }
    out.flush()
}
'''
SERVERS = {'mysql': 'MySql', 'mariadb': 'MariaDb'}
WORDS = ('mlen', 'type', 'plen', 'wlen', 'map_hex', 'rows_hex')


def main():
    if len(sys.argv) != 3 or sys.argv[1] not in SERVERS:
        sys.exit('usage: scripts/replay_library.py mysql|mariadb FILE')
    top = pathlib.Path(__file__).resolve().parent.parent
    events = [json.loads(line) for line in open(sys.argv[2], encoding='utf-8') if line.strip()]
    given = ''.join(' '.join(str(event[key]) for key in WORDS) + '\n' for event in events)
    with tempfile.TemporaryDirectory() as copy:
        for name in ('crates.txt', 'HANDLES'):
            shutil.copy(top / name, copy)
        shutil.copytree(top / 'crates', copy + '/crates', ignore=shutil.ignore_patterns('out', 'must-fail'))
        rows = pathlib.Path(copy, 'crates', 'rows')
        for name in ('args', 'stdout', 'status', 'src/tests.rt'):
            (rows / name).unlink(missing_ok=True)
        shutil.rmtree(rows / 'src' / 'tests')
        (rows / 'src' / 'main.rt').write_text(MAIN.replace('@SERVER@', SERVERS[sys.argv[1]]))
        run = subprocess.run(['rt', 'try'], cwd=rows, input=given.encode(), capture_output=True)
    printed = run.stdout.decode('utf-8', 'replace').split('==\n')[:-1]
    if len(printed) != len(events):
        sys.stderr.write(run.stderr.decode('utf-8', 'replace')[-2000:])
        sys.exit(f'{len(printed)} answers to {len(events)} events')
    differ = [event['id'] for event, text in zip(events, printed) if text.splitlines() != event['expected']]
    for name in differ:
        print(f'differs: {name}')
    print(f'{len(events) - len(differ)} agree, {len(differ)} differ')
    sys.exit(1 if differ else 0)


main()
