#!/usr/bin/env python3
"""Compares what `changes` prints with what a MariaDB server shows, as a user would, and what it tells with what the server logged as text.

usage: scripts/server.py PROGRAM

PROGRAM is the built program (crates/changes/out/changes). Debian's mariadb-server has to be installed. A server is started on a socket in a
temporary folder, once for each row image (FULL and MINIMAL) and each metadata (FULL and MINIMAL). It gets a table with a column of each type;
rows are inserted, updated and deleted, a transaction is rolled back, and the binary log goes on in a new file in between. The lines that
`changes` prints of the server's files are replayed, and each cell is compared with what SELECT shows of it: texts and bytes by HEX. The server
doesn't log a virtual column where the row image is MINIMAL: it must be in no line then.

A fifth server logs in the format MIXED. Statements of many kinds run on it, each of which changes rows and is logged as text (that the rows change and
that no rows events come is looked at too), and then others, which change none or are logged with their rows. Each has a log file of its own, and what
`changes` tells of it must be just what is wanted.

A sixth one encrypts its log. Its file must be refused, and what it hands out of it to `mariadb-binlog -R --raw` must be read.

Prints a line for each of the first four servers and how many cells were compared and differ; then how many statements of each sort there were and how many
were told otherwise; and last how the encrypted log was read. The status is 1 if a cell differs, a row is missing, or one of the rest isn't as it must be.
"""
import base64
import json
import re
import shutil
import struct
import subprocess
import sys
import tempfile
import time
from pathlib import Path

# Of each column: its name, its definition, how it is compared, and its values in the rows.
COLUMNS = [
    ("id", "INT PRIMARY KEY", "number", ["1", "2", "3", "4", "5"]),
    ("tiny", "TINYINT", "number", ["-128", "127", "NULL", "0", "5"]),
    ("tiny_u", "TINYINT UNSIGNED", "number", ["255", "0", "NULL", "1", "128"]),
    ("small", "SMALLINT", "number", ["-32768", "32767", "NULL", "1", "2"]),
    ("medium_u", "MEDIUMINT UNSIGNED", "number", ["16777215", "0", "NULL", "1", "2"]),
    ("big", "BIGINT", "number", ["-9223372036854775808", "1", "NULL", "0", "7"]),
    ("big_u", "BIGINT UNSIGNED", "number", ["18446744073709551615", "1", "NULL", "0", "7"]),
    ("bits", "BIT(12)", "number", ["b'101010101010'", "0", "NULL", "1", "4095"]),
    ("years", "YEAR", "number", ["1901", "2155", "NULL", "0", "2026"]),
    ("single", "FLOAT", "float", ["0.1", "-3.4e38", "NULL", "0", "1.5"]),
    ("twice", "DOUBLE", "double", ["0.1", "-1.7e308", "NULL", "0", "1.5"]),
    ("price", "DECIMAL(20,5)", "plain", ["123456789012345.00001", "-0.5", "NULL", "0", "1.5"]),
    ("day", "DATE", "plain", ["'2026-11-27'", "'1000-01-01'", "NULL", "'9999-12-31'", "'0000-00-00'"]),
    ("moment", "DATETIME(3)", "plain", ["'2026-11-27 12:30:00.123'", "'1000-01-01'", "NULL", "'9999-12-31 23:59:59.999'", "'2026-01-02'"]),
    ("instant", "TIMESTAMP(2) NULL", "instant", ["'2026-11-27 12:30:00.25'", "'1970-01-01 00:00:01'", "NULL", "'2038-01-19 03:14:07'", "0"]),
    ("moment_0", "DATETIME", "plain", ["'2026-11-27 12:30:59'", "'1000-01-01'", "NULL", "'9999-12-31 23:59:59'", "'0000-00-00'"]),
    ("instant_0", "TIMESTAMP NULL", "instant", ["'2026-11-27 12:30:59'", "'1970-01-01 00:00:01'", "NULL", "'2038-01-19 03:14:07'", "0"]),
    ("span_0", "TIME", "plain", ["'-838:59:59'", "'00:00:01'", "NULL", "'838:59:59'", "'-00:00:01'"]),
    ("span", "TIME(6)", "plain", ["'-838:59:59'", "'00:00:00.000001'", "NULL", "'838:59:59'", "'-00:00:01.5'"]),
    ("kind", "ENUM('a','b,c','\u00fc')", "enum", ["'a'", "'b,c'", "NULL", "'\u00fc'", "''"]),
    ("kinds", "SET('x','y','\u00e4')", "enum", ["'x,\u00e4'", "''", "NULL", "'x,y,\u00e4'", "'y'"]),
    ("fixed", "CHAR(10) CHARACTER SET utf8mb4", "text", ["'ab'", "'\U0001f600'", "NULL", "''", "'a\"\\\\b'"]),
    ("three", "VARCHAR(50) CHARACTER SET utf8mb3", "text", ["'\u0416\u0443\u043a'", "'tab\\tline\\n'", "NULL", "''", "'x'"]),
    ("latin", "VARCHAR(300) CHARACTER SET latin1", "text", ["'\u20ac\u00fc'", "'x'", "NULL", "''", "REPEAT('\u00e9', 299)"]),
    ("plain", "VARCHAR(20) CHARACTER SET ascii", "text", ["'ab'", "'x'", "NULL", "''", "'~'"]),
    ("other", "VARCHAR(20) CHARACTER SET cp1251", "bytes", ["'\u0416'", "'x'", "NULL", "''", "'y'"]),
    ("raw", "VARBINARY(20)", "bytes", ["x'00ff'", "'x'", "NULL", "''", "x'80'"]),
    ("raw_5", "BINARY(5)", "bytes", ["x'00ff'", "'x'", "NULL", "''", "x'8000000001'"]),
    ("key_16", "UUID", "bytes_16", ["'00112233-4455-6677-8899-aabbccddee00'", "'00000000-0000-0000-0000-000000000000'", "NULL", "UUID()", "UUID()"]),
    ("address", "INET4", "bytes_4", ["'1.2.3.0'", "'0.0.0.0'", "NULL", "'10.0.0.0'", "'255.255.255.255'"]),
    ("address_6", "INET6", "bytes_16", ["'2001:db8::'", "'::'", "NULL", "'::1'", "'fe80::1:0'"]),
    ("words", "TEXT CHARACTER SET utf8mb4", "text", ["REPEAT('\u0436', 1000)", "'x'", "NULL", "''", "'z'"]),
    ("blob_1", "BLOB", "bytes", ["x'00ff'", "REPEAT('x', 70000)", "NULL", "''", "'z'"]),
    ("doc", "JSON", "text", ["'{\"a\": [1, null, \"\u00fc\"]}'", "'1'", "NULL", "'[]'", "'{}'"]),
    ("blob_0", "TINYBLOB", "bytes", ["x'00ff'", "REPEAT('x', 255)", "NULL", "''", "'z'"]),
    ("blob_2", "MEDIUMBLOB", "bytes", ["x'00ff'", "REPEAT('x', 70000)", "NULL", "''", "'z'"]),
    ("place", "POINT", "bytes", ["POINT(1, 2)", "POINT(-1, 0.5)", "NULL", "POINT(0, 0)", "POINT(3, 3)"]),
    ("doubled", "INT AS (id * 2) STORED", "number", None),
    ("tripled", "INT AS (id * 3) VIRTUAL", "number", None),
]
NAMES = [name for name, _, _, _ in COLUMNS]
VIRTUAL = {name for name, definition, _, _ in COLUMNS if definition.endswith(" VIRTUAL")}


def expression(name, kind, has_names):
    """What SELECT shows of a column, in the form in which `shown` writes its JSON."""
    if kind == "enum":
        kind = "text" if has_names else "number"
    forms = {"number": "{} + 0", "float": "CAST({} AS DOUBLE)", "double": "{}", "plain": "CAST({} AS CHAR)", "instant": "CAST({} AS CHAR)"}
    forms |= {"text": "HEX(CONVERT({} USING utf8mb4))", "bytes": "HEX({})"}
    forms |= {f"bytes_{count}": f"HEX(CAST({{}} AS BINARY({count})))" for count in (4, 16)}
    return forms[kind].format(f"`{name}`")


def shown(kind, value, has_names):
    """The JSON of a cell in the form of `expression`."""
    if value is None:
        return "NULL"
    if kind == "enum":
        # Without names a value is its number, but for 0, which has no name: it is an empty text in either case.
        kind, value = ("text", value) if has_names else ("number", value or 0)
    if kind.startswith("bytes"):
        data = base64.b64decode(value["base64"]) if isinstance(value, dict) else value.encode("utf-8")
        return data.hex().upper()
    if kind == "text":
        return value.encode("utf-8").hex().upper()
    if kind == "instant":
        return value.replace("T", " ").removesuffix("Z")
    return str(value)


def same(kind, expected, found):
    """Whether a cell is what SELECT shows."""
    if "NULL" in (expected, found):
        return expected == found
    if kind == "float":
        return struct.pack("<f", float(expected)) == struct.pack("<f", float(found))
    if kind == "double":
        return float(expected) == float(found)
    return expected == found


def statements():
    """The statements, each a transaction of its own unless it says otherwise."""
    definitions = ", ".join(f"`{name}` {definition}" for name, definition, _, _ in COLUMNS)
    yield f"CREATE TABLE t ({definitions}) ENGINE=InnoDB"
    filled = [(name, values) for name, _, _, values in COLUMNS if values]
    names = ", ".join(f"`{name}`" for name, _ in filled)
    for row in range(5):
        yield f"INSERT INTO t ({names}) VALUES ({', '.join(values[row] for _, values in filled)})"
    yield "UPDATE t SET tiny = 9, words = 'new', blob_1 = NULL WHERE id = 1"
    yield "FLUSH BINARY LOGS"
    yield "UPDATE t SET id = 20, kind = 'a', instant = NULL WHERE id = 2"
    yield "UPDATE t SET latin = '\u00fc', big_u = 18446744073709551614 WHERE id > 2"
    yield "DELETE FROM t WHERE id = 4"
    yield "START TRANSACTION; INSERT INTO t (id) VALUES (90); DELETE FROM t WHERE id = 1; ROLLBACK"
    yield f"INSERT INTO t ({names}) SELECT {names.replace('`id`', 'id + 100', 1)} FROM t"
    yield "DELETE FROM t WHERE id = 103"


# What `changes` tells of a file of statements, and how often.
AS_TEXT = {"statements logged as text, so that their rows aren't in the file (binlog_format)": 1}
MAY_HAVE_ROWS = {"CREATE statements with SELECT, which may have rows as text (binlog_format)": 1}
COMPRESSED = {"compressed statements, whose rows may not be in the file (log_bin_compress)": 1}
TRUNCATED = {"TRUNCATE statements, which have no rows": 1}
ROLLED_BACK = {"ROLLBACK and XA ROLLBACK statements: rows that they roll back are in a file all the same": 1}
PREPARED = {"transactions prepared by XA, whose rows are here whether they were committed or not": 1}


def both(one, other):
    return {what: one.get(what, 0) + other.get(what, 0) for what in one | other}


# Tables of two columns, the first the key; a table that can't roll back; and a function and a procedure that change rows.
PREPARATION = """
CREATE TABLE t (a INT PRIMARY KEY, b INT) ENGINE=InnoDB; CREATE TABLE u (a INT PRIMARY KEY, b INT) ENGINE=InnoDB;
CREATE TABLE m (a INT PRIMARY KEY, b INT) ENGINE=MyISAM; INSERT INTO t VALUES (1, 1), (2, 2), (3, 3); INSERT INTO u VALUES (1, 1), (2, 2);
CREATE PROCEDURE p(x INT) MODIFIES SQL DATA UPDATE t SET b = b + x WHERE a = 1;
DELIMITER //
CREATE FUNCTION f(x INT) RETURNS INT MODIFIES SQL DATA DETERMINISTIC BEGIN UPDATE t SET b = b + x WHERE a = 1; RETURN x; END//
"""
CHANGED = "SELECT (SELECT COUNT(*) FROM t), (SELECT SUM(a * 1000 + b) FROM t), (SELECT SUM(a * 1000 + b) FROM u)"

# Statements that change rows of these tables, and are logged as text.
LOGGED_AS_TEXT = [
    "INSERT INTO t VALUES (10, 10)",
    "INSERT INTO t SET a = 11, b = 11",
    "INSERT INTO t SELECT a + 20, b FROM u",
    "INSERT INTO t VALUES (10, 10) ON DUPLICATE KEY UPDATE b = b + 5",
    "REPLACE INTO t VALUES (10, 12)",
    "UPDATE t SET b = b + 1 WHERE a = 1",
    "UPDATE t, u SET t.b = t.b + 1, u.b = u.b + 1 WHERE t.a = u.a",
    "DELETE FROM t WHERE a = 10",
    "DELETE t FROM t, u WHERE t.a = u.a + 20",
    "SET binlog_format = 'STATEMENT'; LOAD DATA INFILE 'FOLDER/rows.txt' INTO TABLE t",
    "/* ApplicationName=psql */ INSERT INTO t VALUES (30, 1)",
    "/* a *//* b */ /*c*/\n\t INSERT INTO t VALUES (31, 1)",
    "-- a comment\nINSERT INTO t VALUES (32, 1)",
    "# a comment\nINSERT INTO t VALUES (33, 1)",
    "/*! INSERT INTO t VALUES (34, 1) */",
    "/*!50001 INSERT INTO t VALUES (35, 1) */",
    "/*M! INSERT INTO t VALUES (36, 1) */",
    "/*M!100100 INSERT INTO t VALUES (37, 1) */",
    "SET STATEMENT max_statement_time = 60 FOR INSERT INTO t VALUES (38, 1)",
    "ANALYZE UPDATE t SET b = b + 1 WHERE a = 1",
    "ANALYZE FORMAT=JSON DELETE FROM t WHERE a = 38",
    "SELECT f(1)",
    "DO f(1)",
    "SET @x = f(1)",
    "(SELECT f(1))",
    "CALL p(1)",
    "EXECUTE IMMEDIATE 'INSERT INTO t VALUES (39, 1)'",
    "DELIMITER //\nBEGIN NOT ATOMIC INSERT INTO t VALUES (40, 1); END//",
    "START TRANSACTION; SAVEPOINT s; INSERT INTO t VALUES (41, 1); COMMIT",
    "START TRANSACTION; CREATE TEMPORARY TABLE v (a INT); INSERT INTO t VALUES (42, 1); DROP TEMPORARY TABLE v; COMMIT",
    "XA START 'a'; INSERT INTO t VALUES (43, 1); XA END 'a'; XA COMMIT 'a' ONE PHASE",
]

# Other statements: how many lines there are of them, and what is told.
OTHERS = [
    ("CREATE TABLE n (a INT PRIMARY KEY, b INT) ENGINE=InnoDB", 0, {}),
    ("/* a comment */ CREATE TABLE n2 (a INT)", 0, {}),
    ("CREATE TABLE n3 LIKE t", 0, {}),
    ("ALTER TABLE n ADD COLUMN c INT", 0, {}),
    ("/* a comment */ ALTER TABLE n ADD COLUMN d INT", 0, {}),
    ("CREATE INDEX i ON n (b)", 0, {}),
    ("DROP INDEX i ON n", 0, {}),
    ("RENAME TABLE n TO n4", 0, {}),
    ("DROP TABLE n2", 0, {}),
    ("CREATE TEMPORARY TABLE v (a INT); DROP TEMPORARY TABLE v", 0, {}),
    ("CREATE DATABASE e", 0, {}),
    ("ALTER DATABASE e CHARACTER SET latin1", 0, {}),
    ("DROP DATABASE e", 0, {}),
    ("CREATE TRIGGER g BEFORE INSERT ON n4 FOR EACH ROW SET NEW.b = 1", 0, {}),
    ("DROP TRIGGER g", 0, {}),
    ("CREATE FUNCTION h() RETURNS INT DETERMINISTIC RETURN 1", 0, {}),
    ("ALTER FUNCTION h COMMENT 'c'", 0, {}),
    ("DROP FUNCTION h", 0, {}),
    ("CREATE SEQUENCE q", 0, {}),
    ("ALTER SEQUENCE q RESTART 10", 0, {}),
    ("CREATE EVENT w ON SCHEDULE EVERY 1 YEAR DO UPDATE t SET b = 1", 0, {}),
    ("DROP EVENT w", 0, {}),
    ("CREATE USER k IDENTIFIED BY 'password'", 0, {}),
    ("SET PASSWORD FOR k = PASSWORD('other')", 0, {}),
    ("GRANT SELECT ON d.* TO k", 0, {}),
    ("REVOKE SELECT ON d.* FROM k", 0, {}),
    ("CREATE ROLE r", 0, {}),
    ("DROP USER k", 0, {}),
    ("FLUSH PRIVILEGES", 0, {}),
    ("FLUSH TABLES", 0, {}),
    ("ANALYZE TABLE t", 0, {}),
    ("OPTIMIZE TABLE t", 0, {}),
    ("SELECT a FROM t", 0, {}),
    ("SET @x = 1", 0, {}),
    ("DO 1", 0, {}),
    ("INSERT INTO t VALUES (50, UUID_SHORT() % 9)", 1, {}),
    ("INSERT INTO t SELECT a + 50, UUID_SHORT() % 9 FROM u", 2, {}),
    ("START TRANSACTION; SAVEPOINT s; INSERT INTO t VALUES (53, UUID_SHORT() % 9); SAVEPOINT s2; COMMIT", 1, {}),
    ("START TRANSACTION; INSERT INTO t VALUES (54, UUID_SHORT() % 9); SAVEPOINT s; DELETE FROM t WHERE a = 54; ROLLBACK TO s; COMMIT", 1, {}),
    ("XA START 'a'; INSERT INTO t VALUES (55, UUID_SHORT() % 9); XA END 'a'; XA COMMIT 'a' ONE PHASE", 1, {}),
    ("XA START 'a'; INSERT INTO t VALUES (56, UUID_SHORT() % 9); XA END 'a'; XA PREPARE 'a'; XA COMMIT 'a'", 1, PREPARED),
    ("XA START 'a'; INSERT INTO t VALUES (57, 1); XA END 'a'; XA PREPARE 'a'; XA ROLLBACK 'a'", 0, both(AS_TEXT, both(PREPARED, ROLLED_BACK))),
    ("START TRANSACTION; INSERT INTO m VALUES (1, UUID_SHORT() % 9); INSERT INTO t VALUES (58, UUID_SHORT() % 9); ROLLBACK", 1, {}),
    ("START TRANSACTION; INSERT INTO t VALUES (59, 1); CREATE TEMPORARY TABLE v (a INT); ROLLBACK", 0, both(AS_TEXT, ROLLED_BACK)),
    ("TRUNCATE TABLE n4", 0, TRUNCATED),
    ("/* a comment */ TRUNCATE n4", 0, TRUNCATED),
    ("CREATE TABLE o SELECT * FROM u", 0, MAY_HAVE_ROWS),
    ("/* a comment */ CREATE OR REPLACE TABLE o AS SELECT * FROM u", 0, MAY_HAVE_ROWS),
    ("CREATE VIEW x AS SELECT a FROM t", 0, MAY_HAVE_ROWS),
    ("DROP VIEW x", 0, {}),
    ("SET GLOBAL log_bin_compress = 1, log_bin_compress_min_len = 10; INSERT INTO t VALUES (60, 1)", 0, COMPRESSED),
    ("CREATE TABLE n5 (a INT, b INT)", 0, COMPRESSED),
    ("SET GLOBAL log_bin_compress = 0", 0, {}),
]


class Server:
    """A server in a folder of its own, with these words beside its own."""

    def __init__(self, folder, image, metadata, *words):
        self.data = folder / "data"
        self.socket = folder / "socket"
        quiet = {"stdout": subprocess.DEVNULL, "stderr": subprocess.DEVNULL}
        install = ["mariadb-install-db", "--no-defaults", f"--datadir={self.data}", "--user=root", "--auth-root-authentication-method=normal"]
        subprocess.run(install, check=True, **quiet)
        server = shutil.which("mariadbd") or "/usr/sbin/mariadbd"
        self.process = subprocess.Popen([server, "--no-defaults", f"--datadir={self.data}", f"--socket={self.socket}", "--user=root", "--skip-networking",
                                         "--log-bin=mysql-bin", "--binlog-format=ROW", f"--binlog-row-image={image}",
                                         f"--binlog-row-metadata={metadata}", "--server-id=7", "--character-set-server=utf8mb4", "--sql-mode=", *words],
                                        **quiet)
        for _ in range(300):
            if self.socket.exists():
                return
            time.sleep(0.1)
        raise SystemExit("the server doesn't start")

    def run(self, text):
        """Runs statements, and returns the rows that are shown."""
        words = ["mariadb", "--no-defaults", f"--socket={self.socket}", "--user=root", "--batch", "--raw", "--skip-column-names",
                 "--comments", "--default-character-set=utf8mb4"]
        done = subprocess.run(words, input=f"SET time_zone = '+00:00'; {text}", capture_output=True, text=True, encoding="utf-8")
        if done.returncode:
            raise SystemExit(f"{text[:200]}: {done.stderr}")
        return [line.split("\t") for line in done.stdout.splitlines()]

    def stop(self):
        """Ends the server."""
        self.process.terminate()
        self.process.wait()


def replayed(lines):
    """The rows, by their keys, after the changes of the lines."""
    rows = {}
    for line in lines:
        change = json.loads(line)
        before, after = ({NAMES[int(name[1:])] if name[0] == "@" else name: value for name, value in (change[image] or {}).items()}
                         for image in ("before", "after"))
        if change["source"]["table"] != "t":
            continue
        row = rows.pop(before["id"]) if change["op"] != "c" else {}
        if change["op"] != "d":
            row = {**row, **after}
            rows[row["id"]] = row
    return rows


def compare(program, folder, image, metadata):
    """Compares the rows of one server. Returns how many rows and cells there are, and how many differ."""
    server = Server(folder, image, metadata)
    try:
        server.run("CREATE DATABASE d")
        for statement in statements():
            server.run(f"USE d; {statement}")
        has_names = metadata == "FULL"
        unlogged = VIRTUAL if image == "MINIMAL" else set()
        columns = [(name, kind) for name, _, kind, _ in COLUMNS if name not in unlogged]
        select = ", ".join(expression(name, kind, has_names) for name, kind in columns)
        table = server.run(f"USE d; SELECT {select} FROM t ORDER BY id")
        files = sorted(server.data.glob("mysql-bin.0*"))
        done = subprocess.run([program, "--quiet", "--database", "d", *map(str, files)], capture_output=True, text=True, encoding="utf-8")
    finally:
        server.stop()
    if done.returncode:
        raise SystemExit(done.stderr)
    rows = replayed(done.stdout.splitlines())
    differ = 0
    if [int(row[0]) for row in table] != sorted(rows):
        print(f"the rows are {sorted(rows)}, and the server has {[row[0] for row in table]}")
        differ += 1
    for shown_row in table:
        row = rows.get(int(shown_row[0]), {})
        for name in unlogged & row.keys():
            print(f"row {shown_row[0]}, {name}: {row[name]} where the server logs nothing")
            differ += 1
        for (name, kind), expected in zip(columns, shown_row):
            found = shown(kind, row[name], has_names) if name in row else "nothing"
            if found == "nothing" or not same(kind, expected, found):
                print(f"row {shown_row[0]}, {name}: {found[:60]} where the server shows {expected[:60]}")
                differ += 1
    lines = len(done.stdout.splitlines())
    print(f"image {image}, metadata {metadata}: {lines} lines of {len(files)} files, {len(table)} rows of {len(columns)} columns, {differ} differ")
    return len(table), len(table) * len(columns), differ


def told_of(program, server, statement):
    """Whether the rows of the tables change by a statement, how many lines its log file has, and what is told of it and how often."""
    server.run("FLUSH BINARY LOGS")
    before = server.run(f"USE d; {CHANGED}")
    server.run(f"USE d;\n{statement}")
    after = server.run(f"USE d; {CHANGED}")
    done = subprocess.run([program, max(server.data.glob("mysql-bin.0*"))], capture_output=True, text=True, encoding="utf-8")
    if done.returncode:
        raise SystemExit(f"{statement}: {done.stderr}")
    told = {}
    for line in done.stderr.splitlines():
        found = re.fullmatch(r"changes: [^:]*: (.*): (\d+)", line)
        told |= {found[1]: int(found[2])} if found else {line: 1}
    return before != after, len(done.stdout.splitlines()), told


def compare_told(program, folder):
    """Compares what is told of statements that a server logs in the format MIXED. Returns how many of them are told otherwise."""
    (folder / "rows.txt").write_text("25\t1\n26\t1\n")
    server, wrong = Server(folder, "FULL", "FULL", "--binlog-format=MIXED"), 0
    try:
        server.run(f"CREATE DATABASE d; USE d; {PREPARATION}")
        for statement in LOGGED_AS_TEXT:
            found = told_of(program, server, statement.replace("FOLDER", str(folder)))
            if found != (True, 0, AS_TEXT):
                print(f"{statement}: rows changed, lines and notes are {found}")
                wrong += 1
        for statement, lines, told in OTHERS:
            found = told_of(program, server, statement)[1:]
            if found != (lines, told):
                print(f"{statement}: lines and notes are {found}, not {(lines, told)}")
                wrong += 1
    finally:
        server.stop()
    print(f"format MIXED: {len(LOGGED_AS_TEXT)} statements that are logged as text, {len(OTHERS)} others, {wrong} told otherwise")
    return wrong


def compare_encrypted(program, folder):
    """Looks at a file that a server encrypts, and at what it hands out of it. Returns whether one of them isn't read as it must be."""
    (folder / "keys").write_text("1;" + 64 * "a" + "\n")
    server = Server(folder, "FULL", "FULL", "--plugin-load-add=file_key_management", f"--file-key-management-filename={folder}/keys", "--encrypt-binlog")
    try:
        server.run("CREATE DATABASE d; USE d; CREATE TABLE t (a INT PRIMARY KEY); INSERT INTO t VALUES (1), (2); UPDATE t SET a = 3 WHERE a = 1")
        file = min(server.data.glob("mysql-bin.0*"))
        fetch = ["mariadb-binlog", "--no-defaults", "-R", "--raw", f"--socket={server.socket}", "--user=root", file.name]
        subprocess.run(fetch, check=True, cwd=folder, stderr=subprocess.DEVNULL)
    finally:
        server.stop()
    encrypted, plain = (subprocess.run([program, path], capture_output=True, text=True) for path in (file, folder / file.name))
    is_refused = (encrypted.returncode, encrypted.stdout) == (1, "") and "the events are encrypted" in encrypted.stderr
    keys = [[change[image] and change[image]["a"] for image in ("before", "after")] for change in map(json.loads, plain.stdout.splitlines())]
    is_read = (plain.returncode, plain.stderr, keys) == (0, "", [[None, 1], [None, 2], [1, 3]])
    print(f"encrypted: the file is {'refused' if is_refused else encrypted}, and what the server hands out of it is {'read' if is_read else plain}")
    return not (is_refused and is_read)


def main():
    """Compares the six servers."""
    if len(sys.argv) != 2:
        raise SystemExit(__doc__)
    results = []
    for image in ("FULL", "MINIMAL"):
        for metadata in ("FULL", "MINIMAL"):
            with tempfile.TemporaryDirectory() as folder:
                results.append(compare(sys.argv[1], Path(folder), image, metadata))
    rows, cells, differ = map(sum, zip(*results))
    print(f"{rows} rows, {cells} cells, {differ} differ")
    with tempfile.TemporaryDirectory() as folder:
        wrong = compare_told(sys.argv[1], Path(folder))
    with tempfile.TemporaryDirectory() as folder:
        wrong += compare_encrypted(sys.argv[1], Path(folder))
    raise SystemExit(1 if differ or wrong else 0)


if __name__ == "__main__":
    main()
