#!/usr/bin/env python3
"""Reads the table map event of each line of a file of real events with `binlog_table`.

    python3 scripts/read_real_table_maps.py FILE

FILE has one JSON object a line, with `mlen` (the post-header length of table map events) and
`map_hex` (the event's body). Each distinct event becomes a case of a test, beside what a plain
reading in this script says of it: the id, the names, the number of columns, each column's type
byte and metadata, and the bytes of the optional metadata.

A line may also have `kinds` (the kinds of the optional fields, in order), `facts` (a plain reading
of each field, by its name), and what the server answered about the table: `columns` with their
names and types, `primary_key` and `unique_not_null` (pairs of a column and a prefix length), and
`charset_ids` (the collations of the columns of each group). Then each field is compared with its
fact, item by item, and what is extracted for rows with the server's answers: the names, signs, key
and charsets of the columns.

The events are read as MariaDB's, whose YEAR columns have signs and whose geometry columns have
charsets.

The tests run in a copy of the workspace, by `rt try --test`; the gate doesn't run them.
"""

import json
import re
import shutil
import subprocess
import sys
import tempfile
from collections import Counter
from pathlib import Path

ROOT = Path(__file__).resolve().parent.parent
CASES_OF_A_TEST = 25

# What is read of a line.
NAMES_IN_A_LINE = (
    "mlen map_hex kinds facts columns primary_key unique_not_null charset_ids".split()
)

ONE_BYTE = {4, 5, 17, 18, 19, 242, 245, 249, 250, 251, 252, 255}
TWO_BYTES = {15, 16, 246, 247, 248, 253, 254}

# The SQL types of columns with signs, of which YEAR is always unsigned.
NUMERIC_TYPES = set("tinyint smallint mediumint int bigint float double decimal year".split())
# The SQL types of columns with charsets, and the field that lists the charsets of their group.
GROUP_OF = dict.fromkeys(
    "char varchar tinytext text mediumtext longtext"
    " binary varbinary tinyblob blob mediumblob longblob inet4 inet6 uuid"
    " geometry point linestring polygon multipoint multilinestring multipolygon"
    " geometrycollection".split(),
    "COLUMN_CHARSET",
) | dict.fromkeys(["enum", "set"], "ENUM_AND_SET_COLUMN_CHARSET")

CHECKS = """
use crate::table_map::TableMapEvent;
use crate::table_map::optional::{
    ColumnCharsets, DefaultCharset, IterNames, IterSignedness, IterStrValues,
    OptionalMetaExtractor, OptionalMetadataField, StrValues,
};
use binlog_base::below::{ParseBuf, Server};
use binlog_base::fault::Fault;
use std::alloc::Global;
use std::process::Abort;

type Field<'a> = Option<Result<OptionalMetadataField<'a>, Fault>>;

fn read(bytes: &[u8], post_header_len: u8) -> Result<TableMapEvent<'_>, Fault> {
    let table: TableMapEvent<'_> = ParseBuf(bytes).parse(post_header_len)?;
    Ok(table.with_server(Server::MariaDb))
}

fn is_table(table: &TableMapEvent<'_>, id: u64, database: &[u8], name: &[u8], optional: &[u8]) -> bool {
    table.table_id() == id
        && table.database_name_raw() == database
        && table.table_name_raw() == name
        && table.optional_metadata_raw() == optional
}

fn has_columns(table: &TableMapEvent<'_>, columns: &[(u8, &[u8])]) -> bool {
    table.columns_count() == columns.len() as u64
        && columns.iter().enumerate().all(|(i, column)| is_column(table, i, column.0, column.1))
}

fn is_column(table: &TableMapEvent<'_>, index: usize, number: u8, metadata: &[u8]) -> bool {
    let raw = match table.get_raw_column_type(index) {
        Ok(Some(column_type)) => u8::from(column_type) == number,
        _ => false,
    };
    raw && table.get_column_metadata(index) == Some(metadata)
}

// Whether an iterator gives these items, and then ends.
fn gives<T: Copy + PartialEq, I: Iterator<Item = Result<T, Fault>> + Drop>(
    mut items: I,
    expected: &[T],
) -> bool {
    for item in expected {
        if items.next() != Some(Ok(*item)) {
            return false;
        }
    }
    items.next().is_none()
}

fn gives_bits(bits: IterSignedness<'_>, expected: &[bool]) -> bool {
    bits.eq(expected.iter().copied())
}

fn gives_names(mut names: IterNames<'_>, expected: &[&[u8]]) -> bool {
    for name in expected {
        match &names.next() {
            Some(Ok(found)) if found.name_raw() == *name => {}
            _ => return false,
        }
    }
    names.next().is_none()
}

fn gives_values(mut columns: IterStrValues<'_>, expected: &[&[&[u8]]]) -> bool {
    for values in expected {
        match &columns.next() {
            Some(Ok(found)) if has_values(found, values) => {}
            _ => return false,
        }
    }
    columns.next().is_none()
}

fn has_values(found: &StrValues<'_>, expected: &[&[u8]]) -> bool {
    found.num_variants() == expected.len() as u64
        && found
            .values()
            .iter()
            .zip(expected.iter())
            .all(|(value, bytes)| value.value_raw() == *bytes)
}

fn has_charsets(field: &DefaultCharset<'_>, expected: (u16, &[(u64, u16)])) -> bool {
    let others = field
        .iter_non_default()
        .map(|item| item.map(|other| (other.column_index(), other.charset())));
    field.default_charset() == expected.0 && gives(others, expected.1)
}

fn lists_charsets(list: &ColumnCharsets<'_>, charsets: &[u16]) -> bool {
    gives(list.iter_charsets(), charsets)
}

fn is_signedness(field: &Field<'_>, signs: &[bool]) -> bool {
    match field {
        Some(Ok(OptionalMetadataField::Signedness(bits))) => gives_bits(bits.iter(), signs),
        _ => false,
    }
}

fn is_default_charset(field: &Field<'_>, charsets: (u16, &[(u64, u16)])) -> bool {
    match field {
        Some(Ok(OptionalMetadataField::DefaultCharset(found))) => has_charsets(found, charsets),
        _ => false,
    }
}

fn is_column_charset(field: &Field<'_>, charsets: &[u16]) -> bool {
    match field {
        Some(Ok(OptionalMetadataField::ColumnCharset(list))) => lists_charsets(list, charsets),
        _ => false,
    }
}

fn is_column_name(field: &Field<'_>, names: &[&[u8]]) -> bool {
    match field {
        Some(Ok(OptionalMetadataField::ColumnName(list))) => gives_names(list.iter_names(), names),
        _ => false,
    }
}

fn is_set_str_value(field: &Field<'_>, alloc: Global, columns: &[&[&[u8]]]) -> bool {
    match field {
        Some(Ok(OptionalMetadataField::SetStrValue(list))) => {
            gives_values(list.iter_values(alloc), columns)
        }
        _ => false,
    }
}

fn is_enum_str_value(field: &Field<'_>, alloc: Global, columns: &[&[&[u8]]]) -> bool {
    match field {
        Some(Ok(OptionalMetadataField::EnumStrValue(list))) => {
            gives_values(list.iter_values(alloc), columns)
        }
        _ => false,
    }
}

fn is_geometry_type(field: &Field<'_>, numbers: &[u8]) -> bool {
    match field {
        Some(Ok(OptionalMetadataField::GeometryType(list))) => gives(
            list.iter_geometry_types().map(|item| item.map(|kind| u8::from(kind))),
            numbers,
        ),
        _ => false,
    }
}

fn is_simple_primary_key(field: &Field<'_>, indexes: &[u64]) -> bool {
    match field {
        Some(Ok(OptionalMetadataField::SimplePrimaryKey(list))) => gives(list.iter_indexes(), indexes),
        _ => false,
    }
}

fn is_primary_key_with_prefix(field: &Field<'_>, keys: &[(u64, u64)]) -> bool {
    match field {
        Some(Ok(OptionalMetadataField::PrimaryKeyWithPrefix(list))) => gives(
            list.iter_keys().map(|item| item.map(|key| (key.column_index(), key.prefix_length()))),
            keys,
        ),
        _ => false,
    }
}

fn is_enum_and_set_default_charset(field: &Field<'_>, charsets: (u16, &[(u64, u16)])) -> bool {
    match field {
        Some(Ok(OptionalMetadataField::EnumAndSetDefaultCharset(found))) => {
            has_charsets(found, charsets)
        }
        _ => false,
    }
}

fn is_enum_and_set_column_charset(field: &Field<'_>, charsets: &[u16]) -> bool {
    match field {
        Some(Ok(OptionalMetadataField::EnumAndSetColumnCharset(list))) => {
            lists_charsets(list, charsets)
        }
        _ => false,
    }
}

fn is_vector_dimensionality(field: &Field<'_>, dimensions: &[u64]) -> bool {
    match field {
        Some(Ok(OptionalMetadataField::Dimensionality(list))) => {
            gives(list.iter_dimensionalities(), dimensions)
        }
        _ => false,
    }
}

// Whether the columns have these charsets: 0 for a column that has none.
fn has_charset_by_column(
    table: &TableMapEvent<'_>,
    extracted: &OptionalMetaExtractor<'_>,
    expected: &[u16],
) -> bool {
    let mut of_text = extracted.iter_charset();
    let mut of_enums_and_sets = extracted.iter_enum_and_set_charset();
    for (index, charset) in expected.iter().enumerate() {
        let found = match table.get_column_type(index) {
            Ok(Some(kind)) if Server::MariaDb.is_character(kind) => of_text.next(),
            Ok(Some(kind)) if Server::MariaDb.is_enum_or_set(kind) => of_enums_and_sets.next(),
            _ => None,
        };
        if found.unwrap_or(Ok(0)) != Ok(*charset) {
            return false;
        }
    }
    true
}
"""


class Bytes:
    """What is left of an event's bytes."""

    def __init__(self, data):
        self.data = data

    def take(self, count):
        assert count <= len(self.data), "the event is cut"
        taken, self.data = self.data[:count], self.data[count:]
        return taken

    def number(self, count):
        return int.from_bytes(self.take(count), "little")

    def lenenc(self):
        first = self.number(1)
        assert first not in (251, 255), "no length-encoded number"
        return first if first < 251 else self.number({252: 2, 253: 3, 254: 8}[first])


def chunk_of(number, left):
    return left.take(1 if number in ONE_BYTE else 2 if number in TWO_BYTES else 0)


def case_of(body, post_header_len):
    event = Bytes(body)
    table_id = event.number(4 if post_header_len == 6 else 6)
    event.take(2)
    database = event.take(event.number(1))
    event.take(1)
    name = event.take(event.number(1))
    event.take(1)
    types = event.take(event.lenenc())
    metadata = Bytes(event.take(event.lenenc()))
    event.take((len(types) + 7) // 8)
    columns = [(number, chunk_of(number, metadata)) for number in types]
    assert not metadata.data, "metadata behind the last column"
    return table_id, database, name, event.data, columns


def same(fact):
    return fact


def signs_of(fact):
    return [sign == "unsigned" for sign in fact]


def names_of(fact):
    return [name.encode() for name in fact]


def variants_of(fact):
    return [[bytes.fromhex(value) for value in column] for column in fact]


def pairs_of(fact):
    return [tuple(pair) for pair in fact]


def default_charset_of(fact):
    return fact["default"], pairs_of(fact["exceptions"])


# For each kind of optional field its name, and what makes a value for the tests of its fact.
FIELDS = {
    1: ("SIGNEDNESS", signs_of),
    2: ("DEFAULT_CHARSET", default_charset_of),
    3: ("COLUMN_CHARSET", same),
    4: ("COLUMN_NAME", names_of),
    5: ("SET_STR_VALUE", variants_of),
    6: ("ENUM_STR_VALUE", variants_of),
    7: ("GEOMETRY_TYPE", same),
    8: ("SIMPLE_PRIMARY_KEY", same),
    9: ("PRIMARY_KEY_WITH_PREFIX", pairs_of),
    10: ("ENUM_AND_SET_DEFAULT_CHARSET", default_charset_of),
    11: ("ENUM_AND_SET_COLUMN_CHARSET", same),
    13: ("VECTOR_DIMENSIONALITY", same),
}
TAKES_MEMORY = {"SET_STR_VALUE", "ENUM_STR_VALUE"}
KEYS = {"SIMPLE_PRIMARY_KEY", "PRIMARY_KEY_WITH_PREFIX"}


def sql_type(column):
    return re.match(r"\w+", column["type"]).group()


class Event:
    """A table map event, and what its line of the file says of it."""

    def __init__(self, number, line):
        self.number = number
        self.line = line
        self.body = bytes.fromhex(line["map_hex"])
        self.post_header_len = line["mlen"]
        self.case = case_of(self.body, self.post_header_len)
        self.facts = line.get("facts")

    def has_optional_metadata(self):
        return bool(self.case[3])

    def fields(self):
        """The name and the value of each optional field, in order."""
        kinds = [FIELDS[kind] for kind in self.line["kinds"]]
        assert {name for name, _ in kinds} == set(self.facts), f"line {self.number}: other kinds"
        return [(name, value_of(self.facts[name])) for name, value_of in kinds]

    def names(self):
        """The names of the columns, by the server's answer; none where the event has none."""
        if "COLUMN_NAME" not in self.facts:
            return []
        return [column["name"].encode() for column in self.line["columns"]]

    def signs(self):
        """Whether each numeric column is unsigned, by the server's answer."""
        if "SIGNEDNESS" not in self.facts:
            return []
        numeric = [column for column in self.line["columns"] if sql_type(column) in NUMERIC_TYPES]
        return [sql_type(column) == "year" or "unsigned" in column["type"] for column in numeric]

    def key(self):
        """The indexes of the columns of the key, by the server's answer."""
        if not KEYS & set(self.facts):
            return []
        names = [column["name"] for column in self.line["columns"]]
        key = self.line["primary_key"] or self.line["unique_not_null"]
        return [names.index(name) for name, _ in key]

    def charsets(self):
        """The charset of each column, by the server's answer: 0 for a column without one."""
        left = {group: list(ids) for group, ids in self.line["charset_ids"].items()}
        charsets = []
        for column in self.line["columns"]:
            ids = left.get(GROUP_OF.get(sql_type(column)))
            charsets.append(ids.pop(0) if ids else 0)
        assert not any(left.values()), f"line {self.number}: more charsets than columns"
        return charsets


def literal(value):
    """A value as the tests write it: bytes and lists are slices."""
    if isinstance(value, bool):
        return str(value).lower()
    if isinstance(value, int):
        return str(value)
    items = ", ".join(literal(item) for item in value)
    return f"({items})" if isinstance(value, tuple) else f"&[{items}]"


def asserted(event, condition, what):
    return f'    assert!(rt; {condition}, "line {event.number}: {what}");\n'


def table_function(event):
    table_id, database, name, optional, columns = event.case
    parts = ", ".join(literal(part) for part in (table_id, database, name, optional))
    pairs = ", ".join(literal(column) for column in columns)
    text = f"""
fn line_{event.number}(rt: &impl Abort, alloc: Global) {{
    let columns: [(u8, &[u8]); {len(columns)}] = [{pairs}];
    let table = read({literal(event.body)}, {event.post_header_len});
    let table = table.expect(rt, "line {event.number}: a fault");
"""
    text += asserted(event, f"is_table(&table, {parts})", "id, names or bytes")
    text += asserted(event, "has_columns(&table, &columns)", "columns")
    if event.facts is not None:
        text += f"    fields_of_line_{event.number}(rt, alloc, &table);\n"
    return text + "}\n"


def condition_of(event, name, value):
    alloc = "alloc, " if name in TAKES_MEMORY else ""
    return f"is_{name.lower()}(&fields.next(), {alloc}{literal(value)})"


def fields_function(event):
    text = f"""
fn fields_of_line_{event.number}(rt: &impl Abort, alloc: Global, table: &TableMapEvent<'_>) {{
    let mut fields = table.iter_optional_meta();
"""
    for name, value in event.fields():
        text += asserted(event, condition_of(event, name, value), name)
    text += asserted(event, "fields.next().is_none()", "more fields")
    if event.facts:
        text += f"    extracted_of_line_{event.number}(rt, table);\n"
    return text + "}\n"


def extracted_function(event):
    text = f"""
fn extracted_of_line_{event.number}(rt: &impl Abort, table: &TableMapEvent<'_>) {{
    let extracted = OptionalMetaExtractor::new(table.iter_optional_meta());
    let extracted = extracted.expect(rt, "line {event.number}: a fault among the fields");
"""
    conditions = {
        "signs": f"gives_bits(extracted.iter_signedness(), {literal(event.signs())})",
        "names": f"gives_names(extracted.iter_column_name(), {literal(event.names())})",
        "key": f"gives(extracted.iter_primary_key(), {literal(event.key())})",
        "charsets": f"has_charset_by_column(table, &extracted, {literal(event.charsets())})",
    }
    for what, condition in conditions.items():
        text += asserted(event, condition, what)
    return text + "}\n"


def functions_of(event):
    text = table_function(event)
    if event.facts is not None:
        text += fields_function(event)
    if event.facts:
        text += extracted_function(event)
    return text


def tests_of(events):
    text = [CHECKS]
    text += [functions_of(event) for event in events]
    for start in range(0, len(events), CASES_OF_A_TEST):
        cases = events[start : start + CASES_OF_A_TEST]
        text.append(f"\n#[test]\nfn lines_from_{cases[0].number}(rt: HostRuntime) {{\n")
        text += [f"    line_{event.number}(&rt, rt.alloc());\n" for event in cases]
        text.append("}\n")
    return "".join(text)


def events_of(path):
    """The events of the file: one of those whose lines say the same."""
    events = {}
    with path.open(encoding="utf-8") as lines:
        for number, text in enumerate(lines, start=1):
            line = json.loads(text)
            key = json.dumps([line.get(name) for name in NAMES_IN_A_LINE])
            events.setdefault(key, Event(number, line))
    return list(events.values())


def print_counts(events):
    print(f"{len(events)} table map events")
    print(f"{sum(event.has_optional_metadata() for event in events)} with optional metadata")
    described = [event for event in events if event.facts]
    if not described:
        return
    fields = Counter(name for event in described for name in event.facts)
    print(f"{len(described)} with facts about it, to which these fields were compared:")
    for name, _ in FIELDS.values():
        if fields[name]:
            print(f"  {fields[name]} {name}")
    print("of each the names, signs, key and charsets were extracted and compared by column")


def main():
    if len(sys.argv) != 2:
        sys.exit(__doc__)
    events = events_of(Path(sys.argv[1]))
    if not events:
        sys.exit("no events")
    with tempfile.TemporaryDirectory() as folder:
        copy = Path(folder) / "workspace"
        shutil.copytree(ROOT, copy, ignore=shutil.ignore_patterns(".git", "out"))
        crate = copy / "crates" / "binlog_table"
        (crate / "src" / "tests.rt").write_text(tests_of(events))
        with (crate / "src" / "lib.rt").open("a") as root:
            root.write("\n#[cfg(test)]\nmod tests;\n")
        status = subprocess.run(["rt", "try", "--test"], cwd=crate).returncode
    print_counts(events)
    sys.exit(status)


if __name__ == "__main__":
    main()
