#!/usr/bin/env bash
# Small tests of the arguments of the program `changes`.
#
# usage: scripts/arguments.sh PROGRAM
#
# PROGRAM is the built program (crates/changes/out/changes). Each case has the status that is wanted, a text that must be in standard output, one
# that must be in standard error, and the words; some have the number of lines of standard output. In place of a text, `-` wants nothing there at
# all, and an empty word anything. So help and version must come on standard output alone, usage and wrong arguments on standard error alone, rows on
# standard output, and errors and notes on standard error. The file `f` is the one in crates/changes/data, of 34 rows; Python makes the others by
# scripts/make_file.py. Prints each case that fails, and last 'N passed, M failed'. The status is 0 if all passed, 1 if not, and 2 if there is no
# program.
set -u
here=$(cd "$(dirname "$0")/.." && pwd)
program=${1:-}
if [ ! -x "$program" ]; then
    echo "usage: scripts/arguments.sh PROGRAM" >&2
    exit 2
fi
program=$(cd "$(dirname "$program")" && pwd)/$(basename "$program")
folder=$(mktemp -d)
trap 'rm -rf "$folder"' EXIT
cp "$here/crates/changes/data/mariadb-bin.000001" "$folder/f"
cd "$folder" || exit 2
size=$(stat -c %s f)
passed=0
failed=0

# Whether a file is as it must be: has FILE TEXT
has() {
    case $2 in
    '') ;;
    -) [ ! -s "$1" ] ;;
    *) grep -qF -- "$2" "$1" ;;
    esac
}

# Takes in what the last command did: its status is in `status`, what it wrote in the files out and err. judge WHAT STATUS OUT ERR
judge() {
    if [ "$status" -ne "$2" ]; then
        echo "$1: status $status, not $2"
    elif ! has out "$3"; then
        echo "$1: standard output isn't '$3': $(head -c 300 out)"
    elif ! has err "$4"; then
        echo "$1: standard error isn't '$4': $(head -c 300 err)"
    else
        passed=$((passed + 1))
        return
    fi
    failed=$((failed + 1))
}

# Runs the program: case_of STATUS OUT ERR WORD..
case_of() {
    local wanted=$1 out=$2 err=$3
    shift 3
    status=0
    "$program" "$@" >out 2>err </dev/null || status=$?
    judge "$*" "$wanted" "$out" "$err"
}

# Takes in that the case that passed last has failed after all.
take_back() {
    echo "$1"
    passed=$((passed - 1))
    failed=$((failed + 1))
}

# The same, and standard output must have so many lines: lines_of STATUS LINES OUT ERR WORD..
lines_of() {
    local wanted=$1 lines=$2 out=$3 err=$4 before=$failed
    shift 4
    case_of "$wanted" "$out" "$err" "$@"
    if [ "$failed" -eq "$before" ] && [ "$(wc -l <out)" -ne "$lines" ]; then
        take_back "$*: $(wc -l <out) lines, not $lines"
    fi
}

# Standard output must have so many lines, all of a pattern, and standard error nothing: all_of LINES PATTERN WORD..
all_of() {
    local lines=$1 pattern=$2 before=$failed
    shift 2
    lines_of 0 "$lines" '' - --quiet "$@"
    if [ "$failed" -eq "$before" ] && grep -qvE -- "$pattern" out; then
        take_back "$*: $(grep -vE -- "$pattern" out | head -n 1) isn't '$pattern'"
    fi
}

# Standard error must have so many lines with the text: notes_of LINES TEXT WORD..
notes_of() {
    local lines=$1 text=$2 before=$failed
    shift 2
    case_of 0 '' '' "$@"
    if [ "$failed" -eq "$before" ] && [ "$(grep -cF -- "$text" err)" -ne "$lines" ]; then
        take_back "$*: $(grep -cF -- "$text" err) lines with '$text', not $lines"
    fi
}

case_of 0 'Usage: changes' - --help
case_of 0 '--start-position' - --help
case_of 0 '--exclude-table' - --help
case_of 0 'changes 0.1.0' - --version
case_of 2 - 'Usage: changes'
case_of 2 - '--no-such-option' --no-such-option f
case_of 2 - "'x'" --op x f
case_of 2 - '[possible values: c, u, d]' --op c,x f
case_of 2 - "'x'" --start-position x f
case_of 2 - "'-1'" --start-position=-1 f
case_of 2 - '18446744073709551616' --stop-position 18446744073709551616 f
case_of 2 - '--count' --count --text f
case_of 2 - 'UTF-8' --database $'\xff' f
case_of 1 - 'changes: no/file: ' no/file
case_of 1 - 'changes: .: ' .
lines_of 0 34 '"op":"d"' '' f
lines_of 0 12 '"op":"c"' '' --op c f
lines_of 0 25 '"op":"u"' '' --op c,u f
lines_of 0 25 '"op":"u"' '' --op c --op u f
lines_of 0 7 'db_F.pk_auto' '' --text --table db_F.pk_auto f
lines_of 0 34 'db_F.pk1' '' --text --database db_F f
lines_of 0 34 'db_F.pk_auto' '' --text --database db_F --table db_F.pk1 f
lines_of 0 7 'db_F.pk_auto' '' --text --database d --table db_F.pk_auto f
case_of 2 - 'a name of --table or --exclude-table is that of a database, a point' --table pk_auto --table db_F.pk_auto f
case_of 2 - 'a name of --table or --exclude-table is that of a database, a point' --exclude-table pk_auto f
case_of 2 - 'a name of --table or --exclude-table is that of a database, a point' --table 'db_F\.pk_auto' f
lines_of 0 34 'db_F.pk1' '' --text --table 'db_F.pk*' f
lines_of 0 7 'db_F.pk_auto' '' --text --table '*.pk?auto' f
case_of 0 - 'changes: no event of db_F.nos*' --table 'db_F.nos*' f
case_of 0 - 'changes: no event of DB_f.pk?, but of a name that differs by case' --table 'DB_f.pk?' f
lines_of 0 7 'db_F.pk_auto' '' --text --table 'db_F.pk\_auto' f
lines_of 0 27 'db_F.pk1' '' --text --table 'db_?.pk?' f
lines_of 0 27 'db_F.pk1' '' --text --exclude-table db_F.pk_auto f
lines_of 0 27 'db_F.pk1' '' --text --database db_F --exclude-table '*_*.*_*' f
lines_of 0 0 - '' --table db_F.pk1 --exclude-table 'db_F.*' f
lines_of 0 0 - '' --exclude-database db_F --table db_F.pk1 f
lines_of 0 34 '"table":"pk1"' '' --exclude-database db_f --exclude-database 'db_?' --exclude-table db_F.pk f
lines_of 0 3 '           8           11            8  (all)' '' --count --exclude-table db_F.pk_auto f
lines_of 0 0 - 'changes: no event of db_f, but of a name that differs by case' --database db_f f
lines_of 0 3 '"pos":6224' '' --start-position 5982 --op d,c --op u --table db_F.pk_auto f
lines_of 1 0 - 'no event begins at 5983' --start-position 5983 f
lines_of 1 1 '"pos":964' 'no event begins at 965' --stop-position 965 f
lines_of 0 0 - - --stop-position 964 f
# An event past the stop position isn't read: in `damaged`, the one that begins at 964 has a wrong byte.
cp f damaged
printf '\377' | dd of=damaged bs=1 seek=1000 conv=notrunc status=none
lines_of 0 0 - - --stop-position 964 damaged
lines_of 1 0 - 'changes: damaged at 964: ' damaged
lines_of 0 0 - - --start-position 964 --stop-position 964 f
case_of 1 - 'no event begins at 965' --start-position 965 --stop-position 965 f
case_of 2 - 'the start position is after the stop position' --start-position 6224 --stop-position 964 f
lines_of 0 1 '"pos":6224' '' --start-position 6224 --stop-position 964 f f
lines_of 0 34 '"pos":964' '' --stop-position "$size" f
lines_of 1 34 '"pos":964' "no event begins at $((size + 1))" --stop-position "$((size + 1))" f
lines_of 0 68 '"pos":964' '' f f
lines_of 0 35 '"pos":6224' '' --start-position 6224 f f
lines_of 0 34 '"pos":964' '' --stop-position 964 f f
lines_of 0 4 '           4            2            1  db_F.pk_auto' - --count f
lines_of 0 4 '          12           13            9  (all)' - --count f
lines_of 0 3 '           0            2            0  (all)' - --count --op u --table db_F.pk_auto f
lines_of 0 4 '          24           26           18  (all)' - --count f f
# After an error of a file itself the next one is read.
echo text >text
lines_of 1 34 '"pos":964' 'changes: no/file: ' no/file f
lines_of 1 34 '"pos":964' 'changes: no/other: ' no/file f no/other
lines_of 1 68 '' 'changes: no/file: ' f no/file f
lines_of 1 34 '"pos":964' 'changes: damaged at 964: ' damaged f
lines_of 1 34 '"pos":964' 'changes: damaged at 964: ' f damaged
lines_of 1 34 '"file":"f"' 'changes: text at 0: this isn'"'"'t a binlog file' text f
lines_of 1 34 '"pos":964' 'no event begins at 5983' --start-position 5983 f f
lines_of 1 4 '          12           13            9  (all)' 'changes: no/file: ' --count no/file f
lines_of 1 4 '          12           13            9  (all)' 'changes: damaged at 964: ' --count damaged f
# What is read and what is told don't mix: without notes standard error is empty, and each line is a row.
all_of 34 '^\{"op":"[cud]","source":\{"file":"f","pos":[0-9]+,"row":[0-9],.*\}$' f
all_of 34 '^f:[0-9]+ db_F\.pk(1|_auto) .* -> ' --text f
# Of a path a line has the last part alone; an error has it all.
mkdir -p sub/inner
cp f sub/inner/g
all_of 34 '^\{"op":"[cud]","source":\{"file":"g","pos":[0-9]+,"row":[0-9],' sub/inner/g
all_of 34 '^\{"op":"[cud]","source":\{"file":"g","pos":' "$folder/sub/../sub/inner/g"
all_of 34 '^g:[0-9]+ db_F\.pk(1|_auto) ' --text ./sub/inner/g
all_of 68 '^\{"op":"[cud]","source":\{"file":"[fg]","pos":' f sub/inner/g
head -c 700 f >sub/inner/cut
case_of 1 - 'changes: sub/inner/cut at 595: the event is cut: 105 of 184 bytes are there' sub/inner/cut
notes_of 1 'changes: 2 tables, as db_F.pk1, db_F.pk_auto: the server logged no names (columns are @0, @1 ..' f
notes_of 1 'changes: 2 tables, as db_F.pk1, db_F.pk_auto: the server logged no names (columns are @0, @1 ..' f f
notes_of 0 'changes:' --quiet f
notes_of 0 'changes:' --count f

head -c 700 f >cut
case_of 1 - 'changes: cut at 595: the event is cut: 105 of 184 bytes are there' cut
head -c 600 f >cut
case_of 1 - 'changes: cut at 595: the event is cut: 5 of the 19 bytes of its header are there' cut
status=0
"$program" - <cut >out 2>err || status=$?
judge 'a cut event of standard input' 1 - 'changes: - at 595: the event is cut: 14 bytes are missing'
status=0
"$program" - <f >out 2>err || status=$?
judge '- as standard input' 0 '{"op":"c","source":{"file":"-","pos":964,"row":0' ''

# An event with a statement begins with the thread, the seconds, the length of the database, an error, and the length of the status variables.
python3 - "$here/scripts" <<'END' || exit 2
import struct, sys
sys.path.insert(0, sys.argv[1])
from make_file import File, Shape, counted, field, table_map

def write(path, *events):
    """A file of events after the description: their types and bodies."""
    with open(path, "wb") as out:
        file = File(out, None)
        for event in events:
            file.event(*event)

def statement(text, variables=b""):
    return struct.pack("<IIBHH", 1, 0, 1, 0, len(variables)) + variables + b"d\0" + text

def named(table):
    """The map of a table without metadata, under the id 18, and a rows event of it whose only row has no columns present."""
    body = table_map(table, Shape(12, 12, 12, False))
    return (0x13, bytes([18]) + body[1:]), (0x17, bytes([18]) + bytes(5) + b"\1\0" + b"\x0c\1\0\0\0\0\0\0")

# In a transaction each is rows as text but what makes or drops something, and the transaction's own parts; a body that is too short is an empty one.
inside = [statement(text) for text in (b"BEGIN", b"insert into t values (1)", b" \n\t/* by */ Replace t", b"/*!50000 create table t */", b"drop table t", b"", b"SAVEPOINT s", b"COMMIT")]
outside = [statement(text) for text in (b"insert into t values (1)", b"CREATE TABLE t (selected int)", b"create table t /* as */ select 1", b"GRANT SELECT ON t TO u")]
write("statements", *((2, body) for body in inside), *((2, body) for body in outside), (0x12, b""), (0xA5, b""), (0xA5, b"x"))
# MariaDB's GTID event says by its flags whether a transaction begins: not where the statement stands alone (1).
group = lambda flags: (0xA2, struct.pack("<QIB", 1, 0, flags) + bytes(6))
write("groups", group(0), (2, statement(b"insert into t values (1)")), group(1), (2, statement(b"insert into t values (1)")), group(12), (2, statement(b"/* x */ update t")), (2, b"short"))
ended = [statement(text) for text in (b"truncate t", b" TRUNCATE TABLE `t`", b"rollback ", b"XA ROLLBACK X'61',X'',1", b"ROLLBACK TO `s`", b"COMMIT")]
write("ends", *((2, body) for body in ended), (0x26, b"\0\1"), (0x26, b"\1\1"), (0x26, b""), (0x1A, b"\1\0\0"))
write("payload", (0x28, b"\0"))
write("compressed", (0xA6, b"\0"))
write("encrypted_events", (0xA4, b"\1" + bytes(16)))
first, second = named(0), named(1)
# Up to eight of the twelve columns are numbers, whose signs are one byte; names are missing.
write("signs", (0x13, first[0][1] + b"\x01\x01\0"), first[1])
# A table and its column have a name that would end a line and clear the screen.
name = b"a\n\x1b[2J`b\\"
forged = bytes([18]) + bytes(5) + b"\1\0\4shop\0" + counted([name]) + b"\0\1\3\0\0" + field(4, counted([name]))
write("forged", (0x13, forged), (0x17, bytes([18]) + bytes(5) + b"\1\0\1\1\xfe" + struct.pack("<I", 7)))
# A file that names the one that follows, and files whose last event belongs to others: a GTID, a table map, and a statement of a transaction.
write("first_file", (4, struct.pack("<Q", 4) + b"next_file"))
write("next_file")
write("ends_at_gtid", group(0))
write("ends_at_map", first[0])
write("ends_at_statement", (2, statement(b"BEGIN")), (2, statement(b"insert into t values (1)")))
no_row = bytes([18]) + bytes(5) + b"\1\0" + b"\x0c\0\0"
write("no_row", first[0], (0x17, no_row))
write("two_tables", *first, *second)
# The first column of the first table has a type that is none (140). Its map has 22 bytes before the types.
unknown = bytearray(first[0][1])
unknown[22] = 140
write("unknown_type", (0x13, unknown), first[1], *second)
# Of three events of a table of a number the second has two rows and a part of one; and of a table of a document the second has a row whose
# document has a fault inside, where lines of text and numbers of rows don't look.
rows = lambda *parts: (0x17, bytes([18]) + bytes(5) + b"\1\0\1\1" + b"".join(parts))
number = lambda n: b"\xfe" + struct.pack("<I", n)
whole = (0x13, bytes([18]) + bytes(5) + b"\1\0\4shop\0" + counted([b"t"]) + b"\0\1\3\0\0" + field(4, counted([b"id"])))
faulty = rows(number(8), number(9), b"\xfe\1\2")
write("faulty", whole, rows(number(7)), whole, faulty, whole, rows(number(10)))
write("unknown_table", whole, rows(number(7)), rows(number(8)))
document = lambda value: b"\xfe" + struct.pack("<I", len(value)) + value
json = (0x13, bytes([18]) + bytes(5) + b"\1\0\4shop\0" + counted([b"j"]) + b"\0\1\xf5\1\4\1" + field(4, counted([b"doc"])))
inside = b"\2" + struct.pack("<HHBH", 1, 7, 12, 100)
plain = b"\5" + struct.pack("<h", 1)
write("faulty_document", json, rows(document(plain)), json, rows(document(plain), document(inside), document(plain)), json, rows(document(plain)))
with open("two_descriptions", "wb") as out:
    file = File(out, None)
    for event in first:
        file.event(*event)
    with open("f", "rb") as real:
        real.seek(4)
        size = struct.unpack("<I", real.read(13)[9:])[0]
        real.seek(4)
        raw = real.read(size)
    file.event(15, raw[19:-4])
    for event in second:
        file.event(*event)
END
case_of 0 - "rows aren't in the file (binlog_format): 4" statements
case_of 0 - 'changes: statements: CREATE statements with SELECT, which may have rows as text (binlog_format): 1' statements
notes_of 3 'changes:' statements
case_of 0 - "changes: groups: statements logged as text, so that their rows aren't in the file (binlog_format): 3" groups
case_of 0 - 'changes: statements: compressed statements, whose rows may not be in the file (log_bin_compress): 2' statements
notes_of 0 'changes:' --quiet statements
case_of 0 - 'changes: ends: TRUNCATE statements, which have no rows: 2' ends
case_of 0 - 'rows that they roll back are in a file all the same: 3' ends
case_of 0 - 'whose rows are here whether they were committed or not: 1' ends
case_of 0 - 'changes: ends: incidents, by which the server says that changes are missing: 1' ends
notes_of 4 'changes:' --count ends
lines_of 0 0 - 'changes: no_row: rows events without a row, as of inserts of defaults alone (binlog_row_image): 1' no_row
notes_of 0 'changes:' --quiet no_row
notes_of 1 'the server logged no names (columns are @0, @1 ..' signs
lines_of 0 1 ' shop.`a\n\x1b[2J``b\\` - -> {`a\n\x1b[2J``b\\`=7}' '' --text forged
lines_of 0 3 '           1            0            0  shop.a\n\x1b[2J`b\\' '' --count forged
notes_of 1 'shop.a\n\x1b[2J`b\\: the server logged no ' forged
case_of 0 '' 'changes: f: the file before it goes on in next_file' --count first_file f
notes_of 0 'goes on in' first_file next_file
notes_of 0 'goes on in' first_file next_file f
notes_of 0 'goes on in' --quiet first_file f
for name in ends_at_gtid ends_at_map ends_at_statement; do
    case_of 0 - "changes: $name: the file ends within a transaction" $name
    notes_of 0 'the file ends' --quiet $name
done
notes_of 0 'the file ends' next_file statements f
notes_of 0 'logged as text' --start-position 4 --stop-position 4 statements
case_of 1 - 'payload at 256: the transaction is compressed: turn off binlog_transaction_compression' payload
case_of 1 - 'compressed at 256: the event is compressed: turn off log_bin_compress' compressed
case_of 1 - 'encrypted_events at 256: the events are encrypted: have the server read them' encrypted_events
printf '\xfdbin' >encrypted
case_of 1 - 'encrypted at 0: the file is encrypted: have the server read it' encrypted
echo text >text
case_of 1 - 'text at 0: this isn'"'"'t a binlog file' text
notes_of 1 'changes: 2 tables, as shop.items, shop.items1: the server logged no names' two_descriptions
# The rows of an excluded table aren't decoded, whatever is named beside.
case_of 1 - 'column 0 of shop.items can'"'"'t be read: unknown column type 140' unknown_type
lines_of 0 1 '"table":"items1"' '' --exclude-table shop.items unknown_type
lines_of 0 1 '"table":"items1"' '' --table 'shop.*' --exclude-table 'shop.item?' unknown_type
lines_of 0 1 'shop.items1' '' --text --database shop --exclude-table '*.items' unknown_type
lines_of 0 3 '           1            0            0  shop.items1' '' --count --exclude-table shop.items unknown_type
lines_of 0 0 - '' --exclude-database shop --table shop.items unknown_type

# An event with a faulty row is skipped from that row on, where such events are: each is told, with its table and the row's number.
fault="faulty at 392: row 2 of shop.t can't be read: "
lines_of 1 3 '"row":1' "changes: $fault" faulty
lines_of 1 4 '"after":{"id":10}' "changes: $fault" --skip-faulty faulty
lines_of 1 4 'faulty:392 shop.t - -> {id=9}' "changes: $fault" --text --skip-faulty faulty
lines_of 1 3 '           3            0            0  shop.t' "changes: $fault" --count faulty
lines_of 1 3 '           4            0            0  shop.t' "changes: $fault" --count --skip-faulty faulty
lines_of 1 4 '"after":{"id":10}' "changes: $fault" --skip-faulty --quiet faulty
lines_of 0 0 - - --skip-faulty --quiet --op d faulty
lines_of 1 37 '"pos":964' "changes: $fault" faulty f
lines_of 1 38 '"pos":964' "changes: $fault" --skip-faulty faulty f
lines_of 0 34 '"pos":964' '' --skip-faulty f
fault="faulty_document at 399: row 1 of shop.j can't be read: "
lines_of 1 2 '"after":{"doc":1}' "changes: $fault" faulty_document
lines_of 1 3 '"after":{"doc":1}' "changes: $fault" --skip-faulty faulty_document
lines_of 0 5 '' '' --text --skip-faulty faulty_document
lines_of 0 3 '           5            0            0  shop.j' '' --count --skip-faulty faulty_document
# Another error ends its file, and the next one is read.
lines_of 1 1 '"after":{"id":7}' 'unknown table 18' --skip-faulty unknown_table
lines_of 1 35 '"pos":964' 'unknown table 18' --skip-faulty unknown_table f

# The output waits for three seconds, and so what is told of progress comes.
python3 "$here/scripts/make_file.py" 2000 many single >/dev/null || exit 2
status=0
"$program" --progress many 2>err | { sleep 3; cat >out; }
grep -E '^many [0-9,]+ of [0-9,]+ bytes, [0-9]+ %, [1-9][0-9,]* rows/s$' err >line
judge 'progress of a file' 0 '"op":"c"' ''
[ -s line ] || take_back "progress of a file: $(cat err)"
"$program" --progress - <many 2>err | { sleep 3; cat >out; }
grep -E '^- [0-9,]+ bytes, [1-9][0-9,]* rows/s$' err >line
judge 'progress of standard input' 0 '"op":"c"' ''
[ -s line ] || take_back "progress of standard input: $(cat err)"
mkfifo pipe
cat many >pipe &
"$program" --progress pipe 2>err | { sleep 3; cat >out; }
grep -E '^pipe [0-9,]+ bytes, [1-9][0-9,]* rows/s$' err >line
judge 'progress of a pipe' 0 '"op":"c"' ''
[ -s line ] || take_back "progress of a pipe: $(cat err)"
"$program" --progress --quiet many 2>err | { sleep 3; cat >out; }
judge 'quiet progress' 0 '"op":"c"' -

# Of a pipe, the lines of the events that came are there while the next one is waited for: of all before the middle of an event. So is what their
# tables lack, a line for each.
"$program" --quiet f | sed 's/.*"pos":\([0-9]*\).*/\1/' >positions
middle=$(sed -n 20p positions)
wanted=$(awk -v middle="$middle" '$1 < middle' positions | wc -l)
for form in --quiet --text; do
    for input in - pipe; do
        { head -c $((middle + 10)) f; sleep 3; tail -c +$((middle + 11)) f; } >pipe &
        if [ $input = - ]; then "$program" $form - <pipe >out 2>err & else "$program" $form pipe >out 2>err & fi
        reader=$!
        sleep 1.5
        early=$(wc -l <out)
        tables=0
        [ $form = --quiet ] || tables=$(cut -d ' ' -f 2 out | sort -u | wc -l)
        told=$(grep -c '^changes: .*: the server logged no ' err)
        status=0
        wait $reader || status=$?
        judge "lines of a slow pipe, $form $input" 0 '' ''
        [ "$early" -eq "$wanted" ] || take_back "lines of a slow pipe, $form $input: $early of $wanted came before the rest of the file"
        [ "$told" -eq "$tables" ] || take_back "lines of a slow pipe, $form $input: $told of $tables tables were told before the rest of the file"
        [ "$(wc -l <out)" -eq 34 ] || take_back "lines of a slow pipe, $form $input: $(wc -l <out) in all"
    done
done

status=0
{ "$program" --quiet f f f f f f f f f 2>err; echo $? >status; } | head -n 1 >out
status=$(cat status)
judge 'a closed pipe' 0 '"row":0' -
# After an error of the output no other file is read.
status=0
"$program" f no/file >/dev/full 2>err || status=$?
! grep -q no/file err || status=99
: >out
judge 'a full disk before another file' 1 - "changes: the output can't be written"
status=0
"$program" f >/dev/full 2>err || status=$?
judge 'an output that is full' 1 '' "changes: the output can't be written"

# Whoever reads the numbers went away, or nothing can be said on standard error: the status is what it would be.
{ sleep 1; "$program" --count no/file 2>err; echo $? >status; } | true
status=$(cat status)
judge 'numbers into a closed pipe after an error' 1 '' 'changes: no/file: '
{ sleep 1; "$program" --count f 2>err; echo $? >status; } | true
status=$(cat status)
judge 'numbers into a closed pipe' 0 '' -
status=0
"$program" no/file >out 2>/dev/full || status=$?
judge 'an error that cannot be told' 1 - ''
status=0
"$program" --op x f >out 2>/dev/full || status=$?
judge 'wrong arguments that cannot be told' 2 - ''
status=0
"$program" --database $'\xff' f >out 2>/dev/full || status=$?
judge 'an argument that is not UTF-8, which cannot be told' 2 - ''

echo "$passed passed, $failed failed"
[ "$failed" -eq 0 ]
