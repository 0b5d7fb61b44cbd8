#!/usr/bin/env python3
"""Prints the program's six words, one a line, for a WRITE_ROWS_EVENT of COUNT rows.

usage: scripts/make_rows.py COLUMNS COUNT [full] [update]

With `full`, the table map event has signs, character sets, names and a key as optional metadata; else it has none. With `update` it is an
UPDATE_ROWS_EVENT, whose rows have the same values before and after.

COLUMNS are letters, one a column: b LONGLONG, i LONG, v VARCHAR(80), t DATETIME2(0), n NEWDECIMAL(12,2), y TINY, d DOUBLE, x BLOB with a
length in two bytes, e ENUM in one byte. `all` stands for bivvtnydxe. The values are the same for each run; about one in ten is NULL. N and I
are as n and i, T is TIMESTAMP2(6) and Y is YEAR, but no value of these is NULL.
"""
import sys


def numbers():
    """Numbers of 32 bits that look random, always the same."""
    state = 1
    while True:
        state = (state * 6364136223846793005 + 1442695040888963407) % 2**64
        yield state >> 32


def decimal(cents):
    """A number of cents as the packed form of NEWDECIMAL(12,2): groups of 1, 9 and 2 digits."""
    whole, part = divmod(abs(cents), 100)
    packed = bytearray(bytes([whole // 10**9]) + (whole % 10**9).to_bytes(4, "big") + bytes([part]))
    if cents < 0:
        packed = bytearray(255 - byte for byte in packed)
    packed[0] ^= 0x80
    return bytes(packed)


def datetime(random):
    """A DATETIME2(0)."""
    day = (next(random) % 9000 + 1000) * 13 + next(random) % 12 + 1
    packed = (day << 5 | next(random) % 28 + 1) << 17 | next(random) % 24 << 12 | next(random) % 60 << 6 | next(random) % 60
    return (packed + 0x8000000000).to_bytes(5, "big")


def text(random, most):
    """Up to so many bytes."""
    return bytes(next(random) % 256 for _ in range(next(random) % (most + 1)))


def short_text(random):
    value = text(random, 40)
    return bytes([len(value)]) + value


def long_text(random):
    value = text(random, 60)
    return len(value).to_bytes(2, "little") + value


# For each letter: the type's number, its metadata, and how a cell is made.
COLUMNS = {
    "b": (8, b"", lambda r: (next(r) << 32 | next(r)).to_bytes(8, "little")),
    "i": (3, b"", lambda r: next(r).to_bytes(4, "little")),
    "v": (15, b"\x50\x00", short_text),
    "t": (18, b"\x00", datetime),
    "n": (246, b"\x0c\x02", lambda r: decimal(next(r) * 251 - 2**39)),
    "N": (246, b"\x0c\x02", lambda r: decimal(next(r) * 251 - 2**39)),
    "I": (3, b"", lambda r: next(r).to_bytes(4, "little")),
    "T": (17, b"\x06", lambda r: (next(r) % 2**31).to_bytes(4, "big") + (next(r) % 10**6).to_bytes(3, "big")),
    "Y": (13, b"", lambda r: bytes([next(r) % 256])),
    "y": (1, b"", lambda r: bytes([next(r) % 256])),
    "d": (5, b"\x08", lambda r: (next(r) << 32 | next(r)).to_bytes(8, "little")),
    "x": (252, b"\x02", long_text),
    "e": (254, b"\xf7\x01", lambda r: bytes([next(r) % 9 + 1])),
}


def field(kind, value):
    """A field of optional metadata, whose value has fewer than 251 bytes."""
    return bytes([kind, len(value)]) + value


def optional_metadata(letters):
    """Signs (the first numeric column is unsigned), character sets (255, and 63 for a BLOB), names and a key of the first column."""
    numeric = sum(letter in "bniNIyd" for letter in letters)
    signs = bytes([0x80]) + bytes((numeric - 1) // 8) if numeric else b""
    group = [letter for letter in letters if letter in "vx"]
    charsets = b"\xfc\xff\x00" + b"".join(bytes([place, 63]) for place, letter in enumerate(group) if letter == "x")
    names = [b"column_%d" % number for number in range(len(letters))]
    return field(1, signs) + field(2, charsets) + field(4, b"".join(bytes([len(name)]) + name for name in names)) + field(8, b"\0")


def main():
    if len(sys.argv) < 3 or sys.argv[3:] not in ([], ["full"], ["update"], ["full", "update"]):
        sys.exit(__doc__)
    is_update = "update" in sys.argv[3:]
    letters = "bivvtnydxe" if sys.argv[1] == "all" else sys.argv[1]
    columns = [COLUMNS[letter] for letter in letters]
    bitmap_len = (len(columns) + 7) // 8
    ones = ((1 << len(columns)) - 1).to_bytes(bitmap_len, "little")
    metadata = b"".join(column[1] for column in columns)
    types = bytes(column[0] for column in columns)
    table = bytes(6) + b"\1\0" + b"\1d\0" + b"\1t\0" + bytes([len(columns)]) + types + bytes([len(metadata)]) + metadata + ones
    if "full" in sys.argv[3:]:
        table += optional_metadata(letters)
    rows = bytearray(bytes(6) + b"\1\0" + b"\2\0" + bytes([len(columns)]) + ones * (1 + is_update))
    random = numbers()
    for _ in range(int(sys.argv[2])):
        nulls, cells = 0, b""
        for place, letter in enumerate(letters):
            if next(random) % 10 == 0 and letter not in "NITY":
                nulls |= 1 << place
            else:
                cells += COLUMNS[letter][2](random)
        rows += (nulls.to_bytes(bitmap_len, "little") + cells) * (1 + is_update)
    print("8", "1F" if is_update else "1E", "10", "10", table.hex(), rows.hex(), sep="\n")


main()
