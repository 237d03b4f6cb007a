#!/usr/bin/python3
"""Streams a table with a column of each kind, and reads the stream by the stock Protocol Buffers library (Debian:
python3-protobuf): each cell must be the text of the value that was put into the log, and each column of its type.

Usage: examples/kinds.py [PROGRAM]     (crates/vstreamd/out/vstreamd, which examples/run builds)

Prints a line for each row. Status 0 where all are the same, 1 where not, 3 where the library is missing. Where the
program isn't built it says so, and nothing is tried.
"""
import os
import struct
import subprocess
import sys
import tempfile

from follow import Messages, frames
from make_sample import event, put_format_description, put_gtid, put_query, START

HERE = os.path.dirname(os.path.abspath(__file__))
PROGRAM = os.path.join(HERE, "..", "crates", "vstreamd", "out", "vstreamd")
TABLE_NUMBER = 41


# What follows writes the bytes of a value as MySQL does (docs/FORMATS.md, "Values of columns").
def whole(size):
    return lambda value: (value & (256**size - 1)).to_bytes(size, "little")


def date(text):
    year, month, day = map(int, text.split("-"))
    return (year << 9 | month << 5 | day).to_bytes(3, "little")


def fraction(digits):
    even = digits + "0" * (len(digits) % 2)
    return int(even).to_bytes(len(even) // 2, "big") if even else b""


def timestamp(text):
    seconds, _, digits = text.partition(".")
    return int(seconds).to_bytes(4, "big") + fraction(digits)


def date_time(text):
    day_text, _, time_text = text.partition(" ")
    year, month, day = map(int, day_text.split("-"))
    clock, _, digits = time_text.partition(".")
    hour, minute, second = map(int, clock.split(":"))
    number = (year * 13 + month) << 22 | day << 17 | hour << 12 | minute << 6 | second
    return (1 << 39 | number).to_bytes(5, "big") + fraction(digits)


def decimal(precision, scale):
    sizes = [0, 1, 1, 2, 2, 3, 3, 4, 4, 4]

    def group(digits):
        return int(digits).to_bytes(sizes[len(digits)], "big") if digits else b""

    def bytes_of(text):
        front, _, behind = text.lstrip("-").partition(".")
        front, behind = front.zfill(precision - scale)[-(precision - scale) :] if precision > scale else "", behind
        first = len(front) % 9
        groups = [front[:first]] + [front[at : at + 9] for at in range(first, len(front), 9)]
        groups += [behind[at : at + 9] for at in range(0, len(behind), 9)]
        data = bytearray(b"".join(map(group, groups)))
        if text.startswith("-"):
            data = bytearray(it ^ 0xFF for it in data)
        data[0] ^= 0x80
        return bytes(data)

    return bytes_of


def behind_length(size):
    return lambda value: len(value).to_bytes(size, "little") + value


def short(value):
    """A fixed text leaves its filling out."""
    return behind_length(1)(value.rstrip(b"\0"))


# Of each column its kind in a schema text, its type in the log with the metadata, its type in a FIELD event, what
# writes its values, and one value a row. None is NULL. A value that is no text is told as its decimal digits.
COLUMNS = [
    ("tinyint", 1, "", "INT8", whole(1), [-128, 127, None]),
    ("tinyint unsigned", 1, "", "UINT8", whole(1), [0, 255, None]),
    ("smallint", 2, "", "INT16", whole(2), [-32768, 32767, -1]),
    ("smallint unsigned", 2, "", "UINT16", whole(2), [0, 65535, None]),
    ("mediumint", 9, "", "INT24", whole(3), [-8388608, 8388607, -1]),
    ("mediumint unsigned", 9, "", "UINT24", whole(3), [0, 16777215, None]),
    ("int", 3, "", "INT32", whole(4), [-2147483648, 2147483647, -1]),
    ("int unsigned", 3, "", "UINT32", whole(4), [0, 4294967295, None]),
    ("bigint", 8, "", "INT64", whole(8), [-(2**63), 2**63 - 1, -1]),
    ("bigint unsigned", 8, "", "UINT64", whole(8), [0, 2**64 - 1, None]),
    ("date", 10, "", "DATE", date, ["0000-00-00", "2024-02-29", "9999-12-31"]),
    ("varchar(20)", 15, "1400", "VARCHAR", behind_length(1), [b"", "Zoë".encode(), None]),
    ("varchar(300)", 15, "2c01", "VARCHAR", behind_length(2), [b"", b"y" * 300, None]),
    ("varbinary(20)", 15, "1400", "VARBINARY", behind_length(1), [b"\0", b"\xff\xfe", None]),
    ("timestamp", 17, "00", "TIMESTAMP", timestamp, ["0", "1700000000", "4294967295"]),
    ("timestamp(3)", 17, "03", "TIMESTAMP", timestamp, ["0.000", "1700000000.125", None]),
    ("datetime", 18, "00", "DATETIME", date_time, ["0000-00-00 00:00:00", "2024-02-29 12:34:56", None]),
    ("datetime(6)", 18, "06", "DATETIME", date_time, ["2024-02-29 12:34:56.000001", "9999-12-31 23:59:59.999999", None]),
    ("decimal(9,2)", 246, "0902", "DECIMAL", decimal(9, 2), ["-1234567.89", "0.00", None]),
    ("decimal(20,0)", 246, "1400", "DECIMAL", decimal(20, 0), ["-99999999999999999999", "7", None]),
    ("decimal(30,30)", 246, "1e1e", "DECIMAL", decimal(30, 30), ["0." + "0" * 29 + "1", "-0." + "9" * 30, None]),
    ("text", 252, "02", "TEXT", behind_length(2), [b"", "naïve".encode(), None]),
    ("blob", 252, "04", "BLOB", behind_length(4), [b"\0\1", bytes(range(256)), None]),
    ("char(3)", 254, "fe03", "CHAR", behind_length(1), [b"", b"abc", None]),
    ("binary(4)", 254, "fe04", "BINARY", short, [b"\1\2\0\0", b"\1\2\3\4", None]),
]


def bits(flags):
    number = sum(1 << at for at, flag in enumerate(flags) if flag)
    return number.to_bytes((len(flags) + 7) // 8, "little")


def put_rows(log, time):
    meta = b"".join(bytes.fromhex(column[2]) for column in COLUMNS)
    count, number = bytes([len(COLUMNS)]), struct.pack("<IH", TABLE_NUMBER, 0)
    names = bytes([8]) + b"vt_kinds\0" + bytes([4]) + b"each\0"
    types = bytes(column[1] for column in COLUMNS)
    map_body = number + struct.pack("<H", 1) + names + count + types + bytes([len(meta)]) + meta
    event(log, time, 19, map_body + bits([True] * len(COLUMNS)))
    rows = b""
    for row in range(3):
        values = [column[5][row] for column in COLUMNS]
        rows += bits([value is None for value in values])
        rows += b"".join(column[4](value) for column, value in zip(COLUMNS, values) if value is not None)
    event(log, time, 30, number + struct.pack("<HH", 1, 2) + count + bits([True] * len(COLUMNS)) + rows)


def write_folder(folder):
    log = bytearray(b"\xfebin")
    put_format_description(log)
    event(log, START, 35, struct.pack("<Q", 0))
    put_gtid(log, 1, START)
    put_query(log, b"vt_kinds", b"BEGIN", START)
    put_rows(log, START)
    event(log, START, 16, struct.pack("<Q", 1))
    os.makedirs(os.path.join(folder, "kinds"))
    with open(os.path.join(folder, "kinds", "0.binlog"), "wb") as out:
        out.write(log)
    with open(os.path.join(folder, "kinds", "0.schema"), "w", encoding="utf-8") as out:
        out.write("table each\n" + "".join(f"column c{at} {it[0]}\n" for at, it in enumerate(COLUMNS)) + "key c8\n")


def request(messages):
    asked = messages.class_of("VStreamRequest")()
    asked.vgtid.shard_gtids.add(keyspace="kinds", shard="0", gtid="MySQL56/")
    data = asked.SerializeToString()
    return len(data).to_bytes(4, "big") + data


def wanted(row):
    cells = {}
    for at, column in enumerate(COLUMNS):
        value = column[5][row]
        cells[f"c{at}"] = str(value).encode() if isinstance(value, (int, str)) else value
    return cells


def cells_of(row):
    """The cells as bytes, by the names of the columns."""
    cells, at = {}, 0
    for number, length in enumerate(row.lengths):
        cells[f"c{number}"] = None if length < 0 else row.values[at : at + length]
        at += max(length, 0)
    return cells


def differences(events):
    """Lines that say what isn't as it was put into the log."""
    field = next(it.field_event for it in events if it.HasField("field_event"))
    for at, (column, told) in enumerate(zip(COLUMNS, field.fields)):
        kind = told.DESCRIPTOR.fields_by_name["type"].enum_type
        name = kind.values_by_number[told.type].name if kind else str(told.type)
        if (told.name, name) != (f"c{at}", column[3]):
            yield f"column c{at} ({column[0]}) is told as {told.name} {name}"
    changes = [change for it in events for change in it.row_event.row_changes]
    if len(field.fields) != len(COLUMNS) or len(changes) != 3:
        yield f"{len(field.fields)} columns and {len(changes)} rows were told"
    for number, change in enumerate(changes):
        got, want = cells_of(change.after), wanted(number)
        print(f"row {number}: {sum(got.get(name) == cell for name, cell in want.items())} of {len(want)} cells are the same")
        for name in want:
            if got.get(name) != want[name]:
                yield f"row {number}, {name} ({COLUMNS[int(name[1:])][0]}): {got.get(name)} is told, {want[name]} was put"


def main():
    program = sys.argv[1] if len(sys.argv) > 1 else PROGRAM
    if not os.access(program, os.X_OK):
        print("kinds.py: not tried, for want of the built program")
        return 0
    messages = Messages()
    with tempfile.TemporaryDirectory() as folder:
        write_folder(folder)
        ran = subprocess.run([os.path.abspath(program), "stream", folder], input=request(messages), stdout=subprocess.PIPE)
        with open(os.path.join(folder, "stream"), "wb+") as stream:
            stream.write(ran.stdout)
            stream.seek(0)
            bodies = list(frames(stream))
    response = messages.class_of("VStreamResponse")
    events = [it for body in bodies for it in response.FromString(body).events]
    wrong = list(differences(events)) if ran.returncode == 0 else [f"the program ended with {ran.returncode}"]
    print("\n".join(wrong) if wrong else f"{len(COLUMNS)} kinds of columns, each told as it was put into the log")
    return 1 if wrong else 0


if __name__ == "__main__":
    sys.exit(main())
