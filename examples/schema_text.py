#!/usr/bin/env python3
"""Makes a shard's schema text (docs/FORMATS.md, "Schema texts") from what MySQL says of its tables.

Usage: examples/schema_text.py --query vt_commerce | mysql -B -N | examples/schema_text.py > commerce/0.schema
       mysql -B -N -e "show columns from vt_commerce.customer" | examples/schema_text.py --table customer

--query prints a query of the tables of a MySQL schema. Its answer is read on standard input: a line for each column,
with tabs between the table, the column, its type, its key, and two words that may be left out: the bytes of a text
column, else its characters times those of --character-bytes (4, utf8mb4's, where none is given); and the place of the
column in the primary key, else the key is the PRI columns in the order of the table.

--skip NAME: the rows of this table are passed over; its columns aren't looked at. May be given more than once.

A column of a type that this release doesn't read is named on standard error with its table, nothing is printed, and
the exit status is 1: skip that table. So too where no column comes, as when `mysql` fails. A primary key that a schema text can't have (of a decimal, text or blob) is left
out, which is told too.
"""
import argparse
import re
import signal
import sys

INTEGERS = ("tinyint", "smallint", "mediumint", "int", "bigint")
# What one kind of the schema text is in MySQL.
SAME = {
    "text": ("tinytext", "text", "mediumtext", "longtext"),
    "blob": ("tinyblob", "blob", "mediumblob", "longblob"),
}
LONGEST = {"varchar": 65_535, "varbinary": 65_535, "char": 255, "binary": 255}
UNKEYED = ("decimal", "text", "blob")
QUERY = """select c.table_name, c.column_name, c.column_type, c.column_key, c.character_octet_length, s.seq_in_index
from information_schema.columns c
join information_schema.tables t on t.table_schema = c.table_schema and t.table_name = c.table_name
    and t.table_type = 'BASE TABLE'
left join information_schema.statistics s on s.table_schema = c.table_schema and s.table_name = c.table_name
    and s.column_name = c.column_name and s.index_name = 'PRIMARY'
where c.table_schema = '{}' order by c.table_name, c.ordinal_position;"""
ESCAPES = {"\\t": "\t", "\\n": "\n", "\\0": "\0", "\\\\": "\\"}


class Unreadable(Exception):
    pass


def kind_of(said, octets, character_bytes):
    """The kind of a column of MySQL's type `said`."""
    word, number, rest = re.fullmatch(r"(\w+)(?:\(([^)]*)\))?(.*)", said.lower(), re.S).groups()
    if word in INTEGERS:
        return f"{word} unsigned" if "unsigned" in rest or "zerofill" in rest else word
    for kind, words in SAME.items():
        if word in words:
            return kind
    if word == "date":
        return word
    if word in ("timestamp", "datetime"):
        return f"{word}({number})" if number else word
    if word == "decimal":
        return f"{word}({number})"
    if word in LONGEST:
        length = int(number or 1)
        if word in ("varchar", "char"):
            length = octets if octets is not None else length * character_bytes
        if length > LONGEST[word]:
            raise Unreadable(f"{said} takes {length} bytes, over {LONGEST[word]}")
        return f"{word}({length})"
    raise Unreadable(f"{said} isn't read by this release")


def check_name(what, name):
    if not 1 <= len(name.encode()) <= 64 or " " in name or "\n" in name:
        raise Unreadable(f"the name of {what} {name!r} can't stand in a schema text")


def fields_of(line):
    """The words of a line of `mysql -B`; NULL is none."""
    words = [re.sub(r"\\[tn0\\]", lambda it: ESCAPES[it[0]], it) for it in line.rstrip("\n").split("\t")]
    return [None if it == "NULL" else it for it in words]


def read_columns(lines, table):
    """The columns of each table, in order: name, type, whether it is of the primary key, octets, place in the key."""
    tables = {}
    for number, line in enumerate(lines, 1):
        words = fields_of(line)
        if table is not None:
            # SHOW COLUMNS: Field, Type, Null, Key, Default, Extra
            words = [table, words[0], words[1], words[3]] if len(words) == 6 else []
        if not 4 <= len(words) <= 6:
            sys.exit(f"schema_text.py: line {number} doesn't have the words that are wanted")
        words += [None] * (6 - len(words))
        name, column, said, key, octets, place = words
        tables.setdefault(name, []).append((column, said, key == "PRI", octets and int(octets), place and int(place)))
    return tables


def key_of(columns):
    """The names of the primary key, by their places where those are known."""
    placed = sorted((place, column) for column, *_, place in columns if place)
    return [column for _, column in placed] or [column for column, _, is_key, *_ in columns if is_key]


def table_lines(name, columns, character_bytes):
    """The lines of a table; Unreadable with everything that can't stand there."""
    faults, kinds = [], {}
    for column, said, _, octets, _ in columns:
        try:
            check_name(f"{name}'s column", column)
            kinds[column] = kind_of(said, octets, character_bytes)
        except Unreadable as why:
            faults.append(f"{name}.{column}: {why}; --skip {name} passes its rows over")
    if faults:
        raise Unreadable("\n".join(faults))
    lines = [f"table {name}", *(f"column {column} {kind}" for column, kind in kinds.items())]
    key = key_of(columns)
    unkeyed = [it for it in key if kinds[it].startswith(UNKEYED)]
    if unkeyed:
        print(f"schema_text.py: {name} has no key line, since {unkeyed[0]} can't be in one", file=sys.stderr)
    elif key:
        lines.append(" ".join(["key", *key]))
    return lines


def main():
    # where the reader is gone, end without a trace
    signal.signal(signal.SIGPIPE, signal.SIG_DFL)
    words = argparse.ArgumentParser(description=__doc__, formatter_class=argparse.RawDescriptionHelpFormatter)
    words.add_argument("--query", metavar="SCHEMA")
    words.add_argument("--table")
    words.add_argument("--skip", action="append", default=[])
    words.add_argument("--character-bytes", type=int, choices=(1, 2, 3, 4), default=4)
    given = words.parse_args()
    if given.query is not None:
        print(QUERY.format(given.query.replace("'", "''")))
        return 0
    sys.stdin.reconfigure(encoding="utf-8", newline="\n")
    sys.stdout.reconfigure(encoding="utf-8")
    lines, faults = [], []
    tables = read_columns(sys.stdin, given.table)
    if not tables:
        sys.exit("schema_text.py: no column came on standard input")
    for name, columns in tables.items():
        if name in given.skip:
            continue
        try:
            check_name("the table", name)
            lines += table_lines(name, columns, given.character_bytes)
        except Unreadable as why:
            faults.append(str(why))
    for name in dict.fromkeys(given.skip):
        try:
            check_name("the table", name)
        except Unreadable as why:
            faults.append(str(why))
        lines.append(f"skip {name}")
    if faults:
        print("\n".join(faults), file=sys.stderr)
        return 1
    print("\n".join(lines))
    return 0


if __name__ == "__main__":
    sys.exit(main())
