#!/usr/bin/env python3
"""Writes a log by hand: the sample beside this script, or a log of statements of your own.

Usage: examples/make_sample.py                                     the sample shard commerce/0
       examples/make_sample.py FOLDER KEYSPACE/SHARD < statements   FOLDER/KEYSPACE/SHARD.binlog

The file is a MySQL binlog of version 4, written with binlog_checksum=NONE: the magic number, a format
description as MySQL 8.0 writes it, an empty PREVIOUS_GTIDS event, and a GTID and a QUERY event for each
statement; `mysqlbinlog` prints it. Statements stand on lines of their own, and their schema is that of the
keyspace (`vt_` and its name); the GTIDs go on from 1, and the times from 1,700,000,001. The sample has
transactions that change rows, too: a table map and rows events between a BEGIN and an XID event.
"""
import os
import struct
import sys
import uuid

SERVER = uuid.UUID("3e11fa47-71ca-11e1-9e33-c80aa9429562").bytes
START = 1_700_000_000
# How long the fixed front of the body of each type of event is, from type 1 on.
POST_HEADS = bytes.fromhex(
    "000d0008000000000400040000006200041a08000000080808020000000a0a0a2a2a001234000a2800"
)


def event(log, time, kind, body):
    """Appends an event; its head says where it ends."""
    length = 19 + len(body)
    log += struct.pack("<IBIIIH", time, kind, 1, length, len(log) + length, 0) + body


def put_format_description(log):
    version = struct.pack("<H50sI", 4, b"8.0.36", START)
    event(log, START, 15, version + bytes([19]) + POST_HEADS + bytes([0]) + bytes(4))


def put_gtid(log, number, time):
    order = struct.pack("<Bqq", 2, number - 1, number)
    event(log, time, 33, bytes([1]) + SERVER + struct.pack("<q", number) + order)


def put_query(log, schema, text, time):
    head = struct.pack("<IIBHH", 0, 0, len(schema), 0, 0)
    event(log, time, 2, head + schema + bytes([0]) + text)


CUSTOMER = struct.pack("<IH", 108, 0)
WRITE, UPDATE, DELETE = 30, 31, 32


def customer(id, name):
    """An image of a row of the table customer: which columns are NULL, and the values of the others."""
    if name is None:
        return bytes([0xfe]) + struct.pack("<q", id)
    return bytes([0xfc]) + struct.pack("<q", id) + bytes([len(name)]) + name


def put_customer_map(log, time):
    names = bytes([11]) + b"vt_commerce\0" + bytes([8]) + b"customer\0"
    # bigint, and varchar of at most 160 bytes, which may be NULL
    event(log, time, 19, CUSTOMER + struct.pack("<H", 1) + names + bytes([2, 8, 15, 2, 160, 0, 2]))


def put_changes(log, changes, time):
    """A transaction that changes rows of the table customer, each change a statement of its own."""
    put_query(log, b"vt_commerce", b"BEGIN", time)
    for kind, images in changes:
        present = bytes([0xff] * (2 if kind == UPDATE else 1))
        put_customer_map(log, time)
        event(log, time, kind, CUSTOMER + struct.pack("<HH", 1, 2) + bytes([2]) + present + b"".join(images))
    event(log, time, 16, struct.pack("<Q", time))


def log_of(transactions):
    """The bytes of a log of transactions: a statement with its schema, or changes of rows."""
    log = bytearray(b"\xfebin")
    put_format_description(log)
    event(log, START, 35, struct.pack("<Q", 0))
    for number, transaction in enumerate(transactions, 1):
        put_gtid(log, number, START + number)
        if isinstance(transaction, list):
            put_changes(log, transaction, START + number)
        else:
            put_query(log, *transaction, START + number)
    return bytes(log)


SAMPLE = [
    (b"vt_commerce", b"create table customer (id bigint primary key, name varchar(40))"),
    [(WRITE, [customer(1, b"Ada"), customer(2, None)])],
    [(UPDATE, [customer(2, None), customer(2, b"Grace")]), (DELETE, [customer(1, b"Ada")])],
    (b"mysql", b"create table audit (id int)"),
    (b"vt_commerce", b"/* by hand */ drop table customer"),
]


def write(path, data):
    os.makedirs(os.path.dirname(path), exist_ok=True)
    with open(path, "wb") as out:
        out.write(data)


def main():
    if len(sys.argv) == 1:
        front = os.path.join(os.path.dirname(os.path.abspath(__file__)), "sample", "commerce", "0")
        write(f"{front}.binlog", log_of(SAMPLE))
        write(f"{front}.schema", b"table customer\ncolumn id bigint\ncolumn name varchar(40)\nkey id\n")
    elif len(sys.argv) == 3 and sys.argv[2].count("/") == 1:
        schema = b"vt_" + sys.argv[2].split("/")[0].encode()
        lines = sys.stdin.buffer.read().splitlines()
        path = os.path.join(sys.argv[1], f"{sys.argv[2]}.binlog")
        write(path, log_of([(schema, line) for line in lines if line]))
    else:
        sys.exit(__doc__)


if __name__ == "__main__":
    main()
