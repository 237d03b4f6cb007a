#!/usr/bin/env python3
"""Puts what a log of MariaDB says behind GTID events of MySQL's form, to try rows where there is no MySQL server.

Usage: examples/from_mariadb.py MARIADB_LOG FOLDER KEYSPACE/SHARD     writes FOLDER/KEYSPACE/SHARD.binlog

The log is one of a server with binlog_format=ROW and binlog_checksum=NONE, as mysqlbinlog --raw copies it. Statements,
table maps and rows are copied as they stand; rows events of version 1 get the two bytes by which version 2 says that
it has no extra part. Transactions are numbered from 1, and get the BEGIN that MariaDB's GTID event stands for.
"""
import os
import struct
import sys

sys.dont_write_bytecode = True
from make_sample import START, event, put_format_description, put_gtid, put_query, write

GTID = 162
STANDALONE = 1
COPIED = (2, 16, 19)
# rows events of version 1, and what they are in version 2
ROWS = {23: 30, 24: 31, 25: 32}
# stop, rotate, the format, and what MariaDB notes: the rows' statement, a checkpoint, a list of GTIDs
PASSED = (3, 4, 15, 160, 161, 163)


def events(data):
    """The time, the type and the body of each event."""
    at = 4
    while at < len(data):
        time, kind, _, length, _, _ = struct.unpack_from("<IBIIIH", data, at)
        yield time, kind, data[at + 19:at + length]
        at += length


def log_of(data):
    log = bytearray(b"\xfebin")
    put_format_description(log)
    event(log, START, 35, struct.pack("<Q", 0))
    number = 0
    for time, kind, body in events(data):
        if kind == 15 and body[-5] != 0:
            sys.exit("from_mariadb.py: the log has checksums; set binlog_checksum=NONE")
        if kind == GTID:
            number += 1
            put_gtid(log, number, time)
            if not body[12] & STANDALONE:
                put_query(log, b"", b"BEGIN", time)
        elif kind in COPIED:
            event(log, time, kind, body)
        elif kind in ROWS:
            event(log, time, ROWS[kind], body[:8] + struct.pack("<H", 2) + body[8:])
        elif kind not in PASSED:
            sys.exit(f"from_mariadb.py: an event of type {kind} can't be copied")
    return bytes(log), number


def main():
    if len(sys.argv) != 4 or sys.argv[3].count("/") != 1:
        sys.exit(__doc__)
    with open(sys.argv[1], "rb") as source:
        log, number = log_of(source.read())
    write(os.path.join(sys.argv[2], f"{sys.argv[3]}.binlog"), log)
    print(f"{number} transactions")


if __name__ == "__main__":
    main()
