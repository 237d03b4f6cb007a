#!/usr/bin/env python3
"""Writes the frame of a request for one shard to standard output.

Usage: examples/make_request.py KEYSPACE/SHARD POSITION     > request

The position is a set of GTIDs, as `MySQL56/` for none, or `current` for the log's end. The messages
are those of proto/vstream.proto.
"""
import signal
import struct
import sys


def varint(n):
    out = b""
    while n > 127:
        out += bytes([n & 127 | 128])
        n >>= 7
    return out + bytes([n])


def field(number, data):
    return varint(number * 8 + 2) + varint(len(data)) + data if data else b""


def main():
    # where the reader is gone, end without a trace
    signal.signal(signal.SIGPIPE, signal.SIG_DFL)
    if len(sys.argv) != 3 or sys.argv[1].count("/") != 1:
        sys.exit(__doc__)
    keyspace, shard = sys.argv[1].encode().split(b"/")
    entry = field(1, keyspace) + field(2, shard) + field(3, sys.argv[2].encode())
    message = field(1, field(1, entry))
    sys.stdout.buffer.write(struct.pack(">I", len(message)) + message)


main()
