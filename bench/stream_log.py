#!/usr/bin/env python3
"""Times vstreamd on a log of statements: seconds, MB/s and the peak memory, for logs of these sizes in MB.

Usage: bench/stream_log.py [SIZE ...]     (10 and 100 where none is named)

The program is built first, which proves it; the logs are made in a folder that is taken away at the end.
"""
import os
import struct
import subprocess
import sys
import tempfile
import time

TOP = os.path.dirname(os.path.dirname(os.path.abspath(__file__)))
CRATE = os.path.join(TOP, "crates", "vstreamd")
UUID = bytes(15) + b"\x01"
# a request for c/0 behind no transaction
REQUEST = bytes.fromhex("00000014 0a12 0a10 0a0163 120130 1a08") + b"MySQL56/"
TEXT = b"alter table customer comment = '" + b"x" * 160 + b"'"


def event(kind, body):
    return struct.pack("<IBIIIH", 1_700_000_000, kind, 1, 19 + len(body), 0, 0) + body


def make_log(path, size):
    """A log of at least this many bytes; answers how many statements it has."""
    head = struct.pack("<IIBHH", 0, 0, 4, 0, 0)
    query = event(2, head + b"vt_c" + b"\0" + TEXT)
    written = count = 0
    with open(path, "wb") as log:
        front = b"\xfebin" + event(15, struct.pack("<H50xI", 4, 0) + b"\x13\0" + bytes(4))
        written += log.write(front + event(35, bytes(8)))
        while written < size:
            count += 1
            gtid = event(33, b"\0" + UUID + struct.pack("<q", count))
            written += log.write(gtid + query)
    return count


def build():
    """Builds the program by a run on an empty folder, and answers where it stands."""
    with tempfile.TemporaryDirectory() as empty:
        subprocess.run(["rt", "run", "--", "stream", empty], cwd=CRATE, input=b"",
                       stdout=subprocess.DEVNULL, stderr=subprocess.DEVNULL)
    return os.path.join(CRATE, "out", "vstreamd")


def run_once(program, folder, output):
    start = time.monotonic()
    with open(output, "wb") as sink:
        child = subprocess.Popen([program, "stream", folder], stdin=subprocess.PIPE, stdout=sink)
        child.stdin.write(REQUEST)
        child.stdin.close()
        _, status, usage = os.wait4(child.pid, 0)
    return time.monotonic() - start, os.waitstatus_to_exitcode(status), usage.ru_maxrss


def main():
    if not all(word.isdigit() for word in sys.argv[1:]):
        sys.exit(__doc__)
    sizes = [int(word) for word in sys.argv[1:]] or [10, 100]
    program = build()
    for size in sizes:
        with tempfile.TemporaryDirectory() as folder:
            os.mkdir(os.path.join(folder, "c"))
            log = os.path.join(folder, "c", "0.binlog")
            count = make_log(log, size * 1_000_000)
            seconds, status, peak = run_once(program, folder, os.path.join(folder, "out"))
            megabytes = os.path.getsize(log) / 1e6
            print(f"{megabytes:.0f} MB, {count} statements: status {status}, {seconds:.2f} s, "
                  f"{megabytes / seconds:.1f} MB/s, peak {peak / 1000:.0f} MB, "
                  f"{os.path.getsize(os.path.join(folder, 'out'))} bytes written")


if __name__ == "__main__":
    main()
