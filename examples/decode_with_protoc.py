#!/usr/bin/env python3
"""Reads a stream of vstreamd with the stock Protocol Buffers library, by its program protoc.

Usage: examples/decode_with_protoc.py [STREAM]     (the two frames that the run of vstreamd wants)

Each frame is decoded by proto/vstream.proto and printed, then encoded again by protoc: the bytes must be
those of the frame. Where no protoc is on the path this says so, and nothing is read.
"""
import os
import shutil
import signal
import subprocess
import sys

TOP = os.path.dirname(os.path.dirname(os.path.abspath(__file__)))
STREAM = os.path.join(TOP, "crates", "vstreamd", "stdout")
MESSAGE = "pulyandam.vstream.VStreamResponse"


def protoc(what, data):
    words = ["protoc", f"--{what}={MESSAGE}", f"--proto_path={TOP}/proto", "vstream.proto"]
    return subprocess.run(words, input=data, stdout=subprocess.PIPE, check=True).stdout


def frames(data):
    """The messages of the frames, and the bytes behind the last whole one."""
    messages = []
    while len(data) >= 4:
        end = 4 + int.from_bytes(data[:4], "big")
        if len(data) < end:
            break
        messages.append(data[4:end])
        data = data[end:]
    return messages, data


def main():
    # where the reader is gone, end without a trace
    signal.signal(signal.SIGPIPE, signal.SIG_DFL)
    if shutil.which("protoc") is None:
        print("skipped: no protoc is on the path")
        return 0
    with open(sys.argv[1] if len(sys.argv) > 1 else STREAM, "rb") as stream:
        messages, rest = frames(stream.read())
    for number, message in enumerate(messages, 1):
        text = protoc("decode", message)
        print(f"#{number}\n{text.decode()}", end="")
        if protoc("encode", text) != message:
            print(f"frame {number}: protoc writes other bytes", file=sys.stderr)
            return 1
    if rest:
        print(f"{len(rest)} bytes are no frame", file=sys.stderr)
        return 1
    print(f"{len(messages)} frames, and protoc writes each with the same bytes")
    return 0


if __name__ == "__main__":
    sys.exit(main())
