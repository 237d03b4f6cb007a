#!/usr/bin/python3
"""A client of vstreamd over the stock Protocol Buffers library (Debian: python3-protobuf; with protobuf-compiler it is
read through protoc). Debian's library belongs to Debian's Python, whichever python3 is the first on the path.

Usage: examples/follow.py VECTOR < stream                                   prints the changes of a stream
       examples/follow.py VECTOR --request [KEYSPACE/SHARD POSITION]        writes the request that goes on

Each change is one line of JSON on standard output: a statement (`ddl`, or `other`, whose text isn't sent), or a
row with what it was before and after, by the columns of the table. Cells are text as vstreamd writes it, null,
or {"base64": ..} where the bytes aren't UTF-8.

The file VECTOR has the position vector of the last whole frame. It is replaced by a rename, after the frame's
changes were printed: where this program is killed between the two, the next run prints that frame again, and no
frame is ever left out. A transaction of over 8 MiB is a frame of several messages, and is printed once the last one has
come. The request is that of the vector, or where there is no such file yet of the shard and position that are given, as
`commerce/0 MySQL56/`.

--bytes: a statement that isn't UTF-8 makes a frame that the library refuses, so the client stops before it. With
this flag statements are read as bytes.

Exit status: 0 at the end of the stream; 1 where its last frame is cut, or one can't be read, and nothing of that
frame was printed; 2 for other words; 3 where the library is missing.
"""
import argparse
import base64
import json
import os
import re
import shutil
import signal
import subprocess
import sys
import tempfile

try:
    from google.protobuf import descriptor_pb2, descriptor_pool, message, message_factory, text_format
except ImportError:
    print(f"follow.py: {sys.executable} has no protobuf library: apt-get install python3-protobuf, or run this file by"
          " a Python that has one", file=sys.stderr)
    sys.exit(3)

PROTO = os.path.join(os.path.dirname(os.path.dirname(os.path.abspath(__file__))), "proto", "vstream.proto")
LONGEST = 16 << 20
# Events that change nothing by themselves.
SILENT = {"BEGIN", "COMMIT", "HEARTBEAT", "JOURNAL", "COPY_COMPLETED"}


class BadFrame(Exception):
    pass


def compiled():
    """What protoc makes of proto/vstream.proto."""
    with tempfile.TemporaryDirectory() as folder:
        out = os.path.join(folder, "out")
        words = ["protoc", f"--descriptor_set_out={out}", f"--proto_path={os.path.dirname(PROTO)}", PROTO]
        subprocess.run(words, check=True)
        with open(out, "rb") as made:
            return descriptor_pb2.FileDescriptorSet.FromString(made.read()).file[0]


def parsed():
    """The same where there is no protoc: that file has only messages, enums, and fields of one line."""
    with open(PROTO, encoding="utf-8") as source:
        text = re.sub(r"//.*", "", source.read())
    package = re.search(r"package ([\w.]+);", text)[1]
    file = descriptor_pb2.FileDescriptorProto(name="vstream.proto", package=package, syntax="proto3")
    types = {name: kind for kind, name in re.findall(r"(message|enum) (\w+) \{", text)}
    for kind, name, body in re.findall(r"(message|enum) (\w+) \{(.*?)\}", text, re.S):
        if kind == "enum":
            enum = file.enum_type.add(name=name)
            for value, number in re.findall(r"(\w+) = (\d+);", body):
                enum.value.add(name=value, number=int(number))
            continue
        shape = file.message_type.add(name=name)
        for many, of, field, number in re.findall(r"(repeated )?(\w+) (\w+) = (\d+);", body):
            at = shape.field.add(name=field, number=int(number), label=3 if many else 1)
            at.type = at.Type.Value("TYPE_" + types.get(of, of).upper())
            if of in types:
                at.type_name = f".{package}.{of}"
    return file


class Messages:
    """The classes of proto/vstream.proto, made while this runs."""

    def __init__(self, statements_are_bytes=False):
        file = compiled() if shutil.which("protoc") else parsed()
        if statements_are_bytes:
            event = next(it for it in file.message_type if it.name == "VEvent")
            field = next(it for it in event.field if it.name == "statement")
            field.type = field.TYPE_BYTES
        self.pool = descriptor_pool.DescriptorPool()
        self.pool.AddSerializedFile(file.SerializeToString())
        self.package = file.package
        self.event_types = self.pool.FindEnumTypeByName(f"{file.package}.VEventType")

    def class_of(self, name):
        shape = self.pool.FindMessageTypeByName(f"{self.package}.{name}")
        if hasattr(message_factory, "GetMessageClass"):
            return message_factory.GetMessageClass(shape)
        return message_factory.MessageFactory(self.pool).GetPrototype(shape)

    def name_of(self, event):
        value = self.event_types.values_by_number.get(event.type)
        return value.name if value else str(event.type)


def frames(source):
    """The messages of a stream's frames, up to its end or the first frame that is none."""
    while True:
        head = source.read(4)
        if not head:
            return
        length = int.from_bytes(head, "big")
        if len(head) == 4 and length > LONGEST:
            raise BadFrame("it is too long")
        body = source.read(length) if len(head) == 4 else b""
        if len(head) < 4 or len(body) < length:
            raise BadFrame(f"the stream ends inside it, behind {len(head) + len(body)} bytes of it")
        yield body


def as_text(data):
    """Text as it is; bytes as text where they are UTF-8."""
    if isinstance(data, str):
        return data
    try:
        return data.decode()
    except UnicodeDecodeError:
        return {"base64": base64.b64encode(data).decode()}


def image(columns, row):
    """A row as an object by its columns."""
    if len(row.lengths) != len(columns) or sum(max(it, 0) for it in row.lengths) != len(row.values):
        raise BadFrame("a row doesn't fit the columns of its table")
    cells, at = {}, 0
    for column, length in zip(columns, row.lengths):
        cells[column] = None if length < 0 else as_text(row.values[at:at + length])
        at += max(length, 0)
    return cells


class Client:
    def __init__(self, messages, path):
        self.messages = messages
        self.response = messages.class_of("VStreamResponse")
        self.path = path
        # by keyspace, shard and table, the columns of the last FIELD event
        self.columns = {}
        # the changes of a frame of several messages, until its vector comes
        self.lines = []

    def rows(self, event, head):
        table = event.row_event.table_name
        columns = self.columns.get((event.keyspace, event.shard, table))
        if columns is None:
            raise BadFrame(f"no FIELD event came before a row of {table}")
        for change in event.row_event.row_changes:
            before, after = (
                image(columns, getattr(change, side)) if change.HasField(side) else None for side in ("before", "after")
            )
            yield {"change": "row", **head, "table": table, "before": before, "after": after}

    def changes(self, event):
        """What an event changes, as objects."""
        kind = self.messages.name_of(event)
        head = {"keyspace": event.keyspace, "shard": event.shard, "time": event.timestamp}
        if kind == "DDL":
            yield {"change": "ddl", **head, "statement": as_text(event.statement)}
        elif kind == "OTHER":
            yield {"change": "other", **head}
        elif kind == "FIELD":
            key = (event.keyspace, event.shard, event.field_event.table_name)
            self.columns[key] = [it.name for it in event.field_event.fields]
        elif kind == "ROW":
            yield from self.rows(event, head)
        elif kind != "VGTID" and kind not in SILENT:
            raise BadFrame(f"this client doesn't know events of type {kind}")

    def take(self, body):
        """Takes a message of a frame; behind the last one prints the frame's changes, all or none, and keeps its vector."""
        try:
            events = self.response.FromString(body).events
        except (message.DecodeError, UnicodeDecodeError) as error:
            raise BadFrame("the library refuses it; if a statement isn't UTF-8, --bytes reads it") from error
        self.lines += [json.dumps(it, ensure_ascii=False) + "\n" for event in events for it in self.changes(event)]
        vectors = [event.vgtid for event in events if self.messages.name_of(event) == "VGTID"]
        if vectors:
            sys.stdout.write("".join(self.lines))
            sys.stdout.flush()
            self.lines = []
            self.keep(vectors[-1])

    def keep(self, vector):
        part = f"{self.path}.part"
        with open(part, "w", encoding="utf-8") as out:
            out.write(text_format.MessageToString(vector))
        os.replace(part, self.path)


def write_request(messages, path, start):
    request = messages.class_of("VStreamRequest")()
    if os.path.exists(path):
        with open(path, encoding="utf-8") as kept:
            try:
                text_format.Parse(kept.read(), request.vgtid)
            except text_format.ParseError as error:
                print(f"follow.py: {path} has no vector: {error}", file=sys.stderr)
                return 2
    elif len(start) == 2 and start[0].count("/") == 1:
        keyspace, shard = start[0].split("/")
        request.vgtid.shard_gtids.add(keyspace=keyspace, shard=shard, gtid=start[1])
    else:
        print(f"follow.py: there is no file {path} yet: give KEYSPACE/SHARD and a position", file=sys.stderr)
        return 2
    data = request.SerializeToString()
    sys.stdout.buffer.write(len(data).to_bytes(4, "big") + data)
    return 0


def follow(messages, path):
    client, number = Client(messages, path), 1
    try:
        for body in frames(sys.stdin.buffer):
            client.take(body)
            number += 1
        if client.lines:
            raise BadFrame("the stream ends inside a transaction of several messages")
    except BadFrame as why:
        print(f"follow.py: frame {number}: {why}", file=sys.stderr)
        return 1
    return 0


def main():
    # where the reader is gone, end without a trace
    signal.signal(signal.SIGPIPE, signal.SIG_DFL)
    words = argparse.ArgumentParser(description=__doc__, formatter_class=argparse.RawDescriptionHelpFormatter)
    words.add_argument("vector")
    words.add_argument("--request", nargs="*")
    words.add_argument("--bytes", action="store_true")
    given = words.parse_args()
    sys.stdout.reconfigure(encoding="utf-8")
    messages = Messages(given.bytes)
    if given.request is not None:
        return write_request(messages, given.vector, given.request)
    return follow(messages, given.vector)


if __name__ == "__main__":
    sys.exit(main())
