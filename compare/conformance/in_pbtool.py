#!/usr/bin/env python3
"""What protobuf's conformance suite tests of `pbtool`, in binary form and as JSON: in_pbtool.py SET, in place of crates/conformance (README.md beside
this). Each message is read by `canon`, `json` or `from-json`, from a file; PBTOOL names the program, else it is the one at the top."""
import os
import struct
import subprocess
import sys
import tempfile

TOP = os.path.dirname(os.path.dirname(os.path.dirname(os.path.abspath(__file__))))
TOOL = os.environ.get("PBTOOL", os.path.join(TOP, "pbtool"))

BINARY, JSON, FORMAT, TYPE, CATEGORY = 1, 2, 3, 4, 5
AS_BINARY, AS_JSON, IGNORE_UNKNOWN = 1, 2, 3
PARSE_ERROR, WRITTEN, JSON_WRITTEN, SKIPPED, SERIALIZE_ERROR = 1, 3, 4, 5, 6


def varint(data, at):
    number = shift = 0
    while True:
        number |= (data[at] & 127) << shift
        at, shift = at + 1, shift + 7
        if data[at - 1] < 128:
            return number, at


def request_of(data):
    """The fields of a request that the suite wrote, by their numbers."""
    found, at = {}, 0
    while at < len(data):
        tag, at = varint(data, at)
        number, at = varint(data, at)
        if tag & 7 == 2:
            found[tag >> 3], at = data[at : at + number], at + number
        else:
            found[tag >> 3] = number
    return found


def response(number, payload):
    length, rest = b"", len(payload)
    while rest > 127:
        length, rest = length + bytes([rest & 127 | 128]), rest >> 7
    return bytes([number << 3 | 2]) + length + bytes([rest]) + payload


class Tool:
    def __init__(self, path, folder):
        self.path = path
        self.given, self.made = os.path.join(folder, "given"), os.path.join(folder, "made")
        # What passes over the unknown names of JSON reads the set leniently too, so such a set is always read so.
        self.is_strict = self.run("types", path).returncode == 0
        listed = self.run("types", "--lenient", path).stdout.decode().splitlines()
        self.types = {it.split()[1] for it in listed if it.startswith("message ")}

    def run(self, *words):
        return subprocess.run([TOOL, *words], stdout=subprocess.PIPE, stderr=subprocess.PIPE)

    def answer(self, request):
        name, wanted = request.get(TYPE, b"").decode(), request.get(FORMAT)
        if name not in self.types or wanted not in (AS_BINARY, AS_JSON) or not (BINARY in request or JSON in request):
            return response(SKIPPED, b"only messages of the set are tested, in binary form and as JSON")
        bytes_of = self.given
        with open(self.given, "wb") as out:
            out.write(request.get(BINARY, request.get(JSON, b"")))
        if BINARY not in request:
            lenient = [] if self.is_strict and request.get(CATEGORY) != IGNORE_UNKNOWN else ["--lenient"]
            read = self.run("from-json", *lenient, self.path, name, self.given, self.made)
            if read.returncode:
                return response(PARSE_ERROR, read.stderr)
            bytes_of = self.made
        if wanted == AS_JSON:
            checked = self.run("check", "--lenient", self.path, name, bytes_of)
            if checked.returncode:
                return response(PARSE_ERROR, checked.stderr)
            reported = self.run("json", "--lenient", self.path, name, bytes_of)
            return response(SERIALIZE_ERROR, reported.stderr) if reported.returncode else response(JSON_WRITTEN, reported.stdout.rstrip(b"\n"))
        reported = self.run("canon", "--lenient", self.path, name, bytes_of)
        return response(PARSE_ERROR, reported.stderr) if reported.returncode else response(WRITTEN, bytes.fromhex(reported.stdout.decode()))


def main(path):
    asked, answered = sys.stdin.buffer, sys.stdout.buffer
    with tempfile.TemporaryDirectory() as folder:
        tool = Tool(path, folder)
        while head := asked.read(4):
            data = tool.answer(request_of(asked.read(struct.unpack("<I", head)[0])))
            answered.write(struct.pack("<I", len(data)) + data)
            answered.flush()


if __name__ == "__main__":
    main(sys.argv[1])
