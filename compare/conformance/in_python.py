#!/usr/bin/env python3
"""What protobuf's conformance suite tests of the package for Python: in_python.py SET, in place of crates/conformance (README.md beside this). Each message
is decoded and encoded by the library, whose package PYTHONPATH has or an environment."""
import struct
import sys

from mabristu import Pool, Refused

PAYLOAD, FORMAT, TYPE, PROTOBUF = 1, 3, 4, 1
PARSE_ERROR, WRITTEN, SKIPPED = 1, 3, 5


def varint(data, at):
    number = shift = 0
    while True:
        number |= (data[at] & 127) << shift
        at, shift = at + 1, shift + 7
        if data[at - 1] < 128:
            return number, at


def request_of(data):
    """The fields of a request that the suite wrote, by their numbers."""
    found, at = {}, 0
    while at < len(data):
        tag, at = varint(data, at)
        number, at = varint(data, at)
        if tag & 7 == 2:
            found[tag >> 3], at = data[at : at + number], at + number
        else:
            found[tag >> 3] = number
    return found


def response(number, payload):
    length, rest = b"", len(payload)
    while rest > 127:
        length, rest = length + bytes([rest & 127 | 128]), rest >> 7
    return bytes([number << 3 | 2]) + length + bytes([rest]) + payload


def answer(pool, request):
    name = request.get(TYPE, b"").decode()
    if name not in pool or PAYLOAD not in request or request.get(FORMAT) != PROTOBUF:
        return response(SKIPPED, b"only messages of the set are tested, in binary form")
    try:
        return response(WRITTEN, pool[name].decode(request[PAYLOAD]).encode())
    except Refused as refused:
        return response(PARSE_ERROR, str(refused).encode())


def main(name):
    with open(name, "rb") as it:
        pool = Pool(it.read(), lenient=True)
    asked, answered = sys.stdin.buffer, sys.stdout.buffer
    while head := asked.read(4):
        data = answer(pool, request_of(asked.read(struct.unpack("<I", head)[0])))
        answered.write(struct.pack("<I", len(data)) + data)
        answered.flush()


if __name__ == "__main__":
    main(sys.argv[1])
