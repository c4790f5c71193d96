#!/usr/bin/env python3
"""Prints what `pbtool raw` prints of a file, by a small decoder of its own: the expected texts beside the examples.

It knows the wire rules alone (encoding guide, "Message Structure" and "Groups"), and of the faults only the end of the
input, which is all that the examples show.
"""
import sys
from collections import Counter


class Truncated(Exception):
    pass


def varint(data, at):
    value, shift = 0, 0
    for size in range(10):
        if at + size >= len(data):
            raise Truncated
        value |= (data[at + size] & 127) << shift
        shift += 7
        if data[at + size] < 128:
            return value % 2**64, at + size + 1
    raise ValueError("a varint of more than ten bytes")


def take(data, at, size):
    if at + size > len(data):
        raise Truncated
    return data[at:at + size], at + size


def records(data, at, group, level, path, lines):
    """Adds the lines of the records from `at` on, and answers where they end."""
    indent = "  " * level
    whole = Counter()
    while group is not None or at < len(data):
        tag, at = varint(data, at)
        number, wire_type = tag >> 3, tag & 7
        if wire_type == 4:
            assert number == group, "an end of another group"
            return at
        path.append(f"{number}[{whole[number]}]")
        if wire_type == 0:
            value, at = varint(data, at)
            lines.append(f"{indent}{number} varint {value}")
        elif wire_type == 1:
            value, at = take(data, at, 8)
            lines.append(f"{indent}{number} i64 {value[::-1].hex()}")
        elif wire_type == 2:
            size, at = varint(data, at)
            value, at = take(data, at, size)
            lines.append(f"{indent}{number} len {size} {value.hex()}".rstrip())
        elif wire_type == 3:
            lines.append(f"{indent}{number} group {{")
            at = records(data, at, number, level + 1, path, lines)
            lines.append(f"{indent}}}")
        elif wire_type == 5:
            value, at = take(data, at, 4)
            lines.append(f"{indent}{number} i32 {value[::-1].hex()}")
        else:
            raise ValueError("a wire type that is not assigned")
        path.pop()
        whole[number] += 1
    return at


def main():
    data = open(sys.argv[1], "rb").read()
    path, lines = [], []
    try:
        records(data, 0, None, 0, path, lines)
    except Truncated:
        steps = ".".join(path) or "-"
        print(f"byte {len(data)} path {steps} cause Truncated")
        return
    print("".join(line + "\n" for line in lines), end="")


main()
