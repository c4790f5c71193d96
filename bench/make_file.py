#!/usr/bin/env python3
"""Writes a message file of about this many megabytes, the same each time: make_file.py KIND MEGABYTES FILE.

KIND is `log` or `small`. The records of `log` are like those of a log: an entry with numbers, a fixed value, a name and a
body, some of them in groups. Those of `small` take two bytes each, which is the least that a record takes."""
import sys

from spelling import length_delimited, tag, varint


def entry(i):
    state = (i * 6364136223846793005 + 1442695040888963407) % 2**64
    fields = tag(1, 0) + varint(i) + tag(2, 0) + varint(state)
    fields += tag(3, 1) + state.to_bytes(8, "little") + tag(4, 5) + (state % 2**32).to_bytes(4, "little")
    name = ("worker-%d" % (state % 97)).encode()
    fields += length_delimited(5, name)
    if i % 3 == 0:
        return tag(16, 3) + fields + length_delimited(6, b"x" * (state % 200)) + tag(16, 4)
    return fields + length_delimited(7, b"x" * (state % 200))


def small(i):
    return tag(1 + i % 15, 0) + varint(i % 128)


KINDS = {"log": entry, "small": small}


def main():
    record, size = KINDS[sys.argv[1]], int(sys.argv[2]) * 1_000_000
    written = 0
    with open(sys.argv[3], "wb") as out:
        i = 0
        while written < size:
            chunk = b"".join(record(k) for k in range(i, i + 1000))
            out.write(chunk)
            written += len(chunk)
            i += 1000


main()
