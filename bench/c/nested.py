"""Writes descriptor sets and a message that nest: nested.py FOLDER.

nested.set declares messages in messages, as deep as a set may nest them. maps.set declares a message with a map of its own type, and maps.bin is such a
message of less than 128 bytes, of maps in maps. proto2.set has a required field, a field with a default value, a range of extensions and an extension.
"""
import sys


def part(number, payload):
    size, front = len(payload), bytes([number << 3 | 2])
    while size > 127:
        front, size = front + bytes([size & 127 | 128]), size >> 7
    return front + bytes([size]) + payload


def varint(number, value):
    return bytes([number << 3, value])


def field(name, number, label, kind, *more):
    return part(2, part(1, name) + varint(3, number) + varint(4, label) + varint(5, kind) + b"".join(more))


def file(message, syntax=b"proto3", extensions=b""):
    return part(1, part(1, b"f.proto") + part(4, message) + extensions + part(12, syntax))


message = b""
for depth in range(99):
    message = part(1, b"M") + (part(3, message) if message else b"")
entry = part(3, part(1, b"MEntry") + field(b"key", 1, 1, 13) + field(b"value", 2, 1, 11, part(6, b".T")) + part(7, varint(7, 1)))
maps = b""
for depth in range(20):
    maps = part(1, varint(1, 7) + part(2, maps))
fields = field(b"a", 1, 2, 5) + field(b"b", 2, 1, 5, part(7, b"7")) + part(5, varint(1, 100) + varint(2, 101))
extension = part(7, part(1, b"x") + part(2, b".T") + varint(3, 100) + varint(4, 1) + varint(5, 5))
made = {"nested.set": file(message), "proto2.set": file(part(1, b"T") + fields, b"proto2", extension), "maps.set": file(part(1, b"T") + field(b"m", 1, 3, 11, part(6, b".T.MEntry")) + entry), "maps.bin": maps}
for name, text in made.items():
    with open(f"{sys.argv[1]}/{name}", "wb") as it:
        it.write(text)
