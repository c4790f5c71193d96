#!/usr/bin/env python3
"""Makes the example messages, always the same bytes, in this folder: python3 examples/make.py"""
import os
import struct

here = os.path.dirname(os.path.abspath(__file__))


def varint(n):
    n %= 2**64
    out = bytearray()
    while n >= 128:
        out.append(n % 128 + 128)
        n //= 128
    out.append(n)
    return bytes(out)


def number(k, n):
    return varint(8 * k) + varint(n)


def double(k, x):
    return varint(8 * k + 1) + struct.pack("<d", x)


def single(k, x):
    return varint(8 * k + 5) + struct.pack("<f", x)


def payload(k, data):
    data = data.encode() if isinstance(data, str) else data
    return varint(8 * k + 2) + varint(len(data)) + data


def group(k, inside):
    return varint(8 * k + 3) + inside + varint(8 * k + 4)


def order():
    """An order with two lines as groups, one of them with a group of its own."""
    line = number(2, 3) + payload(3, "bolt M8") + double(4, 0.35)
    other = number(2, 1) + payload(3, "torque wrench") + double(4, 89.5) + group(5, number(6, 1) + single(7, 0.1))
    return number(1, 4711) + payload(8, "2024-05-17") + group(9, line) + group(9, other) + number(10, -1)


def descriptor_set():
    """A set with the file `order.proto`: `message Order { int64 id = 1; repeated Line lines = 2; }` and its Line."""
    def field(name, k, label, kind, type_name=None):
        out = payload(1, name) + number(3, k) + number(4, label) + number(5, kind)
        return out + (payload(6, type_name) if type_name else b"")

    line = payload(1, "Line") + payload(2, field("text", 1, 1, 9)) + payload(2, field("count", 2, 1, 13))
    top = payload(1, "Order") + payload(2, field("id", 1, 1, 3)) + payload(2, field("lines", 2, 3, 11, ".shop.Line"))
    file = payload(1, "order.proto") + payload(2, "shop") + payload(4, top) + payload(4, line) + payload(12, "proto3")
    return payload(1, file)


def events(count):
    """Many events: a counter, a time as fixed bytes, a name and a small group of tags."""
    out = bytearray()
    for i in range(count):
        tags = b"".join(payload(1, f"tag{(i * 7 + j) % 50}") for j in range(i % 4))
        event = number(1, i * i) + varint(8 * 2 + 1) + struct.pack("<Q", 1_700_000_000_000 + i * 997)
        out += event + payload(3, f"event number {i}") + group(4, tags) + varint(8 * 5 + 5) + struct.pack("<I", i % 7)
    return bytes(out)


def write(name, data):
    with open(os.path.join(here, name), "wb") as file:
        file.write(data)


write("order.bin", order())
write("cut_order.bin", order()[:-20])
write("descriptor_set.bin", descriptor_set())
write("events.bin", events(2060))
