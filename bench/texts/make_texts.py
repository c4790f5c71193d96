#!/usr/bin/env python3
"""Writes encodings of messages of the types in messages.proto and old.proto, the same each time, and wide.proto, whose enum is large:
make_texts.py FOLDER [SCALE].

A file FOLDER/SIZE/TYPE/SHAPE has inputs of one shape and of about one size, each after its length in four bytes, the lowest first: one of
10 MB, one of 2 MB, 4 KB each, and 30 to 500 bytes each, the last two 2 MB together. SCALE, as 0.1, makes the files smaller.

Each input of the types Texts and Old is the canonical bytes of its message: fields by rising number, map entries by rising key, the shortest
spelling of each record. So what a codec encodes again is the input itself. Not so those in a folder TYPE.decode, which are decoded
alone: in Old.decode undeclared numbers of closed enums are among declared ones, in Texts.decode the entries of maps are in no order."""
import os
import sys

sys.path.insert(0, os.path.join(os.path.dirname(os.path.abspath(__file__)), ".."))
from spelling import length_delimited, tag, varint


def zigzag(n):
    return (n << 1) ^ (n >> 63)


def mixed(i):
    """A number below 2^64 that looks like chance."""
    i = (i + 1) * 0x9E3779B97F4A7C15 % 2**64
    i = (i ^ i >> 30) * 0xBF58476D1CE4E5B9 % 2**64
    i = (i ^ i >> 27) * 0x94D049BB133111EB % 2**64
    return i ^ i >> 31


def word(i):
    return "worker-%d" % (mixed(i) % 9973)


def item(i):
    state = mixed(i)
    change = state % 2**40 - 2**39
    fields = tag(1, 0) + varint(1 + state % 100000) + length_delimited(2, word(i).encode())
    return fields + tag(3, 1) + (state | 1).to_bytes(8, "little") + tag(4, 0) + varint(zigzag(change) or 1)


def small(i):
    """Many small messages."""
    return length_delimited(1, item(i))


def long(i, size):
    """Long strings, in ASCII and beyond it, and byte strings."""
    part = "%s spricht %s, " % (word(i), "größer" if i % 2 else "smaller")
    return length_delimited(2, (part * (size // len(part) + 1)).encode())


def blob(i, size):
    return length_delimited(3, mixed(i).to_bytes(8, "little") * (size // 8 + 1))


def packed(i):
    """Packed numbers of one byte to four, of signed numbers, and of eight bytes each."""
    return varint(mixed(i) % 2 ** (7 * (1 + i % 4)))


def change(i):
    return varint(zigzag(mixed(i) % 2 ** (8 + i % 50) - 2 ** (7 + i % 50)))


def place(i):
    return mixed(i).to_bytes(8, "little")


def counted(i):
    """Map entries, whose keys rise."""
    key = b"key-%08d" % i
    return length_delimited(7, length_delimited(1, key) + tag(2, 0) + varint(mixed(i) % 2**31))


def entry(i):
    return length_delimited(8, tag(1, 0) + varint(i) + length_delimited(2, item(i)))


def nest(i, levels):
    """Messages inside each other, each with a few numbers."""
    inside = b""
    for level in range(levels):
        numbers = length_delimited(4, varint(level) + varint(1 + mixed(i) % 1000))
        inside = numbers + (length_delimited(10, inside) if level else b"")
    return length_delimited(9, inside)


def unknown(i):
    """Records that no field has: numbers, bytes and groups."""
    state = mixed(i)
    record = tag(1000 + i % 50, 0) + varint(state) + tag(2000, 1) + state.to_bytes(8, "little") + length_delimited(3000, word(i).encode())
    return record + tag(4000, 3) + tag(1, 0) + varint(state % 1000) + tag(2, 5) + (state % 2**32).to_bytes(4, "little") + tag(4000, 4)


def repeat(i):
    """Numbers of one field among many, whose numbers have gaps."""
    return tag(170, 0) + varint(mixed(i) % 2**14)


def group(i):
    """The same as `small`, in groups."""
    return tag(1, 3) + item(i) + tag(1, 4)


def inner_groups(i, levels):
    """Groups inside messages inside groups, each group with a few numbers."""
    inside = b""
    for level in range(levels):
        numbers = length_delimited(1, varint(level) + varint(1 + mixed(i) % 1000))
        inside = tag(2, 3) + numbers + (length_delimited(2, inside) if level else b"") + tag(2, 4)
    return inside


# The closed enum with many values: how many, and their numbers, which have gaps and do not rise.
WIDE = 100_000


def wide_number(i):
    return i * 7919 % WIDE * 7


def wide(i, gap=0):
    """A number of Wide; with a gap of N, each Nth is a number that it does not declare."""
    return varint(wide_number(mixed(i) % WIDE) + (1 if gap and i % gap == 0 else 0))


def few(i, gap=0):
    return varint(9 if gap and i % gap == 0 else mixed(i) % 5)


def wide_proto():
    values = "".join(f"  V{i} = {wide_number(i)};\n" for i in range(WIDE))
    return 'syntax = "proto2";\n\nenum Wide {\n%s}\n' % values


def until(size, first, part, again=100_000):
    """Parts until their bytes reach a size. After a number of parts they come again, since making them takes long."""
    out, ends = bytearray(), [0]
    while len(out) < size and len(ends) <= again:
        out += part(first + len(ends) - 1)
        ends.append(len(out))
    rounds, left = divmod(size - len(out), len(out)) if len(out) < size else (0, 0)
    return bytes(out) * (1 + rounds) + bytes(out[: next(it for it in ends if it >= left)])


def run_of(number, part, gap=0):
    """A shape of one record, whose payload is parts."""
    return lambda size, first: length_delimited(number, until(size, first, (lambda i: part(i, gap)) if gap else part))


def strings(size, first):
    """Texts and byte strings of 4 KB, and of a half of the size where that is less."""
    piece = min(4096, size // 2)
    return until(size // 2, first, lambda i: long(i, piece)) + until(size // 2, first, lambda i: blob(i, piece))


def lists(size, first):
    return b"".join(length_delimited(4 + k, until(size // 3, first, part)) for k, part in enumerate((packed, change, place)))


def maps(size, first):
    """The keys of a map differ."""
    return b"".join(until(size // 2, first, part, size) for part in (counted, entry))


def unsorted(size, first):
    """The same maps, whose entries are in no order."""
    out = []
    for part in counted, entry:
        entries, held = [], 0
        while held < size // 2:
            entries.append(part(first + len(entries)))
            held += len(entries[-1])
        out += (entries[i] for i in sorted(range(len(entries)), key=mixed))
    return b"".join(out)


def deep(part, levels, least):
    """Nests of a number of levels, of a number of bytes at least, and one of fewer levels where the size asks for less."""
    return lambda size, first: until(size, first, lambda i: part(i, min(levels, 1 + size * levels // least)))


def parts(part):
    return lambda size, first: until(size, first, part)


# By folder and name: what makes an input of a size, from parts that begin with a number.
SHAPES = {
    "Texts/small": parts(small),
    "Texts/strings": strings,
    "Texts/packed": lists,
    "Texts/maps": maps,
    "Texts.decode/unsorted": unsorted,
    "Texts/nests": deep(nest, 90, 580),
    "Texts/unknown": parts(unknown),
    "Texts/repeats": run_of(11, repeat),
    # Open enums, to compare closed ones with: the elements of both are the same.
    "Texts/open": run_of(12, wide),
    "Texts/openfew": run_of(12, few),
    "Old/groups": parts(group),
    "Old/inner": deep(inner_groups, 45, 640),
    "Old/closed": run_of(3, wide),
    "Old/few": run_of(4, few),
    "Old.decode/gaps": run_of(3, wide, 10),
    "Old.decode/fewgaps": run_of(4, few, 10),
    "Old.decode/allgaps": run_of(4, few, 1),
}

# By folder: how large all inputs are together, and how large each is at least, by its number.
SIZES = {
    "10MB": (10_000_000, lambda i: 10_000_000),
    "2MB": (2_000_000, lambda i: 2_000_000),
    "4KB": (2_000_000, lambda i: 4000),
    "single": (2_000_000, lambda i: 30 + mixed(i) % 340),
}


def write(path, shape, total, size_of, scale):
    """Writes inputs until they take as much together as they have to."""
    os.makedirs(os.path.dirname(path), exist_ok=True)
    with open(path, "wb") as out:
        count = 0
        while out.tell() < total * scale:
            size = size_of(count)
            # Each input has other parts, and those of an input follow each other.
            made = shape(int(size * scale) if size == total else size, count * 1000)
            out.write(len(made).to_bytes(4, "little") + made)
            count += 1


def main():
    folder, scale = sys.argv[1], float(sys.argv[2]) if len(sys.argv) > 2 else 1
    for size, (total, size_of) in SIZES.items():
        for name, shape in SHAPES.items():
            write(os.path.join(folder, size, name), shape, total, size_of, scale)
    with open(os.path.join(folder, "wide.proto"), "w") as out:
        out.write(wide_proto())


main()
