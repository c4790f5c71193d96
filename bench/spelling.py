"""How records are spelled."""


def varint(n):
    out = bytearray()
    while n >= 0x80:
        out.append(n & 0x7F | 0x80)
        n >>= 7
    out.append(n)
    return bytes(out)


def tag(number, wire_type):
    return varint(number * 8 + wire_type)


def length_delimited(number, payload):
    return tag(number, 2) + varint(len(payload)) + payload
