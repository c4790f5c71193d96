"""What is read of the bytes that a message was decoded from, beside what the library reads: of a bytearray no bytes are kept. The bytes are random records:
of the fields of the type, and of other numbers and wire types, with numbers that are spelled longer than they need or out of range, fields that occur again,
and several members of one oneof."""
import os
import random
import struct
import time
import unittest

from mabristu import List, Map, Message, Pool, Refused

SCALARS = "int32 int64 uint32 uint64 sint32 sint64 fixed32 fixed64 sfixed32 sfixed64 float double bool string bytes E".split()
LISTS = "int32 string A double bool E sint32 fixed32 uint32 float B".split()
ENUM = "enum E { ZERO = 0; ONE = 1; } message B { LABEL int32 a = 1; LABEL string b = 2; LABEL A y = 41; repeated A l2 = 53; }"


def source(syntax, label, more=""):
    """Types with a field of each kind, alone, with explicit presence, in two oneofs and in lists; of messages, and of maps."""
    single = [f"{label} {kind} s{at} = {at};" for at, kind in enumerate(SCALARS, 1)] + [f"optional {kind} o{at} = {at};" for at, kind in enumerate(SCALARS, 20)]
    single += [f"{label} A y = 41;", f"{label} B z = 42;"]
    members = "oneof one { int32 p = 43; string q = 44; A r = 45; B s = 46; } oneof two { E t = 47; bytes u = 48; }"
    lists = [f"repeated {kind} l{at} = {51 + at};" for at, kind in enumerate(LISTS)]
    maps = "map<string, int32> m1 = 71; map<int32, A> m2 = 72;"
    return f'syntax = "{syntax}"; {ENUM.replace("LABEL", label)} message A {{ {" ".join(single)} {members} {" ".join(lists)} {maps} {more} }}'


GROUPS = "optional group Gr = 81 { optional int32 a = 1; optional E e = 2; } repeated group Gs = 82 { optional int32 a = 1; }"
NUMBERS = [*range(1, 17), *range(20, 36), *range(41, 49), *range(51, 62), 71, 72]


def varint(number, longer=0):
    data = bytearray()
    while number > 127:
        data.append(number & 127 | 128)
        number >>= 7
    data.append(number)
    for _ in range(min(longer, 10 - len(data))):
        data[-1] |= 128
        data.append(0)
    return bytes(data)


class Records:
    """Random records."""

    def __init__(self, seed, has_groups):
        self.chosen, self.numbers = random.Random(seed), NUMBERS + [81, 82] * has_groups

    def number(self):
        some = self.chosen
        return varint(some.choice((0, 1, 1, 2, 5, 127, 128, 2**31 - 1, 2**31, 2**32 - 1, 2**32, 2**63, 2**64 - 1, 2**64 - 2**31, some.getrandbits(64))),
                      some.choice((0, 0, 0, 0, 1, 9)))

    def payload(self, wire, depth):
        some = self.chosen
        if wire == 0:
            return self.number()
        if wire in (1, 5):
            return some.choice((bytes(8), some.randbytes(8), struct.pack("<d", -0.0), struct.pack("<d", 1.5)))[: 8 if wire == 1 else 4]
        if wire == 3:
            return self.message(depth - 1) if depth else b""
        inside = some.choice((lambda: b"", lambda: b"ab", lambda: "é".encode(), lambda: b"\x01\x00\x02", lambda: self.number() * 2, lambda: bytes(16),
                              lambda: b"\x0a\x01k\x10\x05", lambda: self.message(depth - 1) if depth else b"", lambda: self.message(depth - 1) if depth else b"\x08\x01"))()
        return varint(len(inside), some.choice((0, 0, 0, 1))) + inside

    def wire_of(self, number):
        """Mostly the wire type that the field has."""
        some = self.chosen
        if some.randrange(12) == 0:
            return some.choice((0, 1, 2, 5))
        if number in (81, 82):
            return 3
        at = number - (1 if number < 20 else 20)
        kind = SCALARS[at] if number < 40 else LISTS[number - 51] if 51 <= number < 62 else {43: "int32", 47: "E"}.get(number, "A")
        wire = {"fixed32": 5, "sfixed32": 5, "float": 5, "fixed64": 1, "sfixed64": 1, "double": 1, "string": 2, "bytes": 2, "A": 2, "B": 2}.get(kind, 0)
        return some.choice((wire, 2)) if 51 <= number < 62 else wire

    def message(self, depth=3):
        some = self.chosen
        count = some.choice((0, 1, 3, 6, 12))
        numbers = [some.choice((some.choice(self.numbers), some.choice(self.numbers), some.choice(self.numbers), 100, 2000)) for _ in range(count)]
        if some.random() < 0.7:
            numbers = sorted(set(numbers) | set(it for it in numbers if 51 <= it < 62))
        data = b""
        for number in numbers:
            wire = self.wire_of(number)
            data += varint(number << 3 | wire) + self.payload(wire, depth)
            if wire == 3:
                data += varint(number << 3 | 4)
        return data


def plain(value):
    """What is compared: floats by their bits, and parts by what is read of them."""
    if isinstance(value, float):
        return "float", struct.pack("<d", value)
    if isinstance(value, (Message, List)):
        return everything(value) if isinstance(value, Message) else (len(value), [plain(it) for it in value])
    return sorted((key, plain(it)) for key, it in value.items()) if isinstance(value, Map) else (type(value), value)


def everything(message, depth=2):
    """All that the calls say that read fields."""
    said = []
    for field in message.type.fields:
        single = field.shape not in ("list", "map")
        if single and field.kind in ("message", "group"):
            inside = message[field]
            said.append((field.name, bool(inside), field in message, everything(inside, depth - 1) if depth and field in message else None,
                         inside["s1"] if inside.type.name == "A" and depth else None, message.get(field) is None))
        elif depth or single:
            said.append((field.name, plain(message[field]), field in message, plain(message.get(field)) if single else None))
    return said


class Given(unittest.TestCase):
    def compare(self, kind, data):
        """Whether the bytes are a message; then what is read of them is what the library says."""
        try:
            one, other = kind.decode(data), kind.decode(bytearray(data))
        except Refused:
            return False
        self.assertEqual(everything(one), everything(other), data.hex())
        return True

    def test_beside_the_library(self):
        count = int(os.environ.get("GIVEN", "1500"))
        pools = [Pool.of_sources({"a.proto": source("proto3", "")}), Pool.of_sources({"a.proto": source("proto2", "optional", GROUPS)}, lenient=True)]
        for pool, has_groups in zip(pools, (False, True)):
            records, accepted = Records(int(os.environ.get("SEED", "1")), has_groups), 0
            for _ in range(count):
                data = records.message()
                accepted += self.compare(pool["A"], data)
                # The same in canonical form, and cut off or with a byte exchanged.
                try:
                    self.compare(pool["A"], pool["A"].canonical(data))
                except Refused:
                    pass
                if data:
                    at = records.chosen.randrange(len(data))
                    self.compare(pool["A"], data[:at] + bytes([records.chosen.randrange(256)]) + data[at + 1 :])
            self.assertGreater(accepted, count // 4)

    def test_after_a_change(self):
        kind = Pool.of_sources({"a.proto": source("proto3", "")})["A"]
        data = kind.from_dict({"s1": 5, "s14": "x", "y": {"s1": 6}, "l0": [1, 2, 3], "l2": [{"s1": 7}, {"s1": 8}], "p": 9}).encode()
        changes = [lambda m: m.__setitem__("s1", 1), lambda m: m["y"].__setitem__("s1", 2), lambda m: m["l0"].append(4), lambda m: m["l2"][0].__setitem__("s1", 3),
                   lambda m: m.merge(b"\x08\x05"), lambda m: m.__delitem__("l0"), lambda m: m["l2"].insert(0, {}), lambda m: m.__setitem__("q", "z"),
                   lambda m: m["y"]._fill(b"\x08\x04"), lambda m: m._change("clear", [(21, 1)], [], None), lambda m: m.drop_unknown(), lambda m: m["y"]["y"].__setitem__("s1", 1),
                   lambda m: m["l2"].reverse(), lambda m: m["m1"].update(a=1), lambda m: m.__setitem__("y", {"s1": 3})]
        for change in changes:
            one, other = kind.decode(data), kind.decode(bytearray(data))
            kept = [(m["y"], m["l0"], m["l2"], m["l2"][1], next(iter(m["l2"])), m["y"]["y"]) for m in (one, other)]
            for m, (y, l0, l2, second, first, inner) in zip((one, other), kept):
                self.assertEqual([m["s1"], y["s1"], l0[1], len(l0), second["s1"], first["s1"], inner["s1"], m["p"]], [5, 6, 2, 3, 8, 7, 0, 9])
                change(m)
            self.assertEqual([everything(one), one.encode()], [everything(other), other.encode()])
            for left, right in zip(*kept):
                self.assertEqual(self.answer(left), self.answer(right))

    def answer(self, part):
        try:
            return bool(part), plain(part)
        except LookupError as gone:
            return str(gone)

    def test_elements_in_any_order(self):
        kind = Pool.of_sources({"a.proto": source("proto3", "")})["A"]
        rest = b"".join(kind.from_dict({"l2": [{"s1": it}]}).encode() for it in range(200))
        data = kind.from_dict({"l0": list(range(300)), "l1": [str(it) for it in range(300)]}).encode() + rest
        order = random.Random(3)
        for lists in (kind.decode(data), kind.decode(data + b"\xfa\x01\x00")):
            for name, length, wanted in (("l0", 300, int), ("l1", 300, str), ("l2", 200, lambda it: it)):
                values = lists[name]
                self.assertEqual(len(values), length)
                for at in [0, 1, 2, 0, 31, 32, 33, 40, 3, 299, -1, -300, 5] + [order.randrange(-length, length) for _ in range(300)]:
                    if -length <= at < length:
                        found = values[at]
                        self.assertEqual(found["s1"] if name == "l2" else found, wanted(at % length))
                    else:
                        self.assertRaises(IndexError, lambda: values[at])
                for at in (length, -length - 1, 10**6):
                    self.assertRaises(IndexError, lambda: values[at])
                self.assertEqual([it["s1"] if name == "l2" else it for it in values], [wanted(it) for it in range(length)])

    def test_costs(self):
        """What lies after long stretches is read of them some times, and then by the library: 5,000 times in less than ten times its time."""
        kind = Pool.of_sources({"a.proto": source("proto3", "")})["A"]
        data = kind.from_dict({"y": {"l1": 4000 * ["a"], "s1": 1}, "l0": [5]}).encode()
        others = kind.from_dict({"l2": [{}]}).encode() + kind.from_dict({"l1": 4000 * ["b"]}).encode() + kind.from_dict({"l2": [{}]}).encode()
        for given, call in ((data, lambda m: m["y"]["s1"]), (others, lambda m: m["l2"][1]), (others, lambda m: len(m["l2"])), (others, lambda m: list(m["l2"]))):
            least = [1e9, 1e9]
            for _ in range(3):
                for at, it in enumerate((given, bytearray(given))):
                    message = kind.decode(it)
                    call(message)
                    begin = time.process_time()
                    for _ in range(5000):
                        call(message)
                    least[at] = min(least[at], time.process_time() - begin)
            self.assertLess(least[0], 10 * least[1])

    def test_long_and_mutable_inputs(self):
        kind = Pool.of_sources({"a.proto": source("proto3", "")})["A"]
        # Where an index of 16 bits would wrap, a message with another s1 would be read.
        for size in (0, 16300, 16370, 16384, 16385, 65530, 70000, 70001, 70002):
            message = kind.from_dict({"s14": (30_000 * "\x02\x08\x07")[:size], "s1": 5, "l0": [1, 2], "y": {"s1": 6}})
            for data in (message.encode(), bytearray(message.encode()), memoryview(message.encode())):
                read = kind.decode(data)
                if isinstance(data, bytearray):
                    data[:] = bytes(len(data))
                self.assertEqual([len(read["s14"]), read["s1"], list(read["l0"]), read["y"]["s1"], read["y"]["s14"]], [size, 5, [1, 2], 6, ""])


if __name__ == "__main__":
    unittest.main()
