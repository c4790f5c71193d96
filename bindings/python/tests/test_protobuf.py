"""Random orders of the shop, as Python's protobuf writes and reads them (by_protobuf.py). PROTOBUF names a Python that has it."""
import json
import os
import re
import struct
import subprocess
import tempfile
import unittest

import mabristu
from test_parts import SOURCE

HERE = os.path.dirname(os.path.realpath(__file__))
EXAMPLES = os.environ.get("EXAMPLES", f"{HERE}/../../../examples")
PYTHON = os.environ.get("PROTOBUF", "/usr/bin/python3")


def has_protobuf():
    try:
        return subprocess.run([PYTHON, "-c", "import google.protobuf"], stderr=subprocess.DEVNULL).returncode == 0
    except OSError:
        return False


@unittest.skipUnless(has_protobuf(), "protobuf for Python is not here")
class Protobuf(unittest.TestCase):
    @classmethod
    def setUpClass(cls):
        words = [PYTHON, f"{HERE}/by_protobuf.py", f"{EXAMPLES}/shop.set", "300"]
        made = subprocess.run(words, stdout=subprocess.PIPE, check=True).stdout
        cls.rows = [json.loads(it) for it in made.decode().splitlines()]
        with open(f"{EXAMPLES}/shop.set", "rb") as it:
            cls.order = mabristu.Pool(it.read())["shop.Order"]

    def test_bytes(self):
        for row in self.rows:
            data = bytes.fromhex(row["bytes"])
            self.assertEqual([self.order.canonical(data).hex(), self.order.decode(data).encode().hex()], [row["bytes"]] * 2)

    def test_pieces(self):
        for index, row in enumerate(self.rows):
            data, decoder = bytes.fromhex(row["bytes"]), self.order.decoder()
            for at in range(0, len(data), index % 9 + 1):
                decoder.feed(data[at : at + index % 9 + 1])
            self.assertEqual(decoder.finish().encode(), data)

    def test_fields(self):
        bits = lambda number: struct.unpack("<Q", struct.pack("<d", number))[0]
        for row in self.rows:
            order = self.order.decode(bytes.fromhex(row["bytes"]))
            found = {it: order[it] for it in ("number", "placed_on", "state", "card", "gift")}
            found["corrections"], found["discounts"] = list(order["corrections"]), dict(order["discounts"].items())
            found["lines"] = [{"article": it["article"], "pieces": it["pieces"], "price": bits(it["price"])} for it in order["lines"]]
            invoice = order["invoice"]
            found["invoice"] = {"address": invoice["address"], "signature": invoice["signature"].hex()} if invoice else None
            found["numbers"] = order.numbers()
            self.assertEqual(found, {name: value for name, value in row.items() if name not in ("bytes", "text")})

    def test_text(self):
        # Python's protobuf prints a double as Python does, with ".0" or another exponent; all else is the same.
        price = re.compile(r"(?<=price: )\S+")
        for row in self.rows:
            order = self.order.decode(bytes.fromhex(row["bytes"]))
            found, wanted = str(order), row["text"]
            self.assertEqual(price.sub("0", found), price.sub("0", wanted))
            self.assertEqual([float(it) for it in price.findall(found)], [float(it) for it in price.findall(wanted)])
            self.assertEqual(order.text(single_line=True), " ".join(it.strip() for it in found.splitlines()))

    def test_find(self):
        for row in self.rows:
            data = bytes.fromhex(row["bytes"])
            for name in ("number", "placed_on", "state", "card", "gift"):
                self.assertEqual(self.order.find(data, name), row[name])
            self.assertEqual(self.order.find(data, "invoice", "address"), row["invoice"]["address"] if row["invoice"] else None)


def read_value(given):
    """A value as changes_by_protobuf.py prints it."""
    if isinstance(given, list) and given and given[0] == "double":
        return struct.unpack("<d", bytes.fromhex(given[1]))[0]
    if isinstance(given, list) and given and given[0] == "bytes":
        return bytes.fromhex(given[1])
    return [read_value(it) for it in given] if isinstance(given, list) else given


def follow(message, path):
    for step in path:
        message = message[step]
    return message


def change_list(values, call, *given):
    if call == "del":
        del values[given[0]]
    elif call == "set":
        values[given[0]] = given[1]
    else:
        getattr(values, call)(*given)


def change_wheels(wheels, other, call, at):
    if call == "del":
        del wheels[at]
    elif call == "replace":
        wheels[at] = other
    elif call == "slice":
        wheels[at : at + 2] = [other, other]
    elif call == "append":
        wheels.append(other)
    else:
        wheels.insert(at, other)


def make(messages, which, call, path, *given):
    message = follow(messages[which], path)
    if call == "assign":
        message[given[0]] = read_value(given[1])
    elif call == "clear":
        del message[given[0]]
    elif call == "list":
        change_list(message[given[0]], given[1], *[read_value(it) for it in given[2:]])
    elif call == "put":
        message[given[0]][given[1]] = read_value(given[2])
    elif call == "remove":
        del message[given[0]][given[1]]
    elif call == "assign_part":
        message[given[0]] = follow(messages[1 - which], given[1])
    elif call == "put_part":
        message[given[0]][given[1]] = follow(messages[1 - which], given[2])
    else:
        change_wheels(message["wheels"], follow(messages[1 - which], given[0]), *given[1:])


def parts(message):
    """Each message in a message, from the outside in."""
    for field in message:
        if field.type is not None:
            found = message[field]
            for it in found.values() if field.shape == "map" else found if field.shape == "list" else [found]:
                yield it
                yield from parts(it)


def read(message):
    """The fields that are set, each read by itself, as to_dict has them."""
    value = lambda it: read(it) if isinstance(it, mabristu.Message) else it
    found = {}
    for field in message:
        it = message[field]
        if field.shape == "map":
            found[field.name] = {key: value(inner) for key, inner in it.items()}
        else:
            found[field.name] = [value(inner) for inner in it] if field.shape == "list" else value(it)
    return found


@unittest.skipUnless(has_protobuf(), "protobuf for Python is not here")
class Changes(unittest.TestCase):
    """Random changes beside protobuf's: after each the bytes are the same, and parts that were kept are what they were, or are gone."""

    def assert_parts(self, whole, count):
        """A part of a large message, whose bytes are written by calls, is that of the small one, which is read of the bytes of the whole."""
        if count % 10:
            return
        raw = 20_000 * b"r"
        large = whole.type.decode(whole.encode() + b"\xc2\x01\xa0\x9c\x01" + raw)
        for one, other in zip(parts(whole), parts(large)):
            self.assertEqual([one.encode(), one.to_dict(), one.unknown, one.type], [other.encode(), other.to_dict(), other.unknown, other.type])
            self.assertTrue(one == other == one.copy() == other.copy() == one.type.decode(other.encode()))
            self.assertEqual(one.type.canonical(other.encode()), other.encode())
            record = len(other.encode()).to_bytes(1, "little") + other.encode() if len(other.encode()) < 128 else other.encode()
            self.assertIn(record, whole.encode())
        self.assertEqual(large["raw"], raw)

    def test_changes(self):
        found = mabristu.Pool.of_sources({"m.proto": SOURCE})["M"]
        with tempfile.NamedTemporaryFile() as file:
            file.write(found.pool.to_set())
            file.flush()
            words = [PYTHON, f"{HERE}/changes_by_protobuf.py", file.name, os.environ.get("CHANGES", "3000"), os.environ.get("SEED", "1")]
            made = subprocess.run(words, stdout=subprocess.PIPE, check=True).stdout
        messages, count = (found(), found()), 0
        for line in made.decode().splitlines():
            step, wanted = json.loads(line)
            if step[1] == "new":
                messages = found(), found()
                continue
            # Some changes are of messages that were decoded, and of which all was read.
            if count % 4 == 0:
                messages = tuple(found.decode(it.encode()) for it in messages)
                self.assertEqual([read(it) for it in messages], [it.to_dict() for it in messages])
            make(messages, *step)
            self.assertEqual([it.encode().hex() for it in messages], wanted, step)
            whole = messages[step[0]]
            self.assertEqual([read(whole), read(found.decode(whole.encode()))], 2 * [whole.to_dict()])
            self.assertEqual([found.from_dict(whole.to_dict()), found.from_dict(whole.to_dict(enums="names"))], [whole, whole])
            self.assert_parts(whole, count)
            count += 1


if __name__ == "__main__":
    unittest.main()
