"""The order of the shop: its bytes, listing and types are those of examples/, and the records written here are made by hand."""
import array
import ast
import asyncio
import copy
import gc
import json
import inspect
import io
import mmap
import os
import sys
import tempfile
import threading
import unittest
from concurrent.futures import ThreadPoolExecutor

import mabristu
from mabristu import Pool, Refused

EXAMPLES = os.environ.get("EXAMPLES", os.path.join(os.path.dirname(os.path.realpath(__file__)), "../../../examples"))


def example(name):
    with open(f"{EXAMPLES}/{name}", "rb") as it:
        return it.read()


# Of: package names; message Shelf { string display_name = 1 [json_name = "label"]; int32 in_stock = 2;
# repeated Shelf shelf_below = 3 [json_name = "a \"b\""]; }
NAMED = (b'\n\x87\x01\n\x0bnames.proto\x12\x05names"i\n\x05Shelf\x12\x1b\n\x0cdisplay_name\x18\x01 \x01(\tR\x05label\x12\x19\n\x08in_stock\x18\x02 \x01'
         b'(\x05R\x07inStock\x12(\n\x0bshelf_below\x18\x03 \x03(\x0b2\x0c.names.ShelfR\x05a "b"b\x06proto3')


def resident():
    """How many bytes of memory this process has."""
    with open("/proc/self/statm", encoding="ascii") as it:
        return int(it.read().split()[1]) * os.sysconf("SC_PAGE_SIZE")


def framed(message):
    """A varint of one byte, then the message."""
    return bytes([len(message)]) + message


class Shop(unittest.TestCase):
    @classmethod
    def setUpClass(cls):
        cls.pool = Pool(example("shop.set"))
        cls.order, cls.data, cls.listed = cls.pool["shop.Order"], example("shop_order.bin"), example("shop_order.show.txt").decode()

    def refused(self, call, *given, **named):
        with self.assertRaises(Refused) as it:
            call(*given, **named)
        return it.exception


class Messages(Shop):
    def test_listing(self):
        message = self.order.decode(self.data)
        self.assertEqual([message.listing(), self.order.listing(self.data)], [self.listed] * 2)
        decimal = self.listed.replace("0x3fd6666666666666", "0.35").replace("0x4056600000000000", "89.5")
        self.assertEqual([repr(message), message.listing(decimal=True), self.order.listing(self.data, decimal=True)], [decimal] * 3)

    def test_text(self):
        # What protoc --decode prints of the order.
        text = ('number: 4711\nplaced_on: "2024-05-17"\nlines {\n  article: "bolt M8"\n  pieces: 200\n  price: 0.35\n}\nlines {\n  article: "torque wrench"\n'
                '  pieces: 1\n  price: 89.5\n}\ndiscounts {\n  key: "loyal"\n  value: 3\n}\ndiscounts {\n  key: "spring"\n  value: 5\n}\n'
                'invoice {\n  address: "Main Street 1"\n  signature: "\\001\\377"\n}\nstate: SENT\ncorrections: -1\ncorrections: 2\ngift: false\n')
        message = self.order.decode(self.data)
        self.assertEqual([str(message), f"{message}", message.text()], [text] * 3)
        self.assertEqual(message.text(single_line=True), " ".join(text.split()))
        self.assertEqual([str(message["lines"][1]), message["lines"][1].text(single_line=True)],
                         ['article: "torque wrench"\npieces: 1\nprice: 89.5\n', 'article: "torque wrench" pieces: 1 price: 89.5'])
        self.assertEqual([str(self.order.new()), self.order.new().text(single_line=True)], ["", ""])
        # Field 100 is no field of the type.
        unknown = self.order.decode(b"\x12\x02\xc3\xa9\xa0\x06\x07")
        self.assertEqual([str(unknown), unknown.text(utf8=True, unknown=True)], ['placed_on: "\\303\\251"\n', 'placed_on: "é"\n100: 7\n'])
        for size in (0, 1, 4000, 5000, 70000):
            unknown["placed_on"] = size * "x"
            self.assertEqual(unknown.text(single_line=True, unknown=True), (f'placed_on: "{size * "x"}" ' if size else "") + "100: 7")
        with self.assertRaises(TypeError):
            message.text(True)

    def test_json(self):
        # The fields are those that protoc --decode prints of the order.
        message = self.order.decode(self.data)
        line = message.to_json()
        self.assertNotIn("\n", line)
        found = json.loads(line)
        self.assertEqual((found["number"], found["placedOn"], found["lines"][0]["price"]), ("4711", "2024-05-17", 0.35))
        self.assertEqual(json.loads(message.to_json(declared_names=True))["placed_on"], "2024-05-17")
        self.assertEqual(json.loads(message.to_json(indent=True)), found)
        self.assertEqual(message.to_json(indent=True).split("\n")[:2], ["{", '  "number": "4711",'])
        self.assertEqual(self.order.new().to_json(), "{}")

    def test_from_json(self):
        # What is written of the order is read as the order; names as declared are taken too.
        message = self.order.decode(self.data)
        for line in (message.to_json(), message.to_json(declared_names=True, indent=True), message.to_json().encode()):
            self.assertEqual(self.order.from_json(line), message)
        self.assertEqual(self.order.from_json("{}"), self.order.new())
        self.assertEqual(self.order.from_json('{"number":"1","nothing":[2]}', lenient=True).encode(), b"\x08\x01")
        rows = [('{"number":1,"nothing":2}', 12, "UnknownName", 105), ('{"number":true}', 10, "BadValue", 109), ("{", 1, "UnexpectedEnd", 102),
                (b'{"placedOn":"\xff"}', 13, "BadUtf8", 103), ('{"number":1,"number":2}', 12, "RepeatedName", 106)]
        for text, byte, cause, number in rows:
            refused = self.refused(self.order.from_json, text)
            self.assertEqual((str(refused), refused.byte, refused.cause, refused.number), (f"json byte {byte} cause {cause}", byte, cause, number))
        with self.assertRaises(TypeError):
            self.order.from_json(7)

    def test_json_by_names_of_the_set(self):
        # The set is what protoc 3.21.12 makes; what is written and read is what json_format of protobuf 4.21.12 has.
        data = b"\n\x03top\x10\x03\x1a\x05\n\x03low"
        given = {"label": "top", "inStock": 3, 'a "b"': [{"label": "low"}]}
        declared = {"display_name": "top", "in_stock": 3, "shelf_below": [{"display_name": "low"}]}
        in_camel = {"displayName": "top", "inStock": 3, "shelfBelow": [{"displayName": "low"}]}
        for shelf in (Pool(NAMED)["names.Shelf"], Pool(NAMED, lenient=True)["names.Shelf"]):
            message = shelf.decode(data)
            self.assertEqual([json.loads(message.to_json()), json.loads(message.to_json(declared_names=True))], [given, declared])
            lines = message.copy().to_json(indent=True).split("\n")
            self.assertEqual(lines[:6], ["{", '  "label": "top",', '  "inStock": 3,', '  "a \\"b\\"": [', "    {", '      "label": "low"'])
            for read in (given, declared):
                self.assertEqual([shelf.from_json(json.dumps(read)), shelf.canonical_from_json(json.dumps(read))], [message, data])
            for text, byte, cause in (('{"displayName":""}', 1, "UnknownName"), ('{"label":"","display_name":""}', 12, "RepeatedName")):
                for call in (shelf.from_json, shelf.canonical_from_json):
                    self.assertEqual(str(self.refused(call, text)), f"json byte {byte} cause {cause}")
            self.assertEqual(shelf.from_json('{"displayName":"","inStock":3}', lenient=True).encode(), b"\x10\x03")
            rack = shelf.new()
            rack["shelf_below"].append({"display_name": 2000 * "x"})
            self.assertEqual(json.loads(rack.to_json()), {'a "b"': [{"label": 2000 * "x"}]})
            self.assertEqual(json.loads(rack["shelf_below"][0].to_json()), {"label": 2000 * "x"})
        # A pool of sources has no such names, and neither has the set that a pool makes.
        fields = 'string display_name = 1 [json_name = "label"]; int32 in_stock = 2; repeated Shelf shelf_below = 3;'
        source = f'syntax = "proto3"; package names; message Shelf {{ {fields} }}'
        for pool in (Pool.of_sources({"names.proto": source}), Pool(Pool(NAMED).to_set())):
            self.assertEqual(json.loads(pool["names.Shelf"].decode(data).to_json()), in_camel)
            self.assertEqual(pool["names.Shelf"].canonical_from_json(json.dumps(in_camel)), data)

    def test_set_of_a_pool(self):
        again = Pool(self.pool.to_set())
        self.assertEqual([it.name for it in again.schema().types], [it.name for it in self.pool.schema().types])
        self.assertEqual(again["shop.Order"].listing(self.data), self.listed)
        many = Pool.of_sources({"m.proto": 'syntax = "proto3"; ' + " ".join(f"message M{it} {{ M{it} m = 1; }}" for it in range(300))})
        self.assertEqual(len(Pool(many.to_set()).schema().types), 300)

    def test_json_is_refused(self):
        # Seconds 2 ** 40 are after the year 9999.
        stamp = 'syntax = "proto3"; package google.protobuf; message Timestamp { int64 seconds = 1; int32 nanos = 2; }'
        event = 'syntax = "proto3"; import "t.proto"; message Event { repeated google.protobuf.Timestamp at = 3; }'
        found = Pool.of_sources({"t.proto": stamp, "e.proto": event})["Event"].decode(b"\x1a\x00\x1a\x07\x08\x80\x80\x80\x80\x80\x20")
        refused = self.refused(found.to_json)
        self.assertEqual((str(refused), refused.path, refused.number), ("json path 3 cause OutOfRange", (3,), 93))
        self.assertEqual(refused.names(found.type), ("at",))

    def test_names_of_a_path(self):
        # Bad UTF-8 in the article of the second line, in a key, and in the address of the invoice; a group of no field that does not end.
        rows = [(b"\x1a\x03\x0a\x01a\x1a\x03\x0a\x01\xff", (("lines", 1), ("article", 0))),
                (b"\x22\x03\x0a\x01\xff", (("discounts", 0), ("key", 0))),
                (b"\x32\x03\x0a\x01\xff", (("invoice", 0), ("address", 0))),
                (b"\x9b\x06\x08", ((99, 0), (1, 0)))]
        for data, names in rows:
            self.assertEqual(self.refused(self.order.check, data).names(self.order), names)

    def test_canonical_bytes(self):
        # Number 1 with an overlong varint.
        message = self.order.decode(b"\x08\x85\x00")
        self.assertEqual([message.encode(), bytes(message), self.order.canonical(b"\x08\x85\x00")], [b"\x08\x05"] * 3)
        self.assertEqual(message.encoded_length(), 2)
        self.assertEqual(mabristu.raw_short(b"\x08\x85\x00"), b"\x08\x05")

    def test_empty_messages(self):
        self.assertEqual([self.order.new().encode(), self.order().encode(), self.order.decode(b"").encode()], [b""] * 3)
        self.assertRaises(TypeError, self.order, 1)

    def test_equality(self):
        decode = self.order.decode
        self.assertEqual(decode(b"\x08\x85\x00"), decode(b"\x08\x05"))
        self.assertNotEqual(decode(b"\x08\x05"), decode(b"\x08\x06"))
        self.assertNotEqual(decode(b""), self.pool["shop.Line"].decode(b""))
        self.assertNotEqual(decode(b""), b"")
        self.assertRaises(TypeError, hash, decode(b""))

    def test_long_messages(self):
        # A line of 200,000 bytes, and 20,000 lines.
        for data in (b"\x1a\xc4\x9a\x0c\x0a\xc0\x9a\x0c" + 200_000 * b"a", 20_000 * (b"\x1a\x09\x0a\x07bolt M8")):
            message = self.order.decode(data)
            self.assertEqual([message.encode(), self.order.canonical(data)], [data, data])
            self.assertEqual(message.encoded_length(), len(data))
            self.assertEqual(message.listing(), self.order.listing(data))
            self.order.check(data)

    def test_types(self):
        self.assertIs(self.order.decode(b"").type, self.order)
        self.assertIs(self.order.pool, self.pool)
        self.assertIs(self.pool["shop.Order"], self.order)
        self.assertEqual([self.order.name, "shop.Line" in self.pool, "shop.Nothing" in self.pool], ["shop.Order", True, False])
        with self.assertRaises(KeyError) as it:
            self.pool["shop.Nothing"]
        self.assertEqual(it.exception.args, ("type shop.Nothing unknown",))
        for it in (mabristu.Message, mabristu.MessageType, mabristu.Field, mabristu.List, mabristu.Map):
            self.assertRaises(TypeError, it)

    def test_fields(self):
        field = self.order.field
        shapes = {it: field(it).shape for it in ("number", "gift", "card", "lines", "discounts")}
        self.assertEqual(shapes, {"number": "implicit", "gift": "optional", "card": "oneof", "lines": "list", "discounts": "map"})
        kinds = {it: field(it).kind for it in ("number", "placed_on", "lines", "discounts", "state", "corrections", "gift")}
        expected = "uint64 string message int32 enum sint32 bool".split()
        self.assertEqual(kinds, dict(zip(("number", "placed_on", "lines", "discounts", "state", "corrections", "gift"), expected)))
        self.assertEqual([field("discounts").key, field("lines").key], ["string", None])
        self.assertIs(field("lines").type, self.pool["shop.Line"])
        self.assertEqual([field("lines").name, field("lines").number, field("number").type], ["lines", 3, None])
        self.assertEqual(field("lines").type.field("price").kind, "double")
        self.assertRaises(KeyError, field, "nothing")

    def test_fields_of_a_type(self):
        found = [(it.name, it.number, it.kind, it.shape, it.key, it.type and it.type.name, it.enum, it.oneof, it.packed) for it in self.order.fields]
        self.assertEqual(found, [
            ("number", 1, "uint64", "implicit", None, None, None, None, False),
            ("placed_on", 2, "string", "implicit", None, None, None, None, False),
            ("lines", 3, "message", "list", None, "shop.Line", None, None, False),
            ("discounts", 4, "int32", "map", "string", None, None, None, False),
            ("card", 5, "string", "oneof", None, None, None, "payment", False),
            ("invoice", 6, "message", "oneof", None, "shop.Invoice", None, "payment", False),
            ("state", 7, "enum", "implicit", None, None, "shop.State", None, False),
            ("corrections", 8, "sint32", "list", None, None, None, None, True),
            ("gift", 9, "bool", "optional", None, None, None, None, False),
        ])
        self.assertIs(self.order.fields[2], self.order.field("lines"))
        # Of fields that were found by their names, in a pool of which nothing was listed.
        field = Pool(example("shop.set"))["shop.Order"].field
        self.assertEqual([field("card").oneof, field("corrections").packed, field("lines").packed, field("gift").oneof], ["payment", True, False, None])
        self.assertEqual(field("invoice").type.name, "shop.Invoice")

    def test_schema(self):
        schema = self.pool.schema()
        self.assertEqual(schema.files, [("shop.proto", "shop", 0, "proto3")])
        self.assertEqual([it[:3] for it in schema.types], [(f"shop.{it}", "shop.proto", None) for it in ("Order", "Line", "Invoice")])
        self.assertIs(schema.types[1].type, self.pool["shop.Line"])
        self.assertEqual(schema.enums, [("shop.State", "shop.proto", None, [("OPEN", 0), ("SENT", 1), ("PAID", 2)])])

    def test_schema_of_sources(self):
        outer, inner = 300 * "M", 300 * "N"
        text = f'syntax = "proto3"; package p.q; import "b.proto"; message {outer} {{ message {inner} {{}} enum E {{ A = 0; B = -1; }} oneof o {{ E e = 1; }} }}'
        schema = Pool.of_sources({"a.proto": text, "b.proto": 'syntax = "proto3";'}).schema()
        self.assertEqual(sorted(schema.files), [("a.proto", "p.q", 1, "proto3"), ("b.proto", "", 0, "proto3")])
        self.assertEqual({it[:3] for it in schema.types}, {(f"p.q.{outer}", "a.proto", None), (f"p.q.{outer}.{inner}", "a.proto", f"p.q.{outer}")})
        self.assertEqual(schema.enums, [(f"p.q.{outer}.E", "a.proto", f"p.q.{outer}", [("A", 0), ("B", -1)])])
        field = next(it for it in schema.types if it.parent is None).type.fields[0]
        self.assertEqual([field.name, field.oneof, field.enum], ["e", "o", f"p.q.{outer}.E"])


def declared(stub, is_of_class):
    """The parameters of a function of a stub, each with its kind, but for self."""
    of, kind = stub.args, inspect.Parameter
    plain = [it.arg for it in of.args]
    found = [(it.arg, kind.POSITIONAL_ONLY) for it in of.posonlyargs] + [(it, kind.POSITIONAL_OR_KEYWORD) for it in plain]
    found += [(of.vararg.arg, kind.VAR_POSITIONAL)] if of.vararg else []
    found += [(it.arg, kind.KEYWORD_ONLY) for it in of.kwonlyargs] + ([(of.kwarg.arg, kind.VAR_KEYWORD)] if of.kwarg else [])
    return [(name, it.description) for name, it in found[is_of_class:] if name != "self"]


class Stubs(unittest.TestCase):
    def test_names(self):
        """The stub declares what the module has."""
        module = sys.modules["mabristu._mabristu"]
        with open(os.path.join(os.path.dirname(mabristu.__file__), "_mabristu.pyi"), encoding="utf-8") as it:
            tree = ast.parse(it.read())
        defined = lambda body: {it.name for it in body if isinstance(it, (ast.FunctionDef, ast.ClassDef))}
        constants = {it.target.id for it in tree.body if isinstance(it, ast.AnnAssign)}
        self.assertEqual(defined(tree.body) | constants, {it for it in dir(module) if not it.startswith("_")})
        for stub in (it for it in tree.body if isinstance(it, ast.ClassDef)):
            names = defined(stub.body) | {it.target.id for it in stub.body if isinstance(it, ast.AnnAssign)}
            found = {it for it in vars(getattr(module, stub.name)) if not it.startswith("_")}
            self.assertLessEqual(found, names)
            self.assertLessEqual({it for it in names if not it.startswith("_")}, found)

    def test_docs(self):
        for it in (mabristu.Pool, mabristu.MessageType, mabristu.Message, mabristu.Field, mabristu.List, mabristu.Map, mabristu.Decoder):
            self.assertTrue(it.__doc__)
            for name, member in vars(it).items():
                self.assertTrue(name.startswith("__") or member.__doc__, f"{it.__name__}.{name} has no docstring")

    def test_signatures(self):
        """Each call has the parameters that the stub declares."""
        with open(os.path.join(os.path.dirname(mabristu.__file__), "_mabristu.pyi"), encoding="utf-8") as it:
            tree = ast.parse(it.read())
        module, count = sys.modules["mabristu._mabristu"], 0
        classes = {it.name: it.body for it in tree.body if isinstance(it, ast.ClassDef)}
        for owner, body in [(None, tree.body), *classes.items()]:
            for stub in (it for it in body if isinstance(it, ast.FunctionDef) and not it.name.startswith("_")):
                is_property = any(getattr(it, "id", "") == "property" for it in stub.decorator_list)
                if not is_property:
                    found = inspect.signature(getattr(getattr(module, owner), stub.name) if owner else getattr(module, stub.name))
                    wanted = declared(stub, any(getattr(it, "id", "") == "classmethod" for it in stub.decorator_list))
                    self.assertEqual([(it.name, it.kind.description) for it in found.parameters.values() if it.name != "self"], wanted, f"{owner}.{stub.name}")
                    count += 1
        self.assertGreater(count, 50)
        self.assertEqual(str(inspect.signature(mabristu.raw_check)), "(data, /, *, max_bytes=2147483647, max_depth=100)")


class Inputs(Shop):
    def test_buffers(self):
        with tempfile.TemporaryFile() as file:
            file.write(self.data)
            file.flush()
            with mmap.mmap(file.fileno(), 0, access=mmap.ACCESS_READ) as mapped:
                for it in (bytearray(self.data), memoryview(self.data), array.array("B", self.data), mapped):
                    self.order.check(it)
                    self.assertEqual(self.order.decode(it).listing(), self.listed)
        self.assertEqual(Pool(bytearray(example("shop.set")))["shop.Order"].canonical(self.data), self.order.canonical(self.data))

    def test_what_is_no_buffer(self):
        for it in ("text", 7, None, [1]):
            self.assertRaises(TypeError, self.order.check, it)
        self.assertRaises(BufferError, self.order.check, memoryview(bytes(8))[::2])
        self.assertRaises(TypeError, self.order.check)
        self.assertRaises(TypeError, Pool)

    def test_a_buffer_is_given_back(self):
        data = bytearray(self.data)
        self.order.check(data)
        data.append(0)

    def test_limits(self):
        check = self.order.check
        self.assertEqual(str(self.refused(check, self.data, max_bytes=3)), "byte 3 path - cause InputTooLarge")
        self.assertEqual(self.refused(check, b"\x1a\x00", max_depth=0).cause, "TooDeep")
        check(b"\x1a\x00", max_depth=1, max_bytes=2)
        for limits in ({"max_depth": 101}, {"max_bytes": 1 << 31}, {"max_bytes": -1}):
            self.assertRaises(ValueError, check, b"", **limits)
        self.assertEqual([mabristu.MAX_BYTES, mabristu.MAX_DEPTH], [2**31 - 1, 100])


class Refusals(Shop):
    def test_fault(self):
        # In the second of two lines (3) the article (1) is longer than the line.
        data = b"\x1a\x00\x1a\x02\x0a\x05"
        for call in (self.order.check, self.order.decode, self.order.canonical, self.order.listing):
            refused = self.refused(call, data)
            self.assertEqual((refused.byte, refused.path, refused.cause, refused.number), (5, ((3, 1), (1, 0)), "PastEnd", 2))
            self.assertEqual(str(refused), "byte 5 path 3[1].1[0] cause PastEnd")
        self.assertEqual(self.refused(mabristu.raw_check, b"\x0f").cause, "BadType")
        self.assertIsInstance(refused, ValueError)

    def test_sets(self):
        self.assertEqual(str(self.refused(Pool, b"\x0a")), "set byte 1 path 1[0] cause Truncated")
        # A file with an extension (7) and the syntax proto2 (12).
        data = b"\x0a\x19\x0a\x01f\x3a\x0c\x0a\x01x\x12\x01T\x18\x64\x20\x01\x28\x05\x62\x06proto2"
        refused = self.refused(Pool, data)
        self.assertEqual((str(refused), refused.file), ("set file 0 cause Extension", 0))
        self.assertEqual([Pool(data, lenient=True).left_out, self.pool.left_out], [1, 0])

    def test_sources(self):
        of = lambda text: Pool.of_sources({"a.proto": 'syntax = "proto3"; ' + text})
        refused = self.refused(of, "message A { B b = 1; }")
        self.assertEqual((str(refused), refused.file, refused.name), ("link a.proto at A.b cause NotFound", "a.proto", "A.b"))
        refused = self.refused(of, "message A { int32 b = 1 }")
        self.assertEqual((str(refused), refused.file, refused.byte), ("source a.proto byte 43 cause Unexpected", "a.proto", 43))
        long_name = 1000 * "N"
        refused = self.refused(of, f"message {long_name} {{ B b = 1; }}")
        self.assertEqual(refused.name, f"{long_name}.b")
        self.assertEqual(of("message A { int32 b = 1; }")["A"].listing(b"\x08\x07"), "b: 7\n")
        pool = Pool.of_sources({"shop.proto": example("shop.proto"), "b.proto": 'syntax = "proto3"; import "shop.proto"; message B { shop.Order o = 1; }'})
        self.assertEqual(pool["B"].field("o").type.canonical(self.data), self.order.canonical(self.data))
        self.assertRaises(TypeError, Pool.of_sources, {"a.proto": 7})
        self.assertRaises(ValueError, Pool.of_sources, {b"\xff": ""})
        Pool.of_sources({})


class Streams(Shop):
    def test_frames(self):
        stream = 3 * framed(self.data) + framed(b"")
        for source in (stream, bytearray(stream), io.BytesIO(stream)):
            found = [(it.at, it.size, it.data) for it in self.order.frames(source)]
            self.assertEqual(found, [(0, 119, self.data), (119, 119, self.data), (238, 119, self.data), (357, 1, b"")])
        self.assertEqual(list(self.order.frames(b"")), [])

    def test_bad_frames_are_skipped(self):
        stream = framed(self.data) + b"\x03\x1a\x09\x09" + framed(b"") + framed(self.data)[:40]
        for source in (stream, io.BytesIO(stream)):
            bad = []
            self.assertEqual([it.at for it in self.order.frames(source, skip=bad.append)], [0, 123])
            self.assertEqual([str(it) for it in bad], ["frame 1 byte 2 path 3[0] cause PastEnd", "frame 3 byte 40 path 3[1] cause Truncated"])
            self.assertEqual([(it.frame, it.at, it.byte, it.size) for it in bad], [(1, 119, 2, 4), (3, 124, 40, 119)])

    def test_reading_goes_on_after_a_refusal(self):
        frames = self.order.frames(framed(self.data) + b"\x03\x1a\x09\x09" + framed(b""))
        self.assertEqual(next(frames).at, 0)
        self.assertRaises(Refused, next, frames)
        self.assertEqual([it.at for it in frames], [123])

    def test_long_frames_by_pieces(self):
        class Slow(io.BytesIO):
            def read(self, size=-1):
                return super().read(min(size, 1000))

        # Two messages of an unknown record of 200,000 bytes, and between them one with the same length that is no message.
        long = b"\xfa\x06\xc0\x9a\x0c" + 200_000 * b"\x07"
        length = b"\xc5\x9a\x0c"
        bad = []
        found = [it.data == long for it in self.order.frames(Slow(length + long + length + b"\x0f" + long[1:] + length + long), skip=bad.append)]
        self.assertEqual((found, [str(it) for it in bad]), ([True, True], ["frame 1 byte 3 path - cause BadType"]))

    def test_short_reads_are_linear(self):
        class Counted(io.BytesIO):
            """Gives at most so many bytes a read."""

            def __init__(self, data, most):
                super().__init__(data)
                self.most = most

            def read(self, size=-1):
                return super().read(min(size, self.most))

        def judged(size, most):
            """How many bytes the library is given to judge of a frame of this size."""
            class Type:
                def __getattr__(_, name):
                    return getattr(self.order, name)

                def _frame(_, data, at, *limits):
                    counts.append(len(data) - at)
                    return self.order._frame(data, at, *limits)

            counts, data = [], b"\xfa\x06" + self.length(size) + size * b"\x07"
            found = list(mabristu.Frames(Type(), Counted(self.length(len(data)) + data, most)))
            self.assertEqual([it.data == data for it in found], [True])
            return sum(counts)

        for most in (1, 1460, 65536):
            self.assertLess(judged(200_000, most), 1_000_000)
        self.assertLess(judged(8_000_000, 65536), 40_000_000)

    @staticmethod
    def length(number):
        found = b""
        while number > 127:
            found, number = found + bytes([number % 128 + 128]), number // 128
        return found + bytes([number])

    def test_a_length_that_is_none(self):
        self.assertEqual(self.refused(lambda: list(self.order.frames(11 * b"\x80"))).at, 0)
        bad = []
        self.assertEqual(list(self.order.frames(11 * b"\x80" + framed(b""), skip=bad.append)), [])
        self.assertEqual(len(bad), 1)


class Threads(Shop):
    def test_one_pool(self):
        data = 20_000 * (b"\x1a\x09\x0a\x07bolt M8")
        expected = self.order.canonical(data)
        with ThreadPoolExecutor(4) as pool:
            self.assertEqual(set(pool.map(self.order.canonical, 12 * [data])), {expected})
            self.assertEqual(set(pool.map(lambda it: self.order.decode(it).encode(), 12 * [data])), {expected})

    def in_a_thread(self, call):
        with ThreadPoolExecutor(1) as pool:
            return pool.submit(call).result()

    def test_a_message_on_other_threads(self):
        message = self.in_a_thread(lambda: self.order.decode(self.data))
        self.assertEqual(message.listing(), self.listed)
        message["number"] = 1
        self.in_a_thread(lambda: message["lines"].append({"article": "nut"}))
        self.assertEqual([self.in_a_thread(message.encode), len(message["lines"])], [message.encode(), 3])
        self.assertEqual(asyncio.run(self.decoded()), self.order.decode(self.data))

    async def decoded(self):
        return await asyncio.to_thread(self.order.decode, self.data)

    def test_messages_dropped_by_another_thread(self):
        # What 5,000 messages of some 20 KB take is given back.
        for _ in range(3):
            before = resident()
            for _ in range(10):
                messages = [self.order.decode(self.data + b"\xfa\x06\xa0\x9c\x01" + 20_000 * b"x") for _ in range(500)]
                self.in_a_thread(messages.clear)
        self.assertLess(resident() - before, 30_000_000)
        self.assertEqual(self.order.decode(self.data).listing(), self.listed)

    def test_many_threads_and_one_message(self):
        message = self.order.decode(self.data)

        def work(index):
            for _ in range(50):
                message["number"] = index
                message["lines"].append({"pieces": index})
                self.assertGreater(len(message.to_dict()["lines"]), 2)
                message.encode(), repr(message), message.copy(), list(message["lines"])[0]["article"]

        with ThreadPoolExecutor(4) as pool:
            list(pool.map(work, range(1, 5)))
        self.assertEqual(len(message["lines"]), 2 + 4 * 50)

    def test_pools_are_collected(self):
        count = lambda: (gc.collect(), sum(isinstance(it, Pool) for it in gc.get_objects()))[1]
        before = count()
        for _ in range(100):
            pool = Pool(example("shop.set"))
            message = pool["shop.Order"].field("lines").type.decode(b"")
            del pool
            self.assertEqual(message.encode(), b"")
        del message
        self.assertEqual(count(), before)


class Whole(Shop):
    def test_copies(self):
        order = self.order.decode(self.data)
        for it in (order.copy(), copy.copy(order), copy.deepcopy(order)):
            self.assertEqual([it == order, it is order, it.type, it.encode()], [True, False, self.order, order.encode()])
            it["number"] = 8
            self.assertEqual([it == order, it != order, order["number"], it["number"]], [False, True, 4711, 8])
        self.assertTrue(order == order)
        # Floats are compared by their bits.
        nan = Pool.of_sources({"f.proto": 'syntax = "proto3"; message F { float f = 1; }'})["F"].from_dict({"f": float("nan")})
        self.assertEqual(nan, nan.copy())

    def test_merging(self):
        order = self.order.decode(self.data)
        # By hand: 1 varint 9; 3 {2: 7}; 4 {1: "spring", 2: 1}; 5 "4000"; 8 packed zigzag 1.
        more = bytes.fromhex("0809" "1a021007" "220a0a06737072696e671001" "2a0434303030" "420101")
        wanted = self.order.canonical(order.encode() + more)
        order.merge(memoryview(more))
        self.assertEqual(order.encode(), wanted)
        self.assertEqual([order["number"], len(order["lines"]), order["discounts"].items(), order["card"], "invoice" in order, list(order["corrections"])],
                         [9, 3, [("loyal", 3), ("spring", 1)], "4000", False, [-1, 2, -1]])
        refused = self.refused(order.merge, b"\x08\x09\x12\x05")
        self.assertEqual([refused.byte, refused.cause, order.encode()], [4, "Truncated", wanted])
        self.assertEqual(self.refused(order.merge, more, max_bytes=3).cause, "InputTooLarge")
        other = self.order.from_dict({"gift": True, "corrections": [5]})
        order.merge(other)
        self.assertEqual([order["gift"], list(order["corrections"])], [True, [-1, 2, -1, 5]])
        self.assertRaises(TypeError, order.merge, self.pool["shop.Line"]())
        self.assertRaises(TypeError, order.merge, "text")
        self.assertRaises(TypeError, order["lines"][0].merge, b"")
        order.merge(order)
        self.assertEqual(list(order["corrections"]), 2 * [-1, 2, -1, 5])

    def test_oneofs(self):
        order = self.order()
        self.assertIsNone(order.which_oneof("payment"))
        order["card"] = ""
        self.assertEqual(order.which_oneof("payment"), "card")
        order["invoice"] = {}
        self.assertEqual(order.which_oneof("payment"), "invoice")
        self.assertRaises(KeyError, order.which_oneof, "nothing")
        self.assertRaises(KeyError, order["invoice"].which_oneof, "payment")

    def test_unknown_records(self):
        # Field 99 is 2, in two bytes, and a line has a field 100 of seven bytes; the shortest encoding of 2 has one.
        order = self.order.decode(b"\x98\x06\x82\x00\x1a\x0a\xa2\x06\x07unknown\x9b\x06\x9c\x06")
        self.assertEqual([order.unknown, order["lines"][0].unknown, self.order().unknown], [b"\x98\x06\x02\x9b\x06\x9c\x06", b"\xa2\x06\x07unknown", b""])
        order.drop_unknown()
        self.assertEqual([order.unknown, order["lines"][0].unknown], [b"", b"\xa2\x06\x07unknown"])

    def test_decimal(self):
        message = Pool.of_sources({"f.proto": 'syntax = "proto3"; message F { double d = 1; }'})["F"].from_dict({"d": 0.1})
        listed = ["d: 0.1\n", "d: 0x3fb999999999999a\n"]
        self.assertEqual([message.listing(decimal=True), message.listing()], listed)
        self.assertEqual([message.type.listing(message.encode(), decimal=it) for it in (True, False)], listed)
        self.assertRaises(TypeError, message.type.listing, b"", octal=True)

    def test_causes(self):
        self.assertEqual([mabristu.CAUSES[it] for it in (1, 12, 21, 31, 50, 52, 61, 71, 89)],
                         "Truncated InputTooLarge NoSuchField TooLarge SourceTooLarge MissingName BadUtf8 TwoFiles ClosedEnum".split())
        self.assertEqual([it in mabristu.CAUSES for it in (0, 13, 20, 59, 88, 90, 100)], [False] * 7)

    def test_lenient_sources(self):
        source = {"m.proto": 'syntax = "proto3"; option (o).p = { q: 1.5 }; message M { int32 a = 1 [(x) = -inf]; }'}
        self.assertEqual(self.refused(Pool.of_sources, source).cause, "CustomOption")
        self.assertEqual(Pool.of_sources(source, lenient=True)["M"].field("a").number, 1)
        self.assertEqual(self.refused(Pool.of_sources, {"m.proto": 'syntax = "proto3"; message M {'}, lenient=True).cause, "Unexpected")

    def test_lenient_maps_of_enums(self):
        # A list of entries, of which two have one key; in a file of proto3 it would be a map.
        text = "enum E { A = 0; B = 5; } message M { map<int32, E> m = 1; }"
        listing = lambda text: Pool.of_sources({"m.proto": text}, lenient=True)["M"].decode(bytes.fromhex("0a04080110050a0408011000")).listing()
        self.assertEqual(listing(text), "m {\n  key: 1\n  value: B\n}\nm {\n  key: 1\n  value: A\n}\n")
        self.assertEqual(listing('syntax = "proto3"; ' + text), "m[1]: A\n")
        self.assertEqual(self.refused(Pool.of_sources, {"m.proto": text}).cause, "NotProto3")

    def test_places(self):
        of = Pool.of_sources({"m.proto": 'syntax = "proto3"; message M { map<sint64, M> a = 1; map<bool, int32> b = 2; repeated M c = 3; }'})["M"]
        for type, path, steps in (
            (self.order, "lines[1].article", (3, 1, 1)), (self.order, 'discounts["l\\x6fyal"]', (4, "loyal")), (self.order, "invoice.signature", (6, 2)),
            (self.order, "", ()), (of, "a[-7].b[true]", (1, -7, 2, True)), (of, "c[18446744073709551615].a", (3, 2**64 - 1, 1)),
        ):
            self.assertEqual(type.place(path), steps)
        for path, error, byte in (("lines[1].none", KeyError, 9), ("number[0]", ValueError, 6), ("lines.price", ValueError, 5), ("lines[x]", ValueError, 6)):
            self.assertRaisesRegex(error, f"path byte {byte}: ", self.order.place, path)
        self.assertRaises(TypeError, self.order.place, 1)

    def test_versions(self):
        of = lambda fields: Pool.of_sources({"m.proto": f'syntax = "proto3"; message M {{ {fields} }} message N {{ bytes a = 1; }}'})["M"]
        old = of("int64 a = 1; int32 b = 2; string c = 3; M m = 4; int32 e = 5; N n = 6; int32 g = 7;")
        new = of("double a = 1; int64 b = 2; M m = 4; optional int32 e = 5; N n = 6; int32 h = 7; int32 i = 8;")
        found = old.compat(new)
        self.assertEqual([(it.old, it.new, it.field.name, it.severity) for it in found], [
            (old, new, "a", "breaks"), (old, new, "b", "converts"), (old, new, "c", "loses"), (old, new, "e", "presence"), (old, new, "g", "renames")])
        self.assertEqual([old.compat(old), self.order.compat(self.order)], [[], []])
        self.assertRaises(TypeError, old.compat, "M")
        # An int64 is a varint, and a double has eight bytes: the new type takes the record for an unknown one.
        shown = old.witness(new, found[0])
        self.assertEqual([shown.type, new.decode(shown.encode())["a"], new.decode(shown.encode()).unknown], [old, 0.0, shown.encode()])
        self.assertEqual([it.name for it in shown], ["a"])
        self.assertEqual([old.witness(new, it) for it in found[1:]], [None] * 4)
        for wrong in ((new, "a"), ("M", found[0]), (old, found[0]), (new, found[0]._replace(old=new)), (new, found[0]._replace(field=1)), (new,)):
            self.assertRaises(TypeError, old.witness, *wrong)
        wide = [of(" ".join(f"{kind} f{it} = {it};" for it in range(1, 200))) for kind in ("int32", "string")]
        self.assertEqual([(it.field.number, it.severity) for it in wide[0].compat(wide[1])], [(it, "breaks") for it in range(1, 200)])


class Parts(Shop):
    def test_fields(self):
        order = self.order.decode(self.data)
        self.assertEqual([order[it] for it in ("number", "placed_on", "state", "gift", "card")], [4711, "2024-05-17", 1, False, None])
        self.assertEqual([order["lines"][1]["article"], order["lines"][-2]["price"], len(order["lines"])], ["torque wrench", 0.35, 2])
        self.assertEqual([it["pieces"] for it in order["lines"]], [200, 1])
        self.assertEqual([it["pieces"] for it in order["lines"][::-1]], [1, 200])
        self.assertEqual(order["discounts"].items(), [("loyal", 3), ("spring", 5)])
        self.assertEqual([list(order["discounts"]), order["discounts"].values(), order["discounts"]["loyal"]], [["loyal", "spring"], [3, 5], 3])
        self.assertEqual([order["invoice"]["address"], order["invoice"]["signature"]], ["Main Street 1", b"\x01\xff"])
        self.assertEqual(list(order["corrections"]), [-1, 2])
        self.assertEqual([it in order for it in ("gift", "card", "lines")], [True, False, True])
        self.assertEqual([order.numbers(), order["invoice"].numbers()], [[1, 2, 3, 4, 6, 7, 8, 9], [1, 2]])
        self.assertEqual([order.get("card", 5), order.get("number", 5), order[self.order.field("number")]], [5, 4711, 4711])

    def test_unset_fields(self):
        order = self.order()
        self.assertEqual([order[it] for it in ("number", "placed_on", "state", "gift", "card")], [0, "", 0, None, None])
        self.assertEqual([bool(order["invoice"]), order["invoice"]["address"], order["invoice"].to_dict(), order["invoice"].numbers()], [False, "", {}, []])
        self.assertEqual(["invoice" in order, order.encode()], [False, b""])
        self.assertEqual([len(order["lines"]), list(order["lines"]), len(order["discounts"]), order["discounts"].items()], [0, [], 0, []])
        self.assertEqual([order["discounts"].get("x"), order.numbers(), "number" in order], [None, [], False])

    def test_refusals(self):
        order = self.order.decode(self.data)
        self.assertRaises(KeyError, lambda: order["nothing"])
        self.assertRaises(IndexError, lambda: order["lines"][2])
        self.assertRaises(IndexError, lambda: order["lines"][-3])
        self.assertRaises(KeyError, lambda: order["discounts"]["nothing"])
        self.assertRaises(TypeError, lambda: order["lines"]["a"])
        self.assertFalse(5 in order["discounts"])

    def test_parts_keep_their_message(self):
        line = self.order.decode(self.data)["lines"][0]
        gc.collect()
        self.assertEqual(line["article"], "bolt M8")


class Changes(Shop):
    def test_scalars(self):
        order = self.order()
        values = {"number": 2**64 - 1, "placed_on": "h\u00e9", "state": 1, "gift": False, "card": "4000", "corrections": [-1, 2**31 - 1], "discounts": {"a": -3}}
        for name, value in values.items():
            order[name] = value
        self.assertEqual(order.to_dict(), values)
        # By hand: 1 varint 2^64 - 1; 2 "h\xc3\xa9"; 4 {1: "a", 2: -3}; 5 "4000"; 7 1; 8 packed zigzag 1 and 2^32 - 2; 9 0.
        self.assertEqual(order.encode().hex(), "08ffffffffffffffffff01" "120368c3a9" "220e0a016110fdffffffffffffffff01" "2a0434303030" "3801" "420601feffffff0f" "4800")
        order[1] = 5
        order[self.order.field("state")] = 0
        self.assertEqual([order["number"], "state" in order, [it.name for it in order]], [5, False, ["number", "placed_on", "discounts", "card", "corrections", "gift"]])

    def test_nested(self):
        order = self.order.decode(self.data)
        order["lines"][0]["price"] = 3
        order["lines"][-1]["article"] = "nut"
        order["invoice"]["signature"] = bytearray(b"ab")
        self.assertEqual([order["lines"][0]["price"], order["lines"][1]["article"], order["invoice"]["signature"]], [3.0, "nut", b"ab"])
        order["card"] = "4000"
        self.assertEqual([order["card"], bool(order["invoice"]), "invoice" in order], ["4000", False, False])
        order["invoice"] = {"address": "Main Street 1"}
        self.assertEqual([order["card"], order["invoice"].to_dict()], [None, {"address": "Main Street 1"}])
        order["invoice"] = {}
        self.assertEqual([order["invoice"].to_dict(), "invoice" in order], [{}, True])

    def test_lists(self):
        order = self.order.decode(self.data)
        order["corrections"].append(7)
        order["corrections"].extend(range(2))
        order["corrections"][0] = 9
        self.assertEqual(list(order["corrections"]), [9, 2, 7, 0, 1])
        del order["corrections"][1:3]
        self.assertEqual(list(order["corrections"]), [9, 0, 1])
        order["corrections"][-1] = 4
        del order["corrections"][0]
        self.assertEqual(list(order["corrections"]), [0, 4])
        order["corrections"] = [9, 0, 1]
        order["lines"].append({"article": "washer", "pieces": 3})
        order["lines"][0] = {"article": "nut"}
        self.assertEqual([it["article"] for it in order["lines"]], ["nut", "torque wrench", "washer"])
        self.assertEqual(order["lines"][0].to_dict(), {"article": "nut"})
        order["lines"][-1] = {"pieces": order["lines"][2]["pieces"] + 1}
        self.assertEqual(order["lines"][2].to_dict(), {"pieces": 4})
        del order["lines"][1]
        self.assertEqual([it.to_dict() for it in order["lines"]], [{"article": "nut"}, {"pieces": 4}])
        del order["lines"][::-1]
        self.assertNotIn("lines", order)
        order["lines"] = ({"pieces": it} for it in (1, 2))
        self.assertEqual([it["pieces"] for it in order["lines"]], [1, 2])
        order["lines"].clear()
        order[8].append(3)
        self.assertEqual([list(order["lines"]), list(order[8])], [[], [9, 0, 1, 3]])

    def test_maps(self):
        order = self.order.decode(self.data)
        order["discounts"]["new"] = 1
        order["discounts"]["loyal"] = 2
        del order["discounts"]["spring"]
        self.assertEqual(order["discounts"].items(), [("loyal", 2), ("new", 1)])
        order["discounts"] = {"b": 1}
        order["discounts"]["a"] = 0
        self.assertEqual(order.to_dict()["discounts"], {"a": 0, "b": 1})
        other = self.order()
        other["discounts"], other["corrections"] = order["discounts"], order["corrections"]
        self.assertEqual(other.to_dict(), {"discounts": {"a": 0, "b": 1}, "corrections": [-1, 2]})
        order["discounts"].clear()
        self.assertNotIn("discounts", order)
        pool = Pool.of_sources({"a.proto": 'syntax = "proto3"; message A { map<sint64, A> a = 1; map<bool, bytes> b = 2; float f = 3; fixed64 g = 4; }'})
        message = pool["A"].from_dict({"a": {-1: {"f": 0.5}, 2: {}}, "b": {True: b"x"}, "g": 2**63})
        message["a"][-1]["a"] = {7: {"g": 1}}
        message["a"][5] = {"b": {}}
        self.assertEqual(message.to_dict(), {"a": {-1: {"a": {7: {"g": 1}}, "f": 0.5}, 2: {}, 5: {}}, "b": {True: b"x"}, "g": 2**63})
        self.assertEqual(pool["A"].decode(message.encode()), message)

    def test_clear(self):
        order = self.order.decode(self.data)
        del order["number"]
        del order["lines"][0]["article"]
        del order["invoice"]
        self.assertEqual([order["number"], "article" in order["lines"][0], bool(order["invoice"])], [0, False, False])
        order = self.order.decode(b"\x08\x05\xfa\x06\x01\x07")
        order.drop_unknown()
        self.assertEqual(order.encode(), b"\x08\x05")

    def test_dicts(self):
        order = self.order.decode(self.data)
        self.assertEqual(order.to_dict(), {
            "number": 4711, "placed_on": "2024-05-17", "discounts": {"loyal": 3, "spring": 5}, "state": 1, "corrections": [-1, 2], "gift": False,
            "lines": [{"article": "bolt M8", "pieces": 200, "price": 0.35}, {"article": "torque wrench", "pieces": 1, "price": 89.5}],
            "invoice": {"address": "Main Street 1", "signature": b"\x01\xff"},
        })
        order.drop_unknown()
        self.assertEqual(self.order.from_dict(order.to_dict()), order)
        self.assertEqual(self.order.from_dict({}).encode(), b"")

    def test_refusals(self):
        order = self.order.decode(self.data)
        before = order.encode()

        def assign(part, name, value):
            part[name] = value

        for name, value in (("number", -1), ("number", 2**64), ("number", 10**30), ("state", 2**31), ("corrections", [1, -2**31 - 1]), ("discounts", {"a": 2**31})):
            self.assertRaises(ValueError, assign, order, name, value)
        for name, value in (("number", "1"), ("number", True), ("number", 1.0), ("number", None), ("placed_on", b"a"), ("gift", 1), ("lines", 5), ("lines", [5]),
                            ("lines", {}), ("corrections", "12"), ("discounts", [1]), ("discounts", {1: 1}), ("invoice", "x"), ("invoice", {"signature": "x"})):
            self.assertRaises(TypeError, assign, order, name, value)
        for name, value in (("nothing", 1), (99, 1), ("invoice", {"nothing": 1}), ("lines", [{}, {"nothing": 1}])):
            self.assertRaises(KeyError, assign, order, name, value)
        self.assertRaises(UnicodeEncodeError, assign, order, "placed_on", "\ud800")
        for part, index, value in (("corrections", 9, 1), ("corrections", -3, 1), ("lines", 2, {})):
            self.assertRaises(IndexError, assign, order[part], index, value)
            self.assertRaises(IndexError, order[part].__delitem__, index)
        self.assertRaises(ValueError, assign, order["corrections"], 0, 2**31)
        self.assertRaises(TypeError, assign, order["corrections"], "0", 1)
        self.assertRaises(KeyError, order["discounts"].__delitem__, "nothing")
        self.assertRaises(KeyError, assign, order["lines"], 0, {"nothing": 1})
        self.assertRaises(TypeError, order["lines"].append, {"pieces": "x"})
        self.assertRaises(ValueError, order["corrections"].append, 2**31)
        self.assertRaises(KeyError, self.order.from_dict, {"nothing": 1})
        self.assertRaises(TypeError, self.order.from_dict, [1])
        self.assertEqual(order.encode(), before)
        line = order["lines"][1]
        order["lines"].clear()
        self.assertRaises(LookupError, assign, line, "pieces", 1)

    def test_causes(self):
        pool = Pool.of_sources({"a.proto": 'syntax = "proto3"; message A { A a = 1; }'})
        message = pool["A"]()
        part = message
        for _ in range(100):
            part["a"] = {}
            part = part["a"]
        refused = self.refused(part.__setitem__, "a", {})
        self.assertEqual([refused.cause, refused.number, str(refused)], ["TooDeep", 27, "change cause TooDeep"])
        self.assertEqual(message.encoded_length(), len(message.encode()))


class Framed(Shop):
    def test_frames(self):
        order = self.order.decode(self.data)
        # The length of 118 bytes is one byte; that of 300 is two, 0xac 0x02.
        self.assertEqual([self.order().frame(), order.frame()], [b"\0", bytes([len(order.encode())]) + order.encode()])
        long = self.order.from_dict({"placed_on": 297 * "a"})
        self.assertEqual(long.frame(), b"\xac\x02\x12\xa9\x02" + 297 * b"a")
        larger = self.order.from_dict({"placed_on": 10_000 * "a"})
        stream = b"".join(it.frame() for it in (order, self.order(), long, larger))
        self.assertEqual([it.data for it in self.order.frames(stream)], [it.encode() for it in (order, self.order(), long, larger)])


class Find(Shop):
    def test_values(self):
        find = lambda *names: self.order.find(self.data, *names)
        self.assertEqual([find("number"), find("placed_on"), find("invoice", "signature"), find("gift"), find("card")],
                         [4711, "2024-05-17", b"\x01\xff", False, None])
        self.assertEqual([self.order.find(b"", "number"), self.order.find(b"", "gift")], [0, None])
        long = 3000 * "a"
        self.assertEqual(self.order.find(b"\x12\xb8\x17" + long.encode(), "placed_on"), long)

    def test_by_number_and_field(self):
        """A field is named by its name, its number or a Field, in each place, with the same answer."""
        invoice, card = self.order.field("invoice"), self.order.field("card")
        for fields in (("number",), (1,), (self.order.field("number"),)):
            self.assertEqual([self.order.find(self.data, *fields), self.order.find(b"", *fields)], [4711, 0])
        for fields in (("invoice", "address"), (6, 1), (invoice, "address"), ("invoice", invoice.type.fields[0]), (6, "address")):
            self.assertEqual([self.order.find(self.data, *fields), self.order.find(b"", *fields)], ["Main Street 1", None])
        self.assertIsNone(self.order.find(self.data, card))
        for fields in ((99,), (0,), (-1,), (1 << 70,), (6, 99), (invoice.type.fields[0],), ("invoice", "number")):
            self.assertRaises(KeyError, self.order.find, self.data, *fields)
        for fields in ((3,), (3, 1), (4,), (6,), (1, 1), (True,), (1.0,), (None,)):
            self.assertRaises(TypeError, self.order.find, self.data, *fields)

    def test_refusals(self):
        self.assertEqual(self.refused(self.order.find, self.data[:50], "number").cause, "Truncated")
        self.assertRaises(TypeError, self.order.find, self.data)
        self.assertRaises(TypeError, self.order.find, self.data, "number", "number")
        self.assertRaises(KeyError, self.order.find, self.data, "nothing")


if __name__ == "__main__":
    unittest.main()
