"""What is asked of both databases, with the values that the bytes have by the encoding guide and by kinds.proto, worked out by hand or by Python."""
import json
import math
import os
import random
import struct

from engines import Error, Json

HERE = os.path.dirname(os.path.realpath(__file__))
TOP = os.path.dirname(os.path.dirname(os.path.dirname(HERE)))
NAN, INFINITY = float("nan"), float("inf")


class Single(float):
    """A float of four bytes. PostgreSQL has the fewest digits that read back as these."""


def read(path):
    with open(path, "rb") as it:
        return it.read()


ORDER = read(f"{TOP}/examples/shop_order.bin")


def varint(number):
    number &= (1 << 64) - 1
    return bytes([number]) if number < 128 else bytes([number & 127 | 128]) + varint(number >> 7)


def number(of, value):
    """A varint record."""
    return varint(of << 3) + varint(value)


def part(of, *payload):
    """A length-delimited record."""
    joined = b"".join(payload)
    return varint(of << 3 | 2) + varint(len(joined)) + joined


def group(of, *payload):
    return varint(of << 3 | 3) + b"".join(payload) + varint(of << 3 | 4)


def double(of, value):
    return varint(of << 3 | 1) + struct.pack("<d", value)


def single(of, value):
    return varint(of << 3 | 5) + struct.pack("<f", value)


def rounded(value):
    return Single(struct.unpack("<f", struct.pack("<f", value))[0])


def nested(depth, of=17, innermost=b""):
    for _ in range(depth):
        innermost = part(of, innermost)
    return innermost


# ---- pb_get: the type, the bytes, the path, and the value ----

SHOP = [
    (ORDER, "number", 4711), (ORDER, "placed_on", "2024-05-17"), (ORDER, "lines[0].article", "bolt M8"), (ORDER, "lines[1].price", 89.5),
    (ORDER, "lines[2].price", None), (ORDER, "lines[18446744073709551615].price", None), (ORDER, 'discounts["loyal"]', 3), (ORDER, 'discounts["autumn"]', None),
    (ORDER, "invoice.address", "Main Street 1"), (ORDER, "invoice.signature", b"\x01\xff"), (ORDER, "card", None), (ORDER, "state", "SENT"),
    (ORDER, "corrections[0]", -1), (ORDER, "corrections[2]", None), (ORDER, "gift", False), (ORDER, "discounts", Json({"loyal": 3, "spring": 5})),
    (ORDER, "corrections", Json([-1, 2])), (ORDER, "invoice", Json({"address": "Main Street 1", "signature": "Af8="})),
    (ORDER, "lines[1]", Json({"article": "torque wrench", "pieces": 1, "price": 89.5})),
    (ORDER, "lines", Json([{"article": "bolt M8", "pieces": 200, "price": 0.35}, {"article": "torque wrench", "pieces": 1, "price": 89.5}])),
    # Nothing is set: a default without presence, an empty list, and nothing.
    (b"", "number", 0), (b"", "placed_on", ""), (b"", "state", "OPEN"), (b"", "lines", Json([])), (b"", "discounts", Json({})), (b"", "gift", None),
    (b"", "invoice", None), (b"", "invoice.address", None), (b"", "lines[0]", None), (b"", "lines[0].article", None), (b"", 'discounts["a"]', None), (b"", "card", None),
    (part(6), "invoice.address", ""), (part(6), "invoice.signature", b""), (part(6), "invoice", Json({})), (part(3), "lines[0].price", 0.0), (part(3), "lines[0]", Json({})),
    # The last record counts; messages are merged; of a oneof the last member.
    (number(1, 1) + number(1, 2), "number", 2), (part(6, part(1, b"a")) + part(6, part(2, b"b")), "invoice", Json({"address": "a", "signature": "Yg=="})),
    (part(6, part(1, b"a")) + part(5, b"4000"), "invoice.address", None), (part(6, part(1, b"a")) + part(5, b"4000"), "card", "4000"),
    (part(4, number(2, 7), part(1, b"k")) + part(4, part(1, b"k"), number(2, 8)), 'discounts["k"]', 8), (part(4, number(2, 7)), 'discounts[""]', 7),
    (part(4), "discounts", Json({"": 0})), (number(7, 9), "state", 9), (number(7, -1), "state", -1), (part(8, varint(1), varint(4)) + number(8, 3), "corrections", Json([-1, 2, -2])),
    # An unknown record of a known number: an invoice is no varint.
    (number(6, 1), "invoice", None), (number(3, 1) + part(3, part(1, b"x")), "lines[0].article", "x"), (number(3, 1), "lines", Json([])), (part(3, part(1, b"x")) + number(7, 1) + number(3, 1), "lines", Json([{"article": "x"}])), (part(1, b"ab"), "number", 0),
    (part(3, part(1, b"a\xc3\xa9\xe2\x82\xac\xf0\x9f\x99\x82")), "lines[0].article", "a\u00e9\u20ac\U0001f642"),
    # Paths that name nothing of the type, and bytes that are refused.
    (b"", "", Error("path byte 0: the name of a field is expected")), (b"", "lines[0].", Error("path byte 9: the name of a field is expected")),
    (b"", "nothing", Error("path byte 0: shop.Order has no field nothing")), (b"", "lines[0].artcle", Error("path byte 9: shop.Line has no field artcle")),
    (b"", "lines.article", Error("path byte 6: lines is a list: an index in brackets comes before the dot")), (b"", "lines]", Error("path byte 5: a dot or [ is expected")),
    (b"", "discounts.a", Error("path byte 10: discounts is a map: a key in brackets comes before the dot")), (b"", "number.a", Error("path byte 7: number is no message")),
    (b"", "number[0]", Error("path byte 6: number is no list and no map")), (b"", "lines[-1]", Error("path byte 6: lines is a list: an index is expected, as [0]")),
    (b"", "lines[18446744073709551616]", Error("path byte 6: lines is a list: an index is expected")), (b"", "lines[]", Error("path byte 6: lines is a list: an index is")),
    (b"", 'lines["a"]', Error("path byte 6: lines is a list: an index is expected")), (b"", "lines[0", Error("path byte 7: ] is expected")),
    (b"", "lines[0]x", Error("path byte 8: a dot is expected")), (b"", " number", Error("path byte 0: the name of a field is expected")),
    (b"", "discounts[a]", Error("path byte 10: discounts is a map: a key in double quotes is expected, as [\"key\"]")), (b"", 'discounts["a]', Error("path byte 13: the key does not end")),
    (b"", 'discounts["a\\q"]', Error("path byte 12: the key does not end, or has a backslash")), (b"", 'discounts["\\xff"]', Error("path: a key is not UTF-8")),
    (b"", "payment", Error("path byte 0: shop.Order has no field payment")), (b"", "\u00e9", Error("path byte 0: the name of a field is expected")),
    (ORDER[:65], "number", Error("byte 65 path 3[1].3[0] cause Truncated (lines[1].price)")), (ORDER[:65], "lines[0].article", Error("byte 65 path 3[1].3[0] cause Truncated")),
    (ORDER[:65], "lines", Error("byte 65 path 3[1].3[0] cause Truncated (lines[1].price)")), (part(4, part(1, b"k"), b"\x10\xff"), "number", Error("byte 6 path 4[0].2[0] cause PastEnd (discounts[0].value)")),
    (b"\x0b\x13\x08\xff\xff", "number", Error("byte 5 path 1[0].2[0].1[0] cause Truncated (1)")), (b"\x07", "number", Error("byte 0 path - cause NumberZero")),
]
LIMITS = {
    "int32": (-(1 << 31), (1 << 31) - 1), "int64": (-(1 << 63), (1 << 63) - 1), "uint32": (0, (1 << 32) - 1), "uint64": (0, (1 << 64) - 1),
    "sint32": (-(1 << 31), (1 << 31) - 1), "sint64": (-(1 << 63), (1 << 63) - 1), "fixed32": (0, (1 << 32) - 1), "fixed64": (0, (1 << 64) - 1),
    "sfixed32": (-(1 << 31), (1 << 31) - 1), "sfixed64": (-(1 << 63), (1 << 63) - 1),
}
ZIGZAG = lambda value: (value << 1) ^ (value >> 63)
FIXED = {"fixed32": "<I", "fixed64": "<Q", "sfixed32": "<i", "sfixed64": "<q"}


def integer(kind, of, value):
    """A record of a kind of integer."""
    if kind in FIXED:
        return varint(of << 3 | (5 if kind.endswith("32") else 1)) + struct.pack(FIXED[kind], value)
    return number(of, ZIGZAG(value) if kind.startswith("sint") else value)


def kinds():
    """Each kind of integer at its limits, alone, in an element, and as a key; and what else kinds.proto has."""
    for at, (kind, limits) in enumerate(LIMITS.items()):
        for value in (*limits, 1):
            yield integer(kind, 3 + at, value), kind, value
            # The value of each map of these keys is a string, bytes, a number or a message, whose empty record is its default.
            entry = part(31 + at, integer(kind, 1, value))
            default = {"uint32": "", "uint64": "NONE", "fixed32": b"", "sfixed64": 0}.get(kind, Json({}))
            yield entry, f"by_{kind}[{value}]", default
            yield entry, f"by_{kind}[{value - 1 if value > limits[0] else 2}]", None
        yield b"", f"by_{kind}[{limits[0] - 1}]", Error(f"path byte {4 + len(kind)}: by_{kind} is a map: a number that its keys hold is expected")
        yield b"", f"by_{kind}[{limits[1] + 1}]", Error(f"path byte {4 + len(kind)}: by_{kind} is a map: a number that its keys hold is expected")
    for value in (0.0, -0.0, 1.5, 0.1, 1e300, 5e-324, INFINITY, -INFINITY, NAN):
        yield double(1, value), "double", value
        yield double(27, 1) + double(27, value), "unpacked[1]", value
    for value in (0.1, 16777217.0, INFINITY, NAN):
        yield single(2, value), "float", rounded(value)
    yield from ((number(13, 1), "bool", True), (number(13, 0), "bool", False), (part(15, b"\x00\xff"), "bytes", b"\x00\xff"), (part(15, bytes(600)), "bytes", bytes(600)))
    yield from ((part(14, b"a" * 600), "string", "a" * 600), (part(14, b"it's \"\\\n"), "string", "it's \"\\\n"), (part(24, b"") + part(24, b"b"), "strings[1]", "b"))
    yield from ((number(16, 7), "color", "RED"), (number(16, -1), "color", "BLUE"), (number(16, 6), "color", 6), (part(25, varint(7), varint(2)), "colors", Json(["RED", 2])))
    yield from ((part(25, varint(7)), "colors[0]", "RED"), (number(18, 0), "maybe_int64", 0), (b"", "maybe_int64", None), (b"", "maybe_string", None), (b"", "maybe_color", None))
    yield from ((number(20, 0), "maybe_color", "NONE"), (number(21, 0), "one_number", 0), (b"", "one_number", None), (part(22, number(3, 4)), "one_message.int32", 4))
    yield from ((part(24, b"a") + part(24, b"\"\n"), "strings", Json(["a", "\"\n"])), (part(42, part(1, b"a]\""), part(2, number(3, 5))), 'by_string["a]\\""].int32', 5))
    yield from ((part(42, part(1, b"\\"), part(2, number(3, 5))), 'by_string["\\\\"].int32', 5), (part(42, part(1, b"\n"), part(2, number(3, 6))), 'by_string["\\x0a"].int32', 6))
    yield from ((part(41, number(1, 1), part(2, number(3, 5))), "by_bool[true].int32", 5), (part(41, number(1, 1), part(2, number(3, 5))), "by_bool[false].int32", None))
    yield from ((part(41, part(2, part(26, number(3, 5)))), "by_bool[false].messages[0]", Json({"int32": 5})), (b"", "by_bool[1]", Error("path byte 8: by_bool is a map: its keys are [true] and [false]")))
    yield from ((part(32, number(1, -5), part(2, part(42, part(1, b"k"), part(2, part(14, b"x"))))), 'by_int64[-5].by_string["k"]', Json({"string": "x"})),)
    yield from ((part(34, number(1, 5), number(2, 7)), "by_uint64", Json({"5": "RED"})), (part(17, part(17, part(17))), "message.message.message", Json({})), (part(17), "message.numbers", Json([])))
    # 100 levels are the deepest, and a path may lead through all of them.
    path = 100 * "message."
    yield from ((nested(100, 17, number(3, 5)), path + "int32", 5), (nested(99, 17, number(3, 5)), path + "int32", None), (nested(101), path + "int32", Error("byte 3")))
    yield from ((b"", 101 * "message." + "int32", Error("path byte 808: no message nests deep enough for more than 101 fields")), (nested(100, 26), 100 * "messages[0]." + "string", ""))
    # Well-known types: what a string of JSON holds, and the fields inside.
    yield from ((part(51, number(1, 1)), "time", "1970-01-01T00:00:01Z"), (part(51, number(1, 1)), "time.seconds", 1), (part(51, number(1, 1 << 40)), "time", Error("json path - cause OutOfRange")))
    value = part(1, part(1, b"a"), part(2, part(3, b"\"\\\n\x01\x7f\xc3\xa9")))
    yield from ((part(52, value), "struct", Json({"a": "\"\\\n\x01\x7f\u00e9"})), (part(52, value), "struct.fields", Json({"a": "\"\\\n\x01\x7f\u00e9"})), (part(52, value), 'struct.fields["a"]', "\"\\\n\x01\x7f\u00e9"))
    yield from ((part(52, value), 'struct.fields["a"].string_value', "\"\\\n\x01\x7f\u00e9"), (part(52, part(1, part(1, b"n"), part(2, number(1, 0)))), 'struct.fields["n"]', None))
    yield from ((part(53, part(1, double(2, 1.5)), part(1, number(4, 1))), "list", Json([1.5, True])), (part(53, part(1, double(2, 1.5))), "list.values", Json([1.5])), (part(53), "list.values", Json([])))
    yield from ((part(54, part(1, b"a_b"), part(1, b"c")), "mask", "aB,c"), (part(54, part(1, b"a_b")), "mask.paths[0]", "a_b"), (part(54, part(1, b"a_b")), "mask.paths", Error("path: the type of this list")))
    yield from ((part(55, part(1, b"x/kinds.All"), part(2, number(3, 5))), "any", Json({"@type": "x/kinds.All", "int32": 5})), (part(55, part(1, b"none")), "any", Error("json path - cause Unsupported")))
    yield from ((part(56, number(1, 5)), "wrapped", "5"), (part(56, number(1, 5)), "wrapped.value", 5), (part(56), "wrapped.value", 0))


# Of proto2, read leniently: groups, an enum that is closed, and a default value that is left out.
OLD = [
    (number(1, 3), "id", 3), (b"", "id", None), (b"", "level", None), (number(5, 2), "size", "LARGE"), (number(5, 9), "size", None),
    (group(3, part(1, b"x")), "detail.note", "x"), (group(3, part(1, b"x")), "detail", Json({"note": "x"})), (group(3, group(2, number(1, 4), number(1, 5))), "detail.inner.numbers", Json([4, 5])),
    (group(3, group(2, number(1, 4))) + group(3, group(2, number(1, 5))), "detail.inner", Json({"numbers": [4, 5]})), (group(4) + group(4, number(1, 2)), "part[1].size", "LARGE"),
    (group(9, group(4)) + group(4, number(1, 2)), "part[0]", Json({"size": "LARGE"})), (group(4, group(4), number(1, 1)) + group(4, number(1, 2)), "part", Json([{"size": "SMALL"}, {"size": "LARGE"}])),
    (part(3, b"") + group(3, part(1, b"y")), "detail", Json({"note": "y"})),
]


def gets(database):
    for type_name, cases in (("shop.Order", SHOP), ("kinds.All", kinds()), ("old.Record", OLD)):
        for data, path, value in cases:
            yield f"pb_get('{type_name}', {database.bytes(data)}, {quoted(path)})", value


def quoted(string):
    return "'" + string.replace("'", "''") + "'"


# ---- The other functions ----

# The entries of a map come by their keys.
LOYAL, SPRING = part(4, part(1, b"loyal"), number(2, 3)), part(4, part(1, b"spring"), number(2, 5))
CANONICAL = ORDER.replace(SPRING + LOYAL, LOYAL + SPRING)
CUT = "byte 65 path 3[1].3[0] cause Truncated (lines[1].price)"
JSON_OF_ORDER = json.loads(read(f"{TOP}/examples/shop_order.json"))
JSON_OF_ORDER["placedOn"] = JSON_OF_ORDER.pop("placed_on")


def others(database):
    """Each function but pb_get and pb_frames: an expression and its value."""
    order, cut, empty = (database.bytes(it) for it in (ORDER, ORDER[:65], b""))
    yield f"pb_json('shop.Order', {order})", Json(JSON_OF_ORDER)
    yield f"pb_json('shop.Order', {cut})", Error(CUT)
    yield f"pb_json('shop.Order', {empty})", Json({})
    yield f"pb_json('kinds.All', {database.bytes(part(26, part(51, number(1, 1 << 40))))})", Error("json path 26.51 cause OutOfRange")
    yield f"pb_valid('shop.Order', {order})", True
    yield f"pb_valid('shop.Order', {cut})", False
    yield f"pb_fault('shop.Order', {order})", None
    yield f"pb_fault('shop.Order', {cut})", CUT
    yield "pb_from_json('shop.Order', '{\"number\": 4711, \"placed_on\": \"2024-05-17\"}')", number(1, 4711) + part(2, b"2024-05-17")
    yield "pb_from_json('shop.Order', '{\"number\": 1, \"color\": 2}')", Error("json byte 14 cause UnknownName")
    yield "pb_from_json('shop.Order', '')", Error("json byte 0 cause UnexpectedEnd")
    yield f"pb_from_json('shop.Order', pb_json('shop.Order', {order}))", CANONICAL
    # Types by the name of a set, the first set that has the type, and types that are not there.
    yield f"pb_get('shop/shop.Order', {order}, 'number')", 4711
    yield f"pb_get('later/shop.Order', {order}, 'number')", 4711
    yield f"pb_get('later/shop.Ordr', {order}, 'number')", Error("type later/shop.Ordr unknown")
    yield f"pb_get('nothing/shop.Order', {order}, 'number')", Error("set nothing unknown")
    yield f"pb_get('shop.order', {order}, 'number')", Error("type shop.order unknown")
    yield f"pb_get('', {order}, 'number')", Error("type  unknown")
    yield f"pb_valid('shop', {order})", Error("type shop unknown")
    yield f"pb_get('/shop.Order', {order}, 'number')", Error("set  unknown")
    # NULL for NULL.
    for call in ("pb_get(NULL, {0}, 'number')", "pb_get('shop.Order', NULL, 'number')", "pb_get('shop.Order', {0}, NULL)", "pb_json(NULL, {0})", "pb_json('shop.Order', NULL)",
                 "pb_valid('shop.Order', NULL)", "pb_fault('shop.Order', NULL)", "pb_from_json('shop.Order', NULL)", "pb_register(NULL, {0})", "pb_register('new', NULL)"):
        yield call.format(order), None
    # Sets: the same again, another one of the same name, and what is no set.
    yield database.registered("shop", f"{TOP}/examples/shop.set"), 3
    yield database.registered("shop", f"{HERE}/kinds.set"), Error("set shop is registered, and a set does not change: give this one another name")
    yield database.registered("old strictly", f"{HERE}/old.set"), Error("set file 0 cause Required")
    yield f"pb_register('new', {database.bytes(b'abc')})", Error("set byte 3 path 12[0] cause Truncated")
    yield f"pb_register('new', {database.bytes(part(1, part(1, b'f'), part(3, b'g')))})", Error("link f at - cause MissingImport")


def frames(database):
    """Statements with pb_frames, and the lines that they print."""
    stream = b"".join(varint(len(it)) + it for it in (number(1, 1), b"", number(1, 2)))
    bad = varint(3) + number(1, 1) + b"\x07" + varint(2) + number(1, 3)
    bytes_of = lambda data: f"pb_frames('shop.Order', {database.bytes(data)}"
    hexadecimal = "hex(bytes)" if database.name.startswith("SQLite") else "upper(encode(bytes, 'hex'))"
    rows = f"SELECT frame, at, CASE WHEN bytes IS NULL THEN 'none' ELSE {hexadecimal} END, coalesce(fault, '-') FROM "
    yield f"{rows}{bytes_of(stream)});", ["0|0|0801|-", "1|3||-", "2|4|0802|-"]
    yield f"{rows}{bytes_of(b'')});", []
    yield f"{rows}{bytes_of(bad)});", Error("frame 0 byte 3 path - cause NumberZero")
    yield f"{rows}{bytes_of(bad)}, {database.expected(True)});", ["0|0|080107|frame 0 byte 3 path - cause NumberZero", "1|4|0803|-"]
    cut = stream + varint(9) + number(1, 5)
    yield f"{rows}{bytes_of(cut)}, {database.expected(True)}) WHERE frame = 3;", ["3|7|0805|frame 3 byte 3 path - cause Truncated"]
    too_long = bytes_of(stream + 11 * b"\x80")
    yield f"{rows}{too_long}, {database.expected(True)}) WHERE frame = 3;", ["3|7|none|frame 3 byte 0 path - cause VarintTooLong"]
    yield f"SELECT count(*) FROM pb_frames('shop.Order', {database.bytes(1000 * stream)});", ["3000"]
    yield f"SELECT count(*) FROM pb_frames('shop.Order', NULL);", ["0"]
    yield "SELECT count(*) FROM pb_frames('shop.Ordr', " + database.bytes(stream) + ");", Error("type shop.Ordr unknown")
    # A stream of each row of a table, and a message of each frame.
    table = f"(SELECT {database.bytes(stream)} AS stream UNION ALL SELECT {database.bytes(stream[:3])}) AS logs"
    lateral = "" if database.name.startswith("SQLite") else "LATERAL "
    yield f"SELECT sum(CAST(pb_get('shop.Order', f.bytes, 'number') AS integer)) FROM {table}, {lateral}pb_frames('shop.Order', logs.stream) AS f;", ["4"]


# ---- Random messages: what a JSON text says is what pb_get gives ----

SCALARS = {"double": 1, "float": 1, "bool": 1, "string": 1, "bytes": 1, "color": 1, **LIMITS}
COLORS = {"NONE": 0, "RED": 7, "BLUE": -1}
KEYS = {"by_int32": ("int32", "message"), "by_int64": ("int64", "message"), "by_uint32": ("uint32", "string"), "by_uint64": ("uint64", "color"), "by_sint32": ("sint32", "message"),
        "by_sint64": ("sint64", "message"), "by_fixed32": ("fixed32", "bytes"), "by_fixed64": ("fixed64", "message"), "by_sfixed32": ("sfixed32", "message"),
        "by_sfixed64": ("sfixed64", "int32"), "by_bool": ("bool", "message"), "by_string": ("string", "message")}
LISTS = {"numbers": "sint64", "strings": "string", "colors": "color", "messages": "message", "unpacked": "double"}


class Message(dict):
    """The fields of a kinds.All that are set."""


def scalar(by, kind):
    if kind in LIMITS:
        least, most = LIMITS[kind]
        return by.choice((least, most, 0, 1, by.randint(least, most)))
    if kind in ("double", "float"):
        value = by.choice((0.0, 0.5, -1.25, 1e10, by.uniform(-9, 9)))
        return value if kind == "double" else rounded(value)
    if kind == "bool":
        return by.random() < 0.5
    if kind == "string":
        return "".join(by.choice("ab\"\\.][ '\u00e9\u20ac\U0001f642\n\x01") for _ in range(by.choice((0, 1, 3, 9))))
    return by.randbytes(by.choice((0, 1, 5))) if kind == "bytes" else by.choice(list(COLORS))


def message(by, depth):
    fields = Message()
    value = lambda kind: message(by, depth - 1) if kind == "message" else scalar(by, kind)
    for kind in SCALARS:
        if by.random() < 0.3:
            fields[kind] = scalar(by, kind)
    if depth > 0:
        for name, kind in (("message", "message"), ("maybe_int64", "int64"), ("maybe_string", "string"), ("maybe_color", "color"), by.choice((("one_number", "uint32"), ("one_message", "message")))):
            if by.random() < 0.4:
                fields[name] = value(kind)
        for name, kind in LISTS.items():
            if by.random() < 0.3:
                fields[name] = [value(kind) for _ in range(by.choice((0, 1, 3)))]
        for name, (key, kind) in KEYS.items():
            if by.random() < 0.2:
                fields[name] = {scalar(by, key): value(kind) for _ in range(by.choice((0, 1, 3)))}
    return fields


def as_json(value):
    """A value as ProtoJSON has it, but with the names of fields as they are declared."""
    if isinstance(value, dict):
        return {key if isinstance(key, str) else str(key).lower(): as_json(it) for key, it in value.items()}
    if isinstance(value, list):
        return [as_json(it) for it in value]
    if isinstance(value, bytes):
        import base64
        return base64.b64encode(value).decode()
    return value


def bracketed(key):
    if isinstance(key, bool):
        return str(key).lower()
    escaped = lambda it: "\\" + it if it in "\"\\" else it if it >= " " else f"\\x{ord(it):02x}"
    return str(key) if isinstance(key, int) else '"' + "".join(map(escaped, key)) + '"'


def paths(fields, before=""):
    """Each path in a message that leads to a scalar, with its value; and some that lead to nothing."""
    for name, value in fields.items():
        parts = value.items() if isinstance(value, dict) and not isinstance(value, Message) else enumerate(value) if isinstance(value, list) else ()
        found = [(f"{before}{name}[{bracketed(key)}]", it) for key, it in parts] or ([] if isinstance(value, (list, dict)) and not isinstance(value, Message) else [(before + name, value)])
        for path, it in found:
            if isinstance(it, Message):
                yield from paths(it, path + ".")
            else:
                yield path, it
        if isinstance(value, list):
            yield f"{before}{name}[{len(value)}]", None
    for kind in SCALARS:
        if kind not in fields:
            yield before + kind, "" if kind == "string" else b"" if kind == "bytes" else "NONE" if kind == "color" else False if kind == "bool" else 0.0 if kind in ("double", "float") else 0


def randoms(database, seed, count):
    by = random.Random(seed)
    for _ in range(count):
        fields = message(by, 3)
        text = json.dumps(as_json(fields), ensure_ascii=False)
        found = list(paths(fields))
        for path, value in by.sample(found, min(12, len(found))):
            yield f"pb_get('kinds.All', pb_from_json('kinds.All', {quoted_line(database, text)}), {quoted_line(database, path)})", value


def quoted_line(database, string):
    """A string without line feeds in SQL: each statement is a line."""
    return quoted(string)


def value_of(text):
    """What JSON says, or an Error."""
    try:
        return json.loads(text)
    except json.JSONDecodeError as error:
        return Error(str(error))


def is_same(expected, found, database):
    """Whether a database's answer is the value that is expected."""
    expected = database.expected(expected)
    if isinstance(expected, Error) or isinstance(found, Error):
        return isinstance(expected, Error) and isinstance(found, Error) and expected == found
    if isinstance(expected, Json):
        return isinstance(found, str) and value_of(found) == expected.value
    if isinstance(expected, float):
        if found is None or isinstance(found, bytes) or isinstance(found, int):
            return False
        form = "<f" if isinstance(expected, Single) and database.rounds else "<d"
        return struct.pack(form, expected) == struct.pack(form, float(found)) or math.isnan(expected) and math.isnan(float(found))
    return type(expected) is type(found) and expected == found
