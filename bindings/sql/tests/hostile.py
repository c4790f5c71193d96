"""Inputs from a stranger: random and mutated bytes, paths, JSON and sets. A database answers each with a value or an error, and the functions agree: bytes
are valid if and only if there is no fault, and all functions report the same fault."""
import json
import random

import cases
from cases import ORDER, nested, number, part, quoted
from engines import Error

PATHS = {"shop.Order": ("number", "lines[0].article", "lines", 'discounts["loyal"]', "invoice", "corrections"),
         "kinds.All": ("string", "messages[1].by_string", 'by_string["a"].message', "message.message.double", "struct", "by_bool[true]")}
# Above the greatest number, without an end, and longer than a message is deep.
ODD_PATHS = ("message." * 100000, "message" * 100000, "[" * 100000, "messages" + "[0]" * 1000, "messages[" + "9" * 100000 + "]", 'by_string["' + "a" * 1000000 + '"]', 'by_string["' + "\\x61" * 100000 + '"].int32',
             'by_string["' + "\\" * 99999, "." * 1000, "messages[0]." * 101 + "int32", "by_int32[-]", "by_int32[" + "-" * 1000 + "]", "\u20ac" * 1000, 'by_string["\u20ac\\xe2"]')


def mutated(by, data):
    """The bytes with a few of them changed, left out, doubled or cut off."""
    data = bytearray(data)
    for _ in range(by.choice((1, 1, 2, 5))):
        at = by.randrange(len(data) + 1)
        kind = by.randrange(5)
        if kind == 0 and at < len(data):
            data[at] = by.choice((0, 1, 0x7F, 0x80, 0xFF, data[at] ^ (1 << by.randrange(8))))
        elif kind == 1:
            del data[at : at + by.choice((1, 1, 2, 8))]
        elif kind == 2:
            data[at:at] = by.randbytes(by.choice((1, 1, 2, 8)))
        elif kind == 3:
            data[at:at] = data[at : at + by.choice((1, 8, 40))]
        else:
            del data[at:]
    return bytes(data)


def messages(database, by, count):
    """Bytes for each type."""
    # A random message is made by the database of its JSON.
    texts = [json.dumps(cases.as_json(cases.message(by, 2))) for _ in range(20)]
    made = database.answers([f"SELECT {'hex' if database.name.startswith('SQLite') else ''}(pb_from_json('kinds.All', {quoted(it)}));" for it in texts])
    made = [bytes.fromhex(it[0].removeprefix("\\x")) for it in made]
    for _ in range(count):
        yield "shop.Order", mutated(by, ORDER)
        yield "kinds.All", mutated(by, by.choice(made))
    for _ in range(count // 4):
        yield by.choice(("shop.Order", "kinds.All")), by.randbytes(by.choice((1, 2, 5, 30)))
    # As deep as is allowed, and one level deeper, with a fault inside and without.
    for depth in (99, 100, 101, 5000):
        for of in (17, 26):
            yield "kinds.All", nested(depth, of)
            yield "kinds.All", nested(depth, of, b"\x72\x01\xff")
    for depth in (49, 50, 51):
        maps = b""
        for _ in range(depth):
            maps = part(42, part(1, b"a"), part(2, maps))
        yield "kinds.All", maps
        yield "kinds.All", maps[:-1]
    yield "kinds.All", bytes.fromhex("8b01") * 100000
    yield "kinds.All", part(14, b"a" * 100000)
    yield "kinds.All", part(26) * 20000


def check_messages(database, by, count):
    """Asks all functions about each input. Returns how many answers there were, and what disagrees."""
    inputs = list(messages(database, by, count))
    statements = []
    for type_name, data in inputs:
        arguments = f"'{type_name}', {database.bytes(data)}"
        calls = [f"pb_valid({arguments})", f"pb_fault({arguments})", f"pb_json({arguments})", *(f"pb_get({arguments}, {quoted(path)})" for path in PATHS[type_name])]
        statements += [f"SELECT {database.printed(it)};" for it in calls] + [f"SELECT count(*) FROM pb_frames({arguments}, {database.expected(True)});"]
    answers, wrong, at = database.answers(statements), [], 0
    for type_name, data in inputs:
        valid, fault, *values, rows = answers[at : at + 4 + len(PATHS[type_name])]
        at += 4 + len(PATHS[type_name])
        is_valid = database.read(valid[0]) == database.expected(True)
        line = database.read(fault[0])
        errors = [it.line for it in values if isinstance(it, Error)]
        # A valid message may have no JSON form, and its string no form as text of PostgreSQL.
        others = [it for it in errors if not (is_valid and it.startswith(("json path", "the string has a zero byte")))]
        agrees = line is None and not others if is_valid else others == [line] * len(values)
        if not agrees or isinstance(rows, Error):
            wrong.append(f"{database.name}: {type_name} {data.hex()[:400]}: {is_valid} {line} {others[:3]} {rows}")
    return len(statements), wrong


def questions(database, by, count):
    """Expressions that need only be answered."""
    data = database.bytes(part(42, part(1, b"a"), part(2, number(3, 5))))
    plain = [path for path, _ in cases.paths(cases.message(by, 3))] or ["int32"]
    for _ in range(count):
        path = mutated(by, by.choice(plain).encode()).decode(errors="replace").replace("\0", "0").replace("\n", " ").replace("\r", " ")
        yield f"pb_get('kinds.All', {data}, {quoted(path)})"
        text = mutated(by, json.dumps(cases.as_json(cases.message(by, 2))).encode()).decode(errors="replace").replace("\0", "0").replace("\n", " ").replace("\r", " ")
        yield f"pb_from_json('kinds.All', {quoted(text)})"
    for path in ODD_PATHS:
        yield f"pb_get('kinds.All', {data}, {quoted(path)})"
    for text in ("[" * 100000, '{"struct":' + '{"a":' * 100000, '{"list":' + "[" * 100000 + "]" * 100000 + "}", '{"message":' * 101 + "{}" + "}" * 101, '{"string":"' + "\\u0000" * 10000 + '"}', '{"int32":' + "1" * 100000 + "}"):
        yield f"pb_from_json('kinds.All', {quoted(text)})"
    for name in ("a" * 1000000, "/" * 1000, "shop/" * 1000, "\u20ac" * 1000, "shop.Order\u20ac"):
        yield f"pb_valid({quoted(name)}, {data})"
    bytes_of = "pb_register('random', {}, {})" if database.name.startswith("SQLite") else "pb_set_types({}, {})"
    for at in range(count // 4):
        of = cases.read(f"{cases.TOP}/examples/shop.set") if at % 2 else cases.read(f"{cases.HERE}/kinds.set")
        yield bytes_of.format(database.bytes(mutated(by, of)), database.expected(at % 3 == 0))
    yield bytes_of.format(database.bytes(cases.read(f"{cases.HERE}/kinds.set")), database.expected(True))


def large(database):
    """A list of 10^6 empty messages, and its elements."""
    empties = database.bytes(1000000 * part(26))
    yield f"pb_get('kinds.All', {empties}, 'messages[999999]')", cases.Json({})
    yield f"pb_get('kinds.All', {empties}, 'messages[1000000]')", None
    yield f"length(pb_get('kinds.All', {empties}, 'messages'))", 3000001
    yield f"length(pb_json('kinds.All', {empties}){'' if database.name.startswith('SQLite') else '::text'})", 3000001 + len('{"messages":}')
