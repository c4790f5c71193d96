"""The words of pbtool, by the package mabristu: tool.py check|show|canon|frames [--lenient] SET TYPE FILE, tool.py short FILE, tool.py compile [--lenient] ROOT FILE..
Canonical bytes, listing, text and JSON, of a message that the library holds: tool.py encode|list|decimal|text|json [--lenient] SET TYPE FILE, and of an empty message:
tool.py empty SET TYPE FILE. As encode, by the set that the library writes of the
pool: tool.py relink [--lenient] SET TYPE FILE. The listing with decimal floats, of bytes: tool.py decimal-bytes SET TYPE FILE. How many parts of a set lenient reading leaves out: tool.py omitted SET. What a
field is: tool.py field SET TYPE NAME. What a message has, a place a line: tool.py read [--lenient] SET TYPE FILE, as read.c prints it. The
scalar at a path of field numbers, such as 3.1: tool.py find [--lenient] SET TYPE FILE PATH. What a set
declares: tool.py types [--lenient] SET. Changes of a message, and its bytes: tool.py change SET TYPE FILE CHANGE.., as change.c says.
A copy of a message with more bytes decoded onto it: tool.py whole SET TYPE FILE MORE, as whole.c prints it. What differs between two types: tool.py
compat OLD_SET OLD_TYPE NEW_SET NEW_TYPE, as compat.c prints it. The canonical bytes of a message in JSON: tool.py from-json [--lenient] SET TYPE FILE,
or by the call that keeps no message: tool.py json-bytes [--lenient] SET TYPE FILE. Canonical bytes of a message that arrives in pieces of SIZE bytes: tool.py
pieces SIZE [--lenient] SET TYPE FILE; and how many the decoder holds after each: tool.py pending SIZE [--lenient] SET TYPE FILE"""
import sys

import mabristu

# Kinds of values, and the steps of places that are no keys, by the numbers of mabristu.h.
STRING, MESSAGE, BYTES, LIST, MAP, FIELD, INDEX = 9, 11, 12, 19, 20, 21, 22
SIGNED = 3, 5, 14


def read(name):
    with open(name, "rb") as file:
        return file.read()


def frames(order, name):
    with open(name, "rb") as file:
        for number, frame in enumerate(order.frames(file)):
            yield f"frame {number} at {frame.at} size {frame.size}\n"
            yield "".join(f"  {line}\n" for line in order.listing(frame.data).split("\n")[:-1])


def signed(kind, number):
    return number - (1 << 64) if kind in SIGNED and number >> 63 else number


def places(kind, number, inner, at=""):
    """What is at a place and inside, a line for each."""
    yield f"{at} {kind} {inner.hex() if kind in (STRING, BYTES) else signed(kind, number)}\n"
    if kind == MESSAGE:
        for field in inner.numbers():
            yield from places(*inner._read(FIELD, field), f"{at}.{field}")
    elif kind == LIST:
        for index in range(number):
            yield from places(*inner._read(INDEX, index), f"{at}[{index}]")
    elif kind == MAP:
        for of, key, name in map(inner._key, range(number)):
            found = inner._read(of, key) if name is None else inner._read(of, 0, name)
            yield from places(*found, f"{at}{{{of}:{signed(of, key) if name is None else name.hex()}}}")


def field_line(owner, field):
    """The line of a field, as `pbtool types` prints it."""
    label = {"oneof": f"oneof:{field.oneof}", "list": "repeated", "map": "repeated"}.get(field.shape, field.shape)
    type_name = field.type.name if field.type else field.enum or field.kind
    if field.kind == "group":
        type_name = f"group {type_name}"
    if field.shape == "map":
        type_name = f"map<{field.key}, {type_name}>"
    return f"field {owner}.{field.name} {field.number} {label} {type_name}{' packed' if field.packed else ''}\n"


def types(schema):
    yield from (f"file {file.name} {file.syntax}\n" for file in schema.files)
    for it in schema.types:
        yield f"message {it.name} {it.file}\n"
        yield from (field_line(it.name, field) for field in it.type.fields)
    for it in schema.enums:
        yield f"enum {it.name} {it.file}\n"
        yield from (f"value {it.name} {name} {number}\n" for name, number in it.values)


def parsed(word, strings):
    """The kind and the number of a step or a value. A string is put among the strings, and its index is the number."""
    kind, _, number = word.partition(",")
    if kind != "s" and not number.startswith(","):
        return int(kind), int(number)
    strings.append((number if kind == "s" else number[1:]).encode())
    return STRING if kind == "s" else int(kind), len(strings) - 1


def change(message, word):
    """Makes the change that a word says, as in set:21,3/22,0/21,2=5,7, and gives the line of the answer."""
    said, _, value = word.partition("=")
    call, _, place = said.partition(":")
    strings = []
    steps = [parsed(step, strings) for step in place.split("/") if step]
    given = parsed(value, strings) if value else None
    return f"{call} {message._change(call, steps, strings, given)}\n"


def whole(message, more):
    """A copy of a message with more bytes decoded onto it, and what is of it then."""
    copy = message.copy()
    yield f"equal {int(message == copy)}\n"
    copy.merge(more)
    yield f"equal {int(message == copy)}\n"
    yield f"bytes {copy.encode().hex()}\n"
    yield f"frame {copy.frame().hex()}\n"
    yield f"unknown {copy.unknown.hex()}\n"
    for oneof in dict.fromkeys(field.oneof for field in copy.type.fields if field.oneof):
        member = copy.which_oneof(oneof)
        yield f"oneof {copy.type.field(member).number if member else 0}\n"


def pieces(decoder, name, size, is_pending):
    """What is held after each piece of a file, and the canonical bytes."""
    with open(name, "rb") as file:
        while piece := file.read(size):
            decoder.feed(piece)
            yield f"{decoder.pending}\n" if is_pending else ""
    yield decoder.finish().encode().hex() + "\n"


def printed(command, *words):
    """What a command prints, a part at a time."""
    if command == "short":
        data = read(words[0])
        mabristu.raw_check(data)
        yield mabristu.raw_short(data).hex() + "\n"
    elif command == "compile":
        is_lenient = words[0] == "--lenient"
        root, *names = words[is_lenient:]
        mabristu.Pool.of_sources({name: read(f"{root}/{name}") for name in names}, lenient=is_lenient)
    elif command == "whole":
        set_name, type_name, name, more = words
        yield from whole(mabristu.Pool(read(set_name))[type_name].decode(read(name)), read(more))
    elif command == "compat":
        old, new = (mabristu.Pool(read(words[it]))[words[it + 1]] for it in (0, 2))
        for it in old.compat(new):
            yield f"{it.old.name} {it.field.number} {it.severity} {it.new.name}\n"
            shown = old.witness(new, it)
            yield "" if shown is None else f"  shown by {shown.encode().hex()}\n"
    elif command == "field":
        set_name, type_name, name = words
        found = mabristu.Pool(read(set_name))[type_name]
        try:
            yield " ".join(map(str, found.field(name).numbers)) + "\n"
        except KeyError:
            raise LookupError(f"field {name} unknown") from None
    elif command == "types":
        *options, set_name = words
        yield from types(mabristu.Pool(read(set_name), lenient="--lenient" in options).schema())
    elif command == "change":
        set_name, type_name, name, *changes = words
        message = mabristu.Pool(read(set_name))[type_name].decode(read(name))
        yield from [change(message, word) for word in changes]
        yield message.encode().hex() + "\n"
    elif command in ("pieces", "pending"):
        size, *options, set_name, type_name, name = words
        decoder = mabristu.Pool(read(set_name), lenient="--lenient" in options)[type_name].decoder()
        yield from pieces(decoder, name, int(size), command == "pending")
    elif command == "omitted":
        yield f"{mabristu.Pool(read(words[0]), lenient=True).left_out}\n"
    elif command == "find":
        *options, set_name, type_name, name, path = words
        found = mabristu.Pool(read(set_name), lenient="--lenient" in options)[type_name]
        value = found._find(read(name), *map(int, path.split(".")))
        yield "absent\n" if value is None else f"{value[0]} {value[1].hex() if isinstance(value[1], bytes) else signed(*value)}\n"
    else:
        *options, set_name, type_name, name = words
        pool = mabristu.Pool(read(set_name), lenient="--lenient" in options)
        found = pool[type_name]
        if command == "relink":
            found, command = mabristu.Pool(pool.to_set())[type_name], "encode"
        if command == "check":
            found.check(read(name))
            yield "ok\n"
        elif command == "show":
            yield found.listing(read(name))
        elif command == "decimal-bytes":
            yield found.listing(read(name), decimal=True)
        elif command == "canon":
            yield found.canonical(read(name)).hex() + "\n"
        elif command in ("encode", "empty"):
            message = found.decode(read(name)) if command == "encode" else found.new()
            encoded = message.encode()
            assert message.encoded_length() == len(encoded)
            yield encoded.hex() + "\n"
        elif command == "read":
            message = found.decode(read(name))
            kind, number, _ = message._read()
            yield from places(kind, number, message)
        elif command == "decimal":
            yield found.decode(read(name)).listing(decimal=True)
        elif command == "list":
            yield found.decode(read(name)).listing()
        elif command == "text":
            yield found.decode(read(name)).text(unknown=True)
        elif command == "json":
            yield found.decode(read(name)).to_json() + "\n"
        elif command == "from-json":
            yield found.from_json(read(name), lenient="--lenient" in options).encode()
        elif command == "json-bytes":
            yield found.canonical_from_json(read(name), lenient="--lenient" in options)
        else:
            yield from frames(found, name)


def main(words):
    try:
        for part in printed(*words):
            if isinstance(part, bytes):
                sys.stdout.buffer.write(part)
            else:
                sys.stdout.write(part)
        return 0
    except mabristu.Refused as refused:
        print(refused, file=sys.stderr)
        return 1
    except LookupError as unknown:
        print(unknown.args[0], file=sys.stderr)
        return 1
    except OSError as failure:
        print(f"device {failure.filename}", file=sys.stderr)
        return 3
    except MemoryError:
        print("memory", file=sys.stderr)
        return 3


if __name__ == "__main__":
    sys.exit(main(sys.argv[1:]))
