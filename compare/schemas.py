"""Descriptor sets in protobuf's text form, as protoc decodes them: what they declare, messages of their types, and what pbtool prints of both."""
import re
import struct
import typing

from spelling import length_delimited, tag, varint

PROTO3 = '"proto3"'

WHOLE = {kind: (str(2**bits - 1), low) for kind, bits, low in [
    ("INT32", 31, "-2147483648"), ("SINT32", 31, "-2147483648"), ("SFIXED32", 31, "-1"), ("UINT32", 32, "1"), ("FIXED32", 32, "300"),
    ("INT64", 63, "-1"), ("SINT64", 63, "-9223372036854775808"), ("SFIXED64", 63, "-9223372036854775808"), ("UINT64", 64, "1"),
    ("FIXED64", 64, "300"),
]}
SAMPLES = {
    **WHOLE, "BOOL": ("true", "false"), "DOUBLE": ("0.1", "-inf"), "FLOAT": ("-1.5", "3.4028235e+38"),
    "STRING": (r'"\"a\\\303\251\001\177"', '"b"'), "BYTES": (r'"\000\377\'\n"', '"b"'),
}
# The kinds whose values are never packed.
UNPACKED = ("STRING", "BYTES", "MESSAGE", "GROUP")


def tree(text):
    """A message in text form: names with words, or with what is inside them."""
    stack = [[]]
    for line in text.decode().splitlines():
        line = line.strip()
        if line == "}":
            stack.pop()
        elif line.endswith(" {"):
            stack[-1].append((line[:-2], []))
            stack.append(stack[-1][-1][1])
        else:
            stack[-1].append(tuple(line.split(": ", 1)))
    return stack[0]


def text_of(parts):
    """A tree in text form."""
    return " ".join(f"{name}: {it}" if isinstance(it, str) else f"{name} {{ {text_of(it)} }}" for name, it in parts)


def frozen(parts):
    return tuple((name, value if isinstance(value, str) else frozen(value)) for name, value in parts)


def all_of(parts, name):
    return [value for key, value in parts if key == name]


def one(parts, name, otherwise=None):
    return next(iter(all_of(parts, name)), otherwise)


def unquoted(word):
    """The bytes of a string."""
    escapes = {"n": b"\n", "r": b"\r", "t": b"\t"}

    def byte(match):
        code = match[1]
        return bytes([int(code, 8)]) if code[0].isdigit() else escapes.get(code, code.encode())

    pieces = re.split(r"(\\(?:[0-7]{3}|.))", word[1:-1])
    return b"".join(byte(re.match(r"\\(.*)", it)) if it.startswith("\\") else it.encode() for it in pieces)


def name_of(parts):
    return unquoted(one(parts, "name")).decode()


def full(scope, parts):
    return f"{scope}.{name_of(parts)}" if scope else name_of(parts)


def package_of(file):
    return unquoted(one(file, "package", '""')).decode()


def is_proto2(file):
    return one(file, "syntax") != PROTO3


def is_entry(message):
    return one(one(message, "options", []), "map_entry") == "true"


def is_closed_entry(file, message):
    """Whether a message is the entry of a map that lenient reading takes for the list of its entries: in a file of proto2, with values of an enum."""
    value = [field for field in all_of(message, "field") if one(field, "number") == "2"]
    return is_entry(message) and is_proto2(file) and any(one(field, "type") == "TYPE_ENUM" for field in value)


class Field(typing.NamedTuple):
    name: str
    number: int
    kind: str
    type_name: str
    is_list: bool
    is_packed: bool
    is_optional: bool
    oneof: typing.Optional[str]

    @property
    def word(self):
        """Its name in text form, where a group has that of its type."""
        return self.type_name.rsplit(".", 1)[-1] if self.kind == "GROUP" else self.name

    @property
    def is_message(self):
        return self.kind in ("MESSAGE", "GROUP")

    @property
    def type_word(self):
        """Its type as `types` prints it."""
        name = self.type_name[1:] or self.kind.lower()
        return f"group {name}" if self.kind == "GROUP" else name


def field_of(field, is_old):
    kind = one(field, "type")[len("TYPE_"):]
    is_list = one(field, "label") == "LABEL_REPEATED"
    packed = one(one(field, "options", []), "packed", "false" if is_old else "true")
    return Field(
        name_of(field), int(one(field, "number")), kind, unquoted(one(field, "type_name", '""')).decode(), is_list,
        is_list and packed == "true" and kind not in UNPACKED, one(field, "proto3_optional") == "true", one(field, "oneof_index"),
    )


class Types:
    """The messages and enums of a set by full name, with a dot before it. `own` are the messages of its last file."""

    def __init__(self, files):
        self.files, self.messages, self.enums, self.closed, self.old, self.own, self.extensions = files, {}, {}, set(), set(), [], {}
        for file in files:
            self.own, known, before = [], set(self.enums), set(self.messages)
            scope = f".{package_of(file)}" if package_of(file) else ""
            self.add(scope, file, all_of(file, "message_type"), all_of(file, "enum_type"))
            if is_proto2(file):
                self.closed |= set(self.enums) - known
                self.old |= set(self.messages) - before

    def add(self, scope, holder, messages, enums):
        for extension in all_of(holder, "extension"):
            extendee = unquoted(one(extension, "extendee")).decode()
            self.extensions.setdefault(extendee, []).append((f"{scope}.{name_of(extension)}"[1:], field_of(extension, True)))
        for enum in enums:
            values = [(name_of(value), one(value, "number", "0")) for value in all_of(enum, "value")]
            self.enums[f"{scope}.{name_of(enum)}"] = values
        for message in messages:
            name = f"{scope}.{name_of(message)}"
            self.messages[name] = message
            if not is_entry(message):
                self.own.append(name)
            self.add(name, message, all_of(message, "nested_type"), all_of(message, "enum_type"))

    def fields(self, name):
        return [field_of(field, name in self.old) for field in all_of(self.messages[name], "field")]

    def by_word(self, name):
        return {field.word: field for field in self.fields(name)}

    def undeclared(self, name):
        """Records of the closed enums of a message with a number that each does not declare, and of their lists runs with such numbers."""
        records = b""
        for field in self.fields(name):
            if field.type_name not in self.closed:
                continue
            numbers = [int(number) for _, number in self.enums[field.type_name]]
            other = next(it for it in range(7, len(numbers) + 8) if it not in numbers)
            records += tag(field.number, 0) + varint(other)
            if field.is_list:
                run = (varint(it % 2**64) for it in (numbers[0], other, numbers[-1], other, other))
                records += length_delimited(field.number, b"".join(run))
        return records

    def is_map(self, kind, type_name):
        return kind == "MESSAGE" and is_entry(self.messages[type_name])

    # MESSAGES

    def samples(self, kind, type_name, turn, depth):
        """Two values of a kind."""
        if kind == "ENUM":
            values = self.enums[type_name]
            return values[-1][0], values[0][0]
        if kind in ("MESSAGE", "GROUP"):
            return tuple("{ %s }" % (self.text(type_name, it, depth - 1) if depth else "") for it in (turn, 1 - turn))
        return SAMPLES[kind]

    def text(self, name, turn, depth):
        """A message in which each field has a value, and of a oneof one member."""
        words, chosen = [], {}
        for field in self.fields(name):
            samples = self.samples(field.kind, field.type_name, turn, depth)
            if self.is_map(field.kind, field.type_name):
                samples = self.entries(field.type_name, turn, depth)
            if field.is_list:
                words += [f"{field.word}: {it}" for it in samples]
            elif field.oneof is not None and (turn or field.oneof not in chosen):
                chosen[field.oneof] = f"{field.word}: {samples[turn]}"
            elif field.oneof is None:
                words.append(f"{field.word}: {samples[turn]}")
        return " ".join(words + list(chosen.values()))

    def extended(self, name):
        """A message in which each extension of a type has a value."""
        words = []
        for word, field in self.extensions.get(name, []):
            samples = self.samples(field.kind, field.type_name, 0, 1)
            words += [f"[{word}]: {it}" for it in (samples if field.is_list else samples[:1])]
        return " ".join(words)

    def entries(self, type_name, turn, depth):
        key, value = self.fields(type_name)
        samples = self.samples(value.kind, value.type_name, turn, depth)
        return [f"{{ key: {k} value: {v} }}" for k, v in zip(SAMPLES[key.kind], samples)]

    # WHAT `show` PRINTS

    def word(self, kind, type_name, word):
        if kind in ("FLOAT", "DOUBLE"):
            form, digits = ("f", 8) if kind == "FLOAT" else ("d", 16)
            return "0x%0*x" % (digits, int.from_bytes(struct.pack(">" + form, float(word)), "big"))
        if kind == "BYTES":
            return "h'%s'" % unquoted(word).hex()
        if kind == "STRING":
            text = unquoted(word).decode().replace("\\", r"\\").replace('"', r'\"')
            return '"%s"' % re.sub("[\0-\x1f\x7f]", lambda it: r"\x%02x" % ord(it[0]), text)
        if kind == "ENUM":
            # An enum with allow_alias has several names for a number, of which the first is printed.
            number = dict(self.enums[type_name]).get(word)
            return next((name for name, it in self.enums[type_name] if it == number), word)
        return word

    def settled(self, name, parts):
        """A decoded message without the entries of maps that a later one of their key replaces, all of which protoc prints."""
        fields = self.by_word(name)
        is_map = {word: self.is_map(field.kind, field.type_name) for word, field in fields.items()}
        last = {(word, one(value, "key")): value for word, value in parts if is_map[word]}
        for word, value in parts:
            if is_map[word] and last[word, one(value, "key")] is not value:
                continue
            yield word, value if isinstance(value, str) else list(self.settled(fields[word].type_name, value))

    def lines(self, name, parts, level=0):
        """What `show` lists of a message that protoc decoded."""
        fields = self.by_word(name)
        for word, value in parts:
            field = fields[word]
            words = field.name
            if self.is_map(field.kind, field.type_name):
                key, inner = self.fields(field.type_name)
                words += f"[{self.word(key.kind, '', one(value, 'key'))}]"
                field, value = inner, one(value, "value")
            if field.is_message:
                yield "  " * level + words + " {"
                yield from self.lines(field.type_name, value, level + 1)
                yield "  " * level + "}"
            else:
                yield "  " * level + f"{words}: {self.word(field.kind, field.type_name, value)}"

    # WHAT `types` PRINTS

    def type_lines(self):
        """What `types` lists of the set."""
        messages, enums = [], []
        for file in self.files:
            yield f"file {name_of(file)} {'proto2' if is_proto2(file) else 'proto3'}"
            self.declared(package_of(file), file, all_of(file, "message_type"), all_of(file, "enum_type"), messages, enums)
        yield from messages
        yield from enums

    def declared(self, scope, file, inner, own, messages, enums):
        for message in inner:
            name = full(scope, message)
            if not is_entry(message):
                messages.append(f"message {name} {name_of(file)}")
                oneofs = [name_of(it) for it in all_of(message, "oneof_decl")]
                messages += [self.field_line(name, field, oneofs, file) for field in self.fields("." + name)]
            self.declared(name, file, all_of(message, "nested_type"), all_of(message, "enum_type"), messages, enums)
        for enum in own:
            name = full(scope, enum)
            enums.append(f"enum {name} {name_of(file)}")
            enums += [f"value {name} {value} {number}" for value, number in self.enums["." + name]]

    def field_line(self, name, field, oneofs, file):
        words = f"field {name}.{field.name} {field.number} "
        if self.is_map(field.kind, field.type_name):
            key, value = self.fields(field.type_name)
            return words + f"repeated map<{key.type_word}, {value.type_word}>"
        if field.is_list:
            return words + f"repeated {field.type_word}" + " packed" * field.is_packed
        if field.oneof is not None and not field.is_optional:
            return words + f"oneof:{oneofs[int(field.oneof)]} {field.type_word}"
        is_implicit = not is_proto2(file) and not field.is_message and not field.is_optional
        return words + ("implicit " if is_implicit else "optional ") + field.type_word


# WHAT PBTOOL KEEPS

# Of each part of a set what pbtool keeps, and the kind of part that is inside it.
KEPT = {
    "set": {"file": "file"},
    "file": {
        **dict.fromkeys(["name", "package", "dependency", "public_dependency", "syntax"]),
        "message_type": "message", "enum_type": "enum", "service": "service",
    },
    "message": {
        "name": None, "field": "field", "nested_type": "message", "enum_type": "enum", "options": "options",
        "oneof_decl": "named", "reserved_range": "range", "reserved_name": None,
    },
    "field": {
        **dict.fromkeys(["name", "number", "label", "type", "type_name", "oneof_index", "proto3_optional"]),
        "options": "options",
    },
    "enum": {"name": None, "value": "named", "options": "options", "reserved_range": "range", "reserved_name": None},
    "service": {"name": None, "method": "method"},
    "method": dict.fromkeys(["name", "input_type", "output_type", "client_streaming", "server_streaming"]),
    "named": dict.fromkeys(["name", "number"]),
    "range": dict.fromkeys(["start", "end"]),
    "options": dict.fromkeys(["map_entry", "packed", "allow_alias"]),
}


def kept(part, parts):
    """What pbtool keeps of a part of a set."""
    for name, value in parts:
        if name in KEPT[part]:
            inner = KEPT[part][name]
            value = tuple(kept(inner, value)) if inner else value
            is_silent = value == "false" and name != "packed" or value == () and inner == "options"
            if not is_silent:
                yield name, value


# WHAT LENIENT READING LEAVES OUT

def omitted(files):
    """A line for each part of the files that lenient reading leaves out."""
    for file in files:
        yield from omitted_in(package_of(file), file, file)


def omitted_in(scope, holder, file):
    words = f"omitted {name_of(file)}"
    for extension in all_of(holder, "extension"):
        yield f"{words} {full(scope, extension)} Extension"
    for message in all_of(holder, "message_type") + all_of(holder, "nested_type"):
        name = full(scope, message)
        if is_closed_entry(file, message):
            yield f"{words} {name} ClosedMap"
        for _ in all_of(message, "extension_range"):
            yield f"{words} {name} ExtensionRange"
        for field in all_of(message, "field"):
            if one(field, "label") == "LABEL_REQUIRED":
                yield f"{words} {full(name, field)} Required"
            if one(field, "default_value") is not None:
                yield f"{words} {full(name, field)} DefaultValue"
        yield from omitted_in(name, message, file)


def without_closed_maps(file, parts):
    """A file or a message in it, whose maps of closed enums are lists of their entries. Custom options, which have numbers for names, are dropped."""
    for name, value in parts:
        if name.isdigit():
            continue
        if isinstance(value, str):
            yield name, value
        elif name == "options" and is_closed_entry(file, parts):
            continue
        else:
            yield name, list(without_closed_maps(file, value))


# RECORDS

def varint_at(data, at):
    value = shift = 0
    while True:
        byte = data[at]
        at += 1
        value |= (byte & 0x7F) << shift
        shift += 7
        if byte < 0x80:
            return value, at


def unknown_lines(data, level=0):
    """What `raw` lists of records, and how many bytes they have: all of them, or those of a group up to its end."""
    lines, at = [], 0
    indent = "  " * level
    while at < len(data):
        it, at = varint_at(data, at)
        number, wire_type = it >> 3, it & 7
        if wire_type == 4:
            return lines, at
        if wire_type == 0:
            value, at = varint_at(data, at)
            lines.append(f"{indent}{number} varint {value}")
        elif wire_type == 2:
            size, at = varint_at(data, at)
            payload = data[at:at + size]
            at += size
            lines.append(f"{indent}{number} len {size}" + (f" {payload.hex()}" if size else ""))
        elif wire_type == 3:
            inner, size = unknown_lines(data[at:], level + 1)
            at += size
            lines += [f"{indent}{number} group {{", *inner, indent + "}"]
        else:
            size = 8 if wire_type == 1 else 4
            value = int.from_bytes(data[at:at + size], "little")
            at += size
            lines.append(f"{indent}{number} i{size * 8} {value:0{size * 2}x}")
    return lines, at


def unknown_shown(data):
    """What `show` lists of unknown records: a mark before the first line of each."""
    return [it if it.startswith((" ", "}")) else "? " + it for it in unknown_lines(data)[0]]
