#!/usr/bin/env python3
"""Writes the types of a descriptor set as lines of words, so that a program takes them without reading a set: table.py SET.

The lines, an index counts the lines of its kind, and `-` means none:
    file NAME SYNTAX PACKAGE IMPORT..       the imports by index
    message NAME FILE PARENT                file and parent by index
    oneof NAME                              of the message whose line came last, as are the fields
    field NAME NUMBER KIND TYPE SHAPE WORD  the word is the oneof's index or the kind of a map's keys
    enum NAME FILE PARENT
    value NAME NUMBER"""
import sys

KINDS = "double float int64 uint64 int32 fixed64 fixed32 bool string group message bytes uint32 enum sfixed32 sfixed64 sint32 sint64".split()
REPEATED = 3


def varint(data, at):
    value = shift = 0
    while True:
        byte = data[at]
        value |= (byte & 127) << shift
        at, shift = at + 1, shift + 7
        if byte < 128:
            return value, at


class Record(dict):
    """The fields of a message of descriptor.proto, each a list of numbers or of bytes."""

    def __init__(self, data):
        at = 0
        while at < len(data):
            tag, at = varint(data, at)
            value, at = varint(data, at)
            if tag & 7 == 2:
                value, at = data[at : at + value], at + value
            self.setdefault(tag >> 3, []).append(value)

    def all(self, number):
        return [Record(it) for it in self.get(number, [])]

    def number(self, number, default=0):
        return self.get(number, [default])[-1]

    def text(self, number):
        return self.get(number, [b""])[-1].decode()


class Table:
    def __init__(self, data):
        self.files = Record(data).all(1)
        self.messages, self.enums, self.indexes, self.entries = [], [], {}, {}
        for index, file in enumerate(self.files):
            scope = "." + file.text(2) if file.text(2) else ""
            self.walk(scope, index, "-", file.all(4), file.all(5))

    def walk(self, scope, file, parent, messages, enums):
        """The types of a scope. The entry messages of maps are no types."""
        for it in enums:
            self.indexes[f"{scope}.{it.text(1)}"] = len(self.enums)
            self.enums.append((it, file, parent))
        for it in messages:
            name = f"{scope}.{it.text(1)}"
            if Record(it.get(7, [b""])[0]).number(7):
                self.entries[name] = it.all(2)
                continue
            self.indexes[name] = index = len(self.messages)
            self.messages.append((it, file, parent))
            self.walk(name, file, index, it.all(3), it.all(4))

    def syntax(self, file):
        return self.files[file].text(12) or "proto2"

    def kind(self, field):
        """The words of a field's kind and of its type."""
        name, of = KINDS[field.number(5) - 1], field.text(6)
        if not of:
            return f"{name} -"
        if name == "enum" and self.syntax(self.enums[self.indexes[of]][1]) == "proto2":
            name = "closed"
        return f"{name} {self.indexes[of]}"

    def field(self, field, file):
        key, shape = field, None
        if field.text(6) in self.entries:
            key, field_of = sorted(self.entries[field.text(6)], key=lambda it: it.number(3))
            return f"field {field.text(1)} {field.number(3)} {self.kind(field_of)} map {KINDS[key.number(5) - 1]}"
        if field.number(4) == REPEATED:
            numbers = KINDS[field.number(5) - 1] not in ("string", "bytes", "message", "group")
            options = Record(field.get(8, [b""])[0])
            shape = "packed -" if numbers and options.number(2, self.syntax(file) == "proto3") else "list -"
        elif 9 in field and not field.number(17):
            shape = f"oneof {field.number(9)}"
        else:
            implicit = self.syntax(file) == "proto3" and not field.number(17) and KINDS[field.number(5) - 1] != "message"
            shape = "implicit -" if implicit else "explicit -"
        return f"field {field.text(1)} {field.number(3)} {self.kind(field)} {shape}"

    def lines(self):
        names = [it.text(1) for it in self.files]
        for at, file in enumerate(self.files):
            imports = [str(names.index(it.decode())) for it in file.get(3, [])]
            yield " ".join(["file", names[at], self.syntax(at), file.text(2) or "-", *imports])
        for message, file, parent in self.messages:
            yield f"message {message.text(1)} {file} {parent}"
            # The oneof of a field that is marked optional in proto3 is none.
            members = [it.number(9) for it in message.all(2) if 9 in it and not it.number(17)]
            for index, oneof in enumerate(message.all(8)):
                if index in members:
                    yield f"oneof {oneof.text(1)}"
            for field in message.all(2):
                yield self.field(field, file)
        for enum, file, parent in self.enums:
            yield f"enum {enum.text(1)} {file} {parent}"
            for value in enum.all(2):
                number = value.number(2)
                yield f"value {value.text(1)} {number - 2**64 if number >= 2**63 else number}"


if __name__ == "__main__":
    with open(sys.argv[1], "rb") as source:
        print("\n".join(Table(source.read()).lines()))
