"""What a pool declares."""
from collections import namedtuple

__all__ = ["DeclaredEnum", "DeclaredFile", "DeclaredType", "Difference", "Enum", "Schema"]

DeclaredFile = namedtuple("DeclaredFile", "name package imports syntax")
DeclaredFile.__doc__ = "A file: its name, its package, how many files it imports, and its syntax, proto2 or proto3."
DeclaredType = namedtuple("DeclaredType", "name file parent type")
DeclaredType.__doc__ = "A message type: its full name, the name of its file, the full name of the type around it, or None, and the MessageType."
DeclaredEnum = namedtuple("DeclaredEnum", "name file parent values")
DeclaredEnum.__doc__ = "An enum: its full name, the name of its file, the full name of the type around it, or None, and its values (name, number)."

Difference = namedtuple("Difference", "old new field severity")
Difference.__doc__ = "A difference between two message types: the old type, the new type, a field of the old type, and the severity, as docs/COMPAT.md explains it."


class Enum(str):
    """An enum: a str, its full name, with two dicts. names is a dict from number to name (the first name if several share the number), and numbers is a
    dict from name to number."""

    names: dict
    numbers: dict

    def __new__(cls, pool, entry):
        name, _, _, count = pool._enum(entry)
        values = [pool._enum_value(entry, it) for it in range(count)]
        enum = super().__new__(cls, name)
        enum.numbers = dict(values)
        enum.names = {number: value for value, number in reversed(values)}
        return enum

    def __reduce__(self):
        return str, (str(self),)


class Schema:
    """What a pool declares, in the order of its set: files, types and enums."""

    def __init__(self, pool):
        files, messages, enums = pool._counts()
        self.files = [self._file(*pool._file(it)) for it in range(files)]
        found = [pool._message(it) for it in range(messages)]
        names = [name for name, _, _ in found]
        parent = lambda of: None if of is None else names[of]
        self.types = [DeclaredType(name, self.files[file].name, parent(of), pool._type_at(it)) for it, (name, file, of) in enumerate(found)]
        self.enums = [self._enum(pool, it, parent) for it in range(enums)]

    @staticmethod
    def _file(name, package, imports, is_proto2):
        return DeclaredFile(name, package, imports, "proto2" if is_proto2 else "proto3")

    def _enum(self, pool, entry, parent):
        name, file, of, values = pool._enum(entry)
        return DeclaredEnum(name, self.files[file].name, parent(of), [pool._enum_value(entry, it) for it in range(values)])

    def __repr__(self):
        return f"<mabristu.Schema of {len(self.files)} files, {len(self.types)} types and {len(self.enums)} enums>"
