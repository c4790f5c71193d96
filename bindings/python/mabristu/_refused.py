"""Why a call fails."""
import re
from os.path import commonprefix

__all__ = ["CAUSES", "Refused", "UnknownName"]

#: The names of causes, by their numbers, as docs/ERRORS.md lists them: the library's, which _mabristu puts here.
CAUSES = {}


class Refused(ValueError):
    """Bytes, a descriptor set, sources or JSON that are refused. Its text is the line that pbtool prints.

    cause is the name of the cause, and number its number. Each other attribute is None if it is not known. byte is where the fault is, counted from 0.
    path has the fields that lead to the fault, a tuple of steps (number, before), outermost first: a field number, and the count of fields of this number
    before it in the same message. For a value without a JSON form, path has field numbers alone. type is the message type that the bytes should have.
    file is the name of a source, or the index of a file of a set; name is the name of a declaration. For a stream, frame is the index of the frame, at is
    where it begins and size is the number of its bytes; then byte counts from at.

    hint is a line for people: the path with names, a position in a source or in JSON, or what the bytes look like. A traceback of Python 3.11 and later
    ends with it. Programs should not read it.
    """

    def __init__(self, where, cause, byte=None, path=None, file=None, name=None):
        self.where, self.number, self.cause = where, cause, CAUSES.get(cause, "?")
        self.byte, self.path, self.file, self.name = byte, path, file, name
        self.frame = self.at = self.size = self.type = self._hint = self._notes = None
        super().__init__(where, cause)

    @property
    def hint(self):
        if self._hint is None and self.type is not None and self.path:
            self._hint = f"at {'.'.join(f'{name}[{before}]' for name, before in self.names(self.type))} of {self.type.name}"
        return self._hint

    @property
    def __notes__(self):
        if self._notes is None:
            self._notes = [f"  {self.hint}"] if self.hint else []
        return self._notes

    def __reduce__(self):
        # The type would bring its whole pool.
        return type(self), self.args, {**self.__dict__, "type": None, "_hint": self.hint}

    def names(self, message_type):
        """The path with names, by the type that the bytes should have: steps (name, before), outermost first. For a part without a JSON form it has names
        alone. An entry of a map is a step into the map's field, and a field in the entry is `key` or `value`. A number that no field of the type has stays
        a number."""
        found, inside = [], (message_type, None)
        for step in self.path or ():
            number, *before = step if isinstance(step, tuple) else (step,)
            name, inside = named(inside, number, bool(before))
            found.append((name, *before) if before else name)
        return tuple(found)

    def __str__(self):
        before = "" if self.frame is None else f"frame {self.frame} "
        return f"{before}{self.where} cause {self.cause}"


class UnknownName(KeyError):
    """A name that a pool or a message type does not declare. The text of the exception has a declared name that is near to it, if there is one."""

    def __init__(self, line, name=None, what=None, owner=None):
        self._name, self._what, self._owner = name, what, owner
        super().__init__(line)

    def __str__(self):
        return self.args[0] + near(self._name, declared(self._what, self._owner))

    def __reduce__(self):
        return UnknownName, (str(self),)


def is_near(wanted, name):
    """Whether two names differ in one place alone, but for case: there each has at most two letters, or half of a name that is shorter than four."""
    wanted, name = wanted.lower(), name.lower()
    most = len(wanted) // 2 if len(wanted) < 4 else 2
    before = len(commonprefix([wanted, name]))
    wanted, name = wanted[before:], name[before:]
    after = len(commonprefix([wanted[::-1], name[::-1]]))
    return max(len(wanted), len(name)) - after <= most


def near(wanted, declared):
    """A question about the first declared name that ends in `.` and the wanted one, or that is near to it; else nothing."""
    if not isinstance(wanted, str):
        return ""
    found = [it for it in declared if it.endswith(f".{wanted}")] or [it for it in declared if is_near(wanted, it)]
    return f": did you mean {found[0]}?" if found else ""


def declared(what, owner):
    """The names that a pool declares of types, or a message type of fields or oneofs."""
    if what == "type":
        return [it.name for it in owner]
    if what == "oneof":
        return list({it.oneof for it in owner.fields if it.oneof})
    return [it.name for it in owner.fields] if what == "field" else []


def unknown(what, owner, name):
    """The exception for a name that a pool or a message type does not declare, or the enum of a field."""
    if what == "type":
        return UnknownName(f"type {name} unknown", name, what, owner)
    if what == "oneof":
        return UnknownName(f"{owner.name} has no oneof {name}", name, what, owner)
    if what == "value":
        return ValueError(f"{owner.full_name} takes a value of {owner.enum}, which has none of the name {name!r}{near(name, list(owner.enum.numbers))}")
    return UnknownName(f"{owner.name} has no field {name}", name, what, owner)


def named(inside, number, has_entries):
    """The name that a number has in a message type, or in an entry of a map's field, and what is inside there; or the number, and nothing."""
    message_type, entry = inside
    if entry is not None:
        return {1: "key", 2: "value"}.get(number, number), (entry.type if number == 2 else None, None)
    field = next((it for it in message_type.fields if it.number == number), None) if message_type is not None else None
    if field is None:
        return number, (None, None)
    return field.name, (None, field) if field.shape == "map" and has_entries else (field.type, None)


def fault(byte, path, cause, before=""):
    """A fault of bytes."""
    steps = ".".join(f"{number}[{count}]" for number, count in path) or "-"
    return Refused(f"{before}byte {byte} path {steps}", cause, byte=byte, path=path)


def refused(what, cause, *where):
    """A refusal of anything else than bytes."""
    if what == "link":
        file, name = (it.decode(errors="replace") for it in where)
        return Refused(f"link {file or '-'} at {name or '-'}", cause, file=file, name=name)
    if what == "source":
        name, byte = where
        name = name.decode(errors="replace") if isinstance(name, bytes) else name
        return Refused(f"source {name} byte {byte}", cause, byte=byte, file=name)
    if what == "json":
        return Refused(f"json path {'.'.join(map(str, where[0])) or '-'}", cause, path=where[0])
    if what == "json text":
        return Refused(f"json byte {where[0]}", cause, byte=where[0])
    if what == "set":
        return Refused(f"set file {where[0]}", cause, file=where[0])
    return Refused(what, cause)


# What the bytes of a refused set look like, by what they match.
LOOKS = (
    (rb"\x1f\x8b", "a gzip file: decompress them first"),
    (rb"\s*[\[{]", "JSON: a descriptor set is binary"),
    (rb"(?:[0-9A-Fa-f]\s*){32}", "hexadecimal: bytes.fromhex reads it"),
    (rb"(?:[A-Za-z0-9+/]\s*){32}", "base64: base64.b64decode reads it"),
    (rb"\s*(?://|/\*|(?:syntax|edition|package|import|message|enum)\b)", "a source: Pool.of_sources takes sources"),
)


def hint_of_set(refused, data):
    begin = bytes(memoryview(data)[:1000])
    looks = next((it for pattern, it in LOOKS if re.match(pattern, begin)), None)
    if isinstance(refused, Refused) and looks:
        refused._hint = f"the bytes look like {looks}"


def position(text, byte):
    """The line and the column of a byte, from 1 on, and the text from there to the end of the line."""
    before = bytes(text[:byte])
    line = before.count(b"\n") + 1
    column = len(before[before.rfind(b"\n") + 1 :].decode(errors="replace")) + 1
    rest = bytes(text[byte : byte + 60]).split(b"\n")[0].decode(errors="ignore")
    return f"line {line} column {column}: {rest}"


def hint_of_json(refused, text):
    if isinstance(refused, Refused):
        refused._hint = position(memoryview(text), refused.byte)


def hint_of_sources(refused, sources):
    if not isinstance(refused, Refused):
        return
    sources = {name: it.encode() if isinstance(it, str) else it for name, it in sources}
    text = sources.get(refused.file)
    if text is not None and refused.byte is not None:
        refused._hint = position(text, refused.byte)
    elif text is not None and refused.cause == "MissingImport":
        found = re.findall(rb'^\s*import\s+(?:public\s+|weak\s+)?["\']([^"\'\n]+)', text, re.M)
        missing = [it for it in (name.decode(errors="replace") for name in found) if it not in sources]
        if missing:
            refused._hint = f"the sources have no {missing[0]}, which it imports"


def hint_of_change(refused, field):
    """Which field the change was to be of, and what it takes."""
    if refused.cause == "NoSuchValue":
        refused._hint = f"{field.full_name} takes a value of {field.enum}: {', '.join(field.enum.numbers)}"
    elif refused.cause == "TooDeep":
        refused._hint = f"with {field.full_name} messages would nest more than 100 levels deep"
    else:
        refused._hint = f"at {field.full_name}"
