"""A page that shows a message: its bytes beside the tree of its fields, and a fault at its byte.

    python3 -m mabristu.inspect --set shop.set --type shop.Order shop_order.bin

serves it on 127.0.0.1; `--out page.html` writes it as one file instead. The page takes the bytes apart by itself, to show where each field lies.
Whether they are a message, what is wrong with them, their JSON and their canonical bytes come from the library.
"""
import base64
import hashlib
import json
import os

from .. import Message, MessageType, Refused, raw_check

HERE = os.path.dirname(os.path.realpath(__file__))
# How many frames of a stream the page asks for at a time.
FRAMES_AT_ONCE = 500


def read(name):
    with open(f"{HERE}/{name}", encoding="utf-8") as it:
        return it.read()


def to_text(data):
    return base64.b64encode(data).decode()


def reachable(message_type):
    """The message type and the message types to which its fields lead, each once."""
    found, waiting = {message_type.name: message_type}, [message_type]
    while waiting:
        for field in waiting.pop().fields:
            inner = field.type
            if inner is not None and inner.name not in found:
                found[inner.name] = inner
                waiting.append(inner)
    return found


def described_field(field):
    it = {"name": field.name, "kind": field.kind, "shape": field.shape}
    if field.type is not None:
        it["type"] = field.type.name
    if field.enum is not None:
        it["enum"] = {str(number): name for number, name in field.enum.names.items()}
    if field.key:
        it["key"] = field.key
    return it


def described(message_type):
    """The schema as the page reads it: the fields of each type by their numbers."""
    if message_type is None:
        return {}
    return {name: {str(field.number): described_field(field) for field in one.fields} for name, one in reachable(message_type).items()}


def fault_of(refused):
    return {"byte": refused.byte, "path": list(refused.path or ()), "cause": str(refused.cause), "text": str(refused)}


def looked_at(message_type, data):
    """The library's report on bytes: their fault, or their JSON, listing and canonical bytes. Without a type, their fault alone."""
    try:
        if message_type is None:
            raw_check(data)
            return {}
        message = message_type.decode(data)
    except Refused as refused:
        return {"fault": fault_of(refused)}
    said = {"listing": message.listing(decimal=True), "canonical": to_text(message.encode())}
    try:
        said["json"] = message.to_json(indent=True)
    except Refused as refused:
        said["no_json"] = str(refused)
    return said


def value_of(field, text):
    """The value of a scalar field that a user typed."""
    kind = field.kind
    if kind == "string":
        return text
    if kind == "bytes":
        return bytes.fromhex(text)
    if kind == "bool":
        if text.strip() not in ("true", "false"):
            raise ValueError("a bool is true or false")
        return text.strip() == "true"
    if kind in ("float", "double"):
        return float(text)
    if field.enum is not None and text.strip() in field.enum.numbers:
        return field.enum.numbers[text.strip()]
    return int(text, 0)


def changed(message_type, data, steps, text):
    """The canonical bytes of a message after a change of one scalar. Steps lead to the scalar: a field's name, then an index or a key if the field is a
    list or a map."""
    message = message_type.decode(data)
    part, field = message, None
    for step in steps[:-1]:
        if isinstance(part, Message):
            field = part.type.field(step)
        part = part[step]
    last = steps[-1]
    if isinstance(part, Message):
        field = part.type.field(last)
    part[last] = value_of(field, text)
    return message.encode()


class Stream:
    """The frames of a file, checked up to the last frame that was asked for."""

    def __init__(self, message_type, path):
        self.path = path
        self.found = []
        self.file = open(path, "rb")
        self.left = message_type.frames(self.file, skip=self.refused)
        self.is_whole = False

    def refused(self, refused):
        self.found.append({"at": refused.at, "size": refused.size, "fault": fault_of(refused)})

    def frames(self, first):
        """Some frames from a number on, and whether more follow."""
        while len(self.found) < first + FRAMES_AT_ONCE and not self.is_whole:
            frame = next(self.left, None)
            if frame is None:
                self.is_whole = True
            else:
                self.found.append({"at": frame.at, "size": frame.size})
        some = self.found[first:first + FRAMES_AT_ONCE]
        return {"frames": some, "more": not self.is_whole or first + len(some) < len(self.found)}

    def message(self, number):
        """The bytes of the message of a frame."""
        frame = self.found[number]
        if frame["size"] is None:
            raise ValueError("the length of this frame cannot be read")
        with open(self.path, "rb") as it:
            it.seek(frame["at"])
            whole = it.read(frame["size"])
        begin = 0
        while whole[begin] & 128:
            begin += 1
        return whole[begin + 1:]


def contents(message_type, name, data, stream=None):
    """The first contents of the page."""
    return {
        "name": name,
        "type": message_type.name if message_type is not None else None,
        "types": described(message_type),
        "bytes": to_text(data),
        "said": looked_at(message_type, data),
        "stream": stream.frames(0) if stream else None,
    }


def sha256(text):
    return "'sha256-" + base64.b64encode(hashlib.sha256(text.encode()).digest()).decode() + "'"


def alone(given):
    """The page as one file that needs no server. Its own script and style are allowed by their hashes, and nothing else is."""
    # A script ends at the first </script, so none is in what is given.
    data = json.dumps(given).replace("<", "\\u003c")
    script, style = read("page.js"), read("page.css")
    policy = f"default-src 'none'; script-src {sha256(script)}; style-src {sha256(style)}; base-uri 'none'; form-action 'none'"
    head = (f'<meta http-equiv="Content-Security-Policy" content="{policy}">\n<style>{style}</style>\n'
            f'<script type="application/json" id="given">{data}</script>')
    return read("page.html").replace("<!-- head -->", head).replace("<!-- script -->", f"<script>{script}</script>")


def served():
    """The page that the server gives. It loads its script and style from the server."""
    return read("page.html").replace("<!-- head -->", '<link rel="stylesheet" href="page.css">').replace("<!-- script -->", '<script src="page.js"></script>')
