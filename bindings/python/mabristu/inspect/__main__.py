"""Shows a message as a page in a browser: its bytes beside the tree of its fields.

  python3 -m mabristu.inspect [--set SET | --proto FOLDER] [--type TYPE] [MESSAGE | --frames STREAM] [--out PAGE]

SET is a descriptor set, and FOLDER is a folder of .proto files. TYPE is the full name of the message type. MESSAGE is a file with the bytes of a message,
or - for the standard input. Without SET and FOLDER, the page shows the fields by number. The page is served on 127.0.0.1 until Ctrl-C, at an address
with a random part. --out writes the page to a file instead, which you can send to others.
"""
import argparse
import hmac
import http.server
import json
import os
import secrets
import sys
import threading

from .. import Pool, Refused
from . import Stream, alone, changed, contents, looked_at, read, served, to_text

POLICY = ("default-src 'none'; script-src 'self'; style-src 'self'; connect-src 'self'; base-uri 'none'; form-action 'none'; frame-ancestors 'none'")
# The most bytes of a question to the server.
LARGEST = 64 << 20


def sources_of(folder):
    """The .proto files below a folder, by the names that imports use."""
    found = {}
    for at, _, names in os.walk(folder):
        for name in names:
            if name.endswith(".proto"):
                path = os.path.join(at, name)
                with open(path, "rb") as it:
                    found[os.path.relpath(path, folder).replace(os.sep, "/")] = it.read()
    return found


def pool_of(words):
    if words.set:
        with open(words.set, "rb") as it:
            return Pool(it.read(), lenient=True)
    if words.proto:
        return Pool.of_sources(sources_of(words.proto), lenient=True)
    return None


def type_of(pool, name):
    if pool is None:
        return None
    if name is None:
        sys.exit("mabristu.inspect: --type names one of: " + ", ".join(sorted(it.name for it in pool)))
    if name not in pool:
        sys.exit(f"mabristu.inspect: no message type {name}; there are: " + ", ".join(sorted(it.name for it in pool)))
    return pool[name]


class Page(http.server.BaseHTTPRequestHandler):
    """Serves the page of one token; any other path is not found. `server` has the token, the type, the first contents of the page, and the stream."""

    def log_message(self, *_):
        pass

    def answer(self, status, kind, data):
        self.send_response(status)
        self.send_header("Content-Type", f"{kind}; charset=utf-8")
        self.send_header("Content-Length", str(len(data)))
        self.send_header("Content-Security-Policy", POLICY)
        self.send_header("X-Content-Type-Options", "nosniff")
        self.send_header("Referrer-Policy", "no-referrer")
        self.send_header("Cache-Control", "no-store")
        self.end_headers()
        self.wfile.write(data)

    def is_known(self):
        """Whether the path begins with the token, and the browser asked for this address, and not for another name of it."""
        token = self.path.split("/")[1] if self.path.count("/") >= 2 else ""
        host = self.headers.get("Host", "")
        return hmac.compare_digest(token.encode(), self.server.token.encode()) and host == self.server.host

    def do_GET(self):
        if not self.is_known():
            return self.answer(404, "text/plain", b"not here\n")
        word, _, query = self.path.split("/", 2)[2].partition("?")
        if word == "":
            return self.answer(200, "text/html", served().encode())
        if word == "page.js":
            return self.answer(200, "text/javascript", read("page.js").encode())
        if word == "page.css":
            return self.answer(200, "text/css", read("page.css").encode())
        if word == "given":
            return self.answer(200, "application/json", json.dumps(self.server.given).encode())
        return self.answer(404, "text/plain", b"not here\n")

    def do_POST(self):
        if not self.is_known():
            return self.answer(404, "text/plain", b"not here\n")
        length = int(self.headers.get("Content-Length", "0"))
        if length > LARGEST:
            return self.answer(413, "text/plain", b"too long\n")
        try:
            asked = json.loads(self.rfile.read(length))
            with self.server.lock:
                said = self.said(self.path.split("/", 2)[2], asked)
        except (Refused, ValueError, KeyError, TypeError, IndexError, OverflowError) as error:
            said = {"error": str(error) or type(error).__name__}
        return self.answer(200, "application/json", json.dumps(said).encode())

    def said(self, word, asked):
        message_type, stream = self.server.message_type, self.server.stream
        if word == "look":
            return looked_at(message_type, bytes.fromhex(asked["hex"]))
        if word == "change":
            data = changed(message_type, bytes.fromhex(asked["hex"]), asked["steps"], asked["text"])
            return {"bytes": to_text(data), "said": looked_at(message_type, data)}
        if word == "frames":
            return stream.frames(int(asked["first"]))
        if word == "frame":
            data = stream.message(int(asked["number"]))
            return {"bytes": to_text(data), "said": looked_at(message_type, data)}
        raise KeyError(word)


def serve(given, message_type, stream):
    server = http.server.ThreadingHTTPServer(("127.0.0.1", 0), Page)
    server.daemon_threads = True
    server.token = secrets.token_urlsafe(24)
    server.host = f"127.0.0.1:{server.server_port}"
    server.given, server.message_type, server.stream, server.lock = given, message_type, stream, threading.Lock()
    print(f"http://{server.host}/{server.token}/", flush=True)
    try:
        server.serve_forever()
    except KeyboardInterrupt:
        pass


def main():
    parser = argparse.ArgumentParser(prog="python3 -m mabristu.inspect", description=__doc__.split("\n")[0])
    schema = parser.add_mutually_exclusive_group()
    schema.add_argument("--set", metavar="SET", help="a descriptor set")
    schema.add_argument("--proto", metavar="FOLDER", help="a folder of .proto files")
    parser.add_argument("--type", metavar="TYPE", help="the full name of the message type")
    parser.add_argument("--frames", metavar="STREAM", help="a file of messages, each after its length")
    parser.add_argument("--out", metavar="PAGE", help="write the page to this file, and serve nothing")
    parser.add_argument("message", nargs="?", metavar="MESSAGE", help="a file with the bytes of a message, or - for the standard input")
    words = parser.parse_args()
    if words.frames and words.message:
        parser.error("MESSAGE and --frames STREAM are two inputs: give one of them")
    try:
        message_type = type_of(pool_of(words), words.type)
        if words.frames and message_type is None:
            parser.error("--frames needs the type of the messages: --set or --proto, and --type")
        stream = Stream(message_type, words.frames) if words.frames else None
        data = b""
        if words.message == "-":
            data = sys.stdin.buffer.read()
        elif words.message:
            with open(words.message, "rb") as it:
                data = it.read()
        elif stream and stream.frames(0)["frames"]:
            data = stream.message(0) if stream.found[0]["size"] is not None else b""
    except Refused as refused:
        sys.exit(f"mabristu.inspect: the schema is refused: {refused}")
    except OSError as error:
        sys.exit(f"mabristu.inspect: {error.filename}: {error.strerror}")
    given = contents(message_type, words.frames or words.message or "", data, stream)
    if words.out:
        with open(words.out, "w", encoding="utf-8") as it:
            it.write(alone(given))
    else:
        serve(given, message_type, stream)


if __name__ == "__main__":
    main()
