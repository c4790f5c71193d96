"""Compares the library, by the package for Python, with pbtool on mutated messages, streams, sets and sources: mutate.py PBTOOL [SECONDS [SEED]]

The package mabristu is found by PYTHONPATH. What is printed has to be the same word for word. It ends at the first difference, whose files it leaves."""
import collections
import io
import os
import random
import subprocess
import sys
import tempfile
import time
from contextlib import redirect_stderr, redirect_stdout

TOP = os.path.dirname(os.path.dirname(os.path.dirname(os.path.realpath(__file__))))
sys.path.insert(0, f"{TOP}/examples/python")
import tool

EXAMPLES = f"{TOP}/examples"


def read(name):
    with open(f"{EXAMPLES}/{name}", "rb") as it:
        return it.read()


def mutated(data, chosen):
    data = bytearray(data)
    for _ in range(chosen.randrange(1, 5)):
        kind, at = chosen.randrange(5), chosen.randrange(len(data) + 1)
        if kind == 0 and data:
            data[min(at, len(data) - 1)] = chosen.randrange(256)
        elif kind == 1:
            data[at:at] = chosen.randbytes(chosen.randrange(4))
        elif kind == 2:
            del data[at : at + chosen.randrange(5)]
        elif kind == 3:
            data[at:at] = data[chosen.randrange(len(data) + 1) :][: chosen.randrange(30)]
        elif chosen.randrange(4) == 0:
            del data[at:]
    return bytes(data)


def by_pbtool(program, words):
    ran = subprocess.run([program, *words], stdout=subprocess.PIPE, stderr=subprocess.PIPE)
    return ran.returncode, ran.stdout.decode(), ran.stderr.decode()


def by_library(words):
    out, err = io.StringIO(), io.StringIO()
    with redirect_stdout(out), redirect_stderr(err):
        status = tool.main(words)
    return status, out.getvalue(), err.getvalue()


def main(program, seconds="60", seed="7"):
    chosen, end, seen = random.Random(int(seed)), time.time() + float(seconds), collections.Counter()
    scratch = tempfile.mkdtemp(prefix="mutate-")
    os.chdir(scratch)
    message, shop, source = read("shop_order.bin"), read("shop.set"), read("shop.proto")
    frame = bytes([len(message)]) + message
    while time.time() < end:
        kind = chosen.choice(["message", "message", "pieces", "stream", "set", "source"])
        files = {"shop.set": shop, "message": message, "stream": 2 * frame + b"\0" + frame, "shop.proto": source}
        changed = {"set": "shop.set", "source": "shop.proto", "pieces": "message"}.get(kind, kind)
        files[changed] = mutated(files[changed], chosen)
        for name, data in files.items():
            with open(name, "wb") as it:
                it.write(data)
        if kind == "source":
            pair = ["compile", ".", "shop.proto"], ["compile", ".", "/dev/null", "shop.proto"]
        elif kind == "stream":
            pair = 2 * (["frames", "shop.set", "shop.Order", "stream"],)
        elif kind == "pieces":
            pair = ["pieces", str(chosen.randrange(1, 20)), "shop.set", "shop.Order", "message"], ["canon", "shop.set", "shop.Order", "message"]
        else:
            pair = 2 * ([chosen.choice(["check", "show", "canon"]), "shop.set", "shop.Order", "message"],)
        reported, wanted = by_library(pair[0]), by_pbtool(program, pair[1])
        seen[kind, "done" if reported[0] == 0 else reported[2].split()[-1]] += 1
        if reported != wanted:
            print(f"{' '.join(pair[0])} in {scratch}:\n  library {reported}\n  pbtool  {wanted}")
            return 1
    print(f"{seen.total()} mutated files have the same report; of {len(seen)} kinds of answer:")
    print(", ".join(f"{' '.join(it)} {count}" for it, count in sorted(seen.items())))
    return 0


if __name__ == "__main__":
    sys.exit(main(*sys.argv[1:]))
