"""Decodes the message in a file in pieces, and prints its canonical bytes in hexadecimal digits: pieces.py SIZE SET TYPE FILE. It refuses the bytes at the
first piece after which no further bytes can repair their fault."""
import sys

from mabristu import Pool, Refused


def main(size, set_name, type_name, name):
    with open(set_name, "rb") as it:
        decoder = Pool(it.read())[type_name].decoder()
    with open(name, "rb") as file:
        try:
            while piece := file.read(int(size)):
                decoder.feed(piece)
            print(decoder.finish().encode().hex())
            return 0
        except Refused as refused:
            print(refused, file=sys.stderr)
            return 1


if __name__ == "__main__":
    sys.exit(main(*sys.argv[1:]))
