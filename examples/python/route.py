"""Reads a field from the bytes of each message of a stream: route.py SET TYPE FIELD STREAM. Prints where each message begins, and the value of the field."""
import sys

from mabristu import Pool


def main(set_name, type_name, field, stream_name):
    with open(set_name, "rb") as it:
        found = Pool(it.read())[type_name]
    with open(stream_name, "rb") as stream:
        for frame in found.frames(stream):
            print(frame.at, found.find(frame.data, field))


if __name__ == "__main__":
    main(*sys.argv[1:])
