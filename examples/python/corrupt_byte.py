"""Finds the first corrupt byte of a stream of messages, each after its length: corrupt_byte.py SET TYPE STREAM"""
import sys

from mabristu import Pool, Refused


def main(set_name, type_name, stream_name):
    with open(set_name, "rb") as it:
        found = Pool(it.read())[type_name]
    with open(stream_name, "rb") as stream:
        try:
            count = sum(1 for _ in found.frames(stream))
        except Refused as refused:
            path = ".".join(f"{number}[{before}]" for number, before in refused.path) or "-"
            print(f"byte {refused.at + refused.byte} of the stream, in frame {refused.frame}, path {path}, cause {refused.cause}")
            return 1
    print(f"{count} frames without a fault")
    return 0


if __name__ == "__main__":
    sys.exit(main(*sys.argv[1:]))
