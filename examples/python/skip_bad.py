"""Copies the good frames of a stream of messages, and reports the bad ones: skip_bad.py SET TYPE STREAM OUT"""
import sys

from mabristu import Pool, Refused


def main(set_name, type_name, stream_name, out_name):
    with open(set_name, "rb") as it:
        found = Pool(it.read())[type_name]
    kept = 0
    bad: list[Refused] = []
    with open(stream_name, "rb") as stream, open(out_name, "wb") as out:
        for frame in found.frames(stream, skip=bad.append):
            length, left = b"", len(frame.data)
            while left > 127:
                length, left = length + bytes([left & 127 | 128]), left >> 7
            out.write(length + bytes([left]) + frame.data)
            kept += 1
    for refused in bad:
        print(refused)
    print(f"{kept} kept, {len(bad)} skipped")


if __name__ == "__main__":
    main(*sys.argv[1:])
