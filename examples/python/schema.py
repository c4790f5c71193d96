"""Prints fields of a message type, or of the messages in its fields: schema.py SET TYPE NAME.., each NAME as lines or lines.price"""
import sys

from mabristu import Pool


def main(set_name, type_name, *names):
    with open(set_name, "rb") as it:
        found = Pool(it.read())[type_name]
    for name in names:
        at = found
        for part in name.split("."):
            field = at.field(part)
            at = field.type
        print(name, field.number, field.kind, field.shape)


if __name__ == "__main__":
    main(*sys.argv[1:])
