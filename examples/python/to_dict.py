"""A message as a dict, and back: to_dict.py SET TYPE FILE prints the dict. It fails if the message that this dict gives is another message. A dict has no
unknown fields, so the program drops them first."""
import pprint
import sys

from mabristu import Pool


def main(set_name, type_name, file_name):
    with open(set_name, "rb") as it:
        found = Pool(it.read())[type_name]
    with open(file_name, "rb") as it:
        message = found.decode(it.read())
    message.drop_unknown()
    fields = message.to_dict()
    pprint.pprint(fields)
    return 0 if found.from_dict(fields) == message else 1


if __name__ == "__main__":
    sys.exit(main(*sys.argv[1:]))
