"""Changes fields of a shop.Order and writes it to OUT: edit.py SET IN OUT. Its state is 2 (PAID), its first line has one piece more, and it has one more line."""
import sys

from mabristu import Pool


def main(set_name, in_name, out_name):
    with open(set_name, "rb") as it:
        Order = Pool(it.read())["shop.Order"]
    with open(in_name, "rb") as it:
        order = Order.decode(it.read())
    order["state"] = 2
    order["lines"][0]["pieces"] += 1
    order["lines"].append({"article": "washer"})
    with open(out_name, "wb") as it:
        it.write(order.encode())


if __name__ == "__main__":
    main(*sys.argv[1:])
