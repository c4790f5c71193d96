"""Makes random orders of the shop by Python's protobuf, and prints of each a line of JSON: its deterministic encoding, in hexadecimal, its text, and its fields:

  by_protobuf.py SET COUNT [SEED]

A float is written by its bits, since JSON has no infinities; bytes as hexadecimal."""
import json
import random
import struct
import sys

from google.protobuf import descriptor_pb2, descriptor_pool, message_factory


def order_class(path):
    found = descriptor_pb2.FileDescriptorSet()
    with open(path, "rb") as it:
        found.ParseFromString(it.read())
    pool = descriptor_pool.DescriptorPool()
    for file in found.file:
        pool.Add(file)
    order = pool.FindMessageTypeByName("shop.Order")
    return message_factory.MessageFactory(pool).GetPrototype(order)


def word(chosen):
    return "".join(chosen.choice("abcxyz äß€😀\n\"\\") for _ in range(chosen.choice((0, 1, 3, 12, 300))))


def fill(order, chosen):
    some = lambda: chosen.randrange(3) == 0
    if some():
        order.number = chosen.choice((1, 127, 128, 2**32, 2**64 - 1, 0))
    if some():
        order.placed_on = word(chosen)
    for _ in range(chosen.choice((0, 1, 5))):
        price = struct.unpack("<d", struct.pack("<Q", chosen.choice((0, 1, 1 << 63, 0x7FF << 52, 0x3FF << 52, chosen.getrandbits(62)))))[0]
        order.lines.add(article=word(chosen), pieces=chosen.choice((0, 1, -1, -(2**31), 2**31 - 1)), price=price)
    for _ in range(chosen.choice((0, 1, 5))):
        order.discounts[word(chosen)] = chosen.choice((0, -5, 7, 2**31 - 1))
    if some():
        order.card = word(chosen)
    elif some():
        order.invoice.address = word(chosen)
        order.invoice.signature = chosen.randbytes(chosen.choice((0, 2, 300)))
    if some():
        order.state = chosen.choice((0, 1, 2, 77, -1))
    order.corrections.extend(chosen.choice((0, -1, 1, 2**31 - 1, -(2**31))) for _ in range(chosen.choice((0, 2, 70))))
    if some():
        order.gift = some()


def bits(number):
    return struct.unpack("<Q", struct.pack("<d", number))[0]


def fields(order):
    found = {"number": order.number, "placed_on": order.placed_on, "corrections": list(order.corrections), "state": order.state}
    found["lines"] = [{"article": it.article, "pieces": it.pieces, "price": bits(it.price)} for it in order.lines]
    found["discounts"] = dict(order.discounts)
    found["card"] = order.card if order.HasField("card") else None
    found["gift"] = order.gift if order.HasField("gift") else None
    has_invoice = order.HasField("invoice")
    found["invoice"] = {"address": order.invoice.address, "signature": order.invoice.signature.hex()} if has_invoice else None
    found["numbers"] = [it.number for it, _ in order.ListFields()]
    return found


def main(path, count, seed="1"):
    made, chosen = order_class(path), random.Random(int(seed))
    for _ in range(int(count)):
        order = made()
        fill(order, chosen)
        print(json.dumps({"bytes": order.SerializeToString(deterministic=True).hex(), "text": str(order), **fields(order)}))


if __name__ == "__main__":
    main(*sys.argv[1:])
