"""Messages that arrive in pieces, and the canonical bytes of JSON. The order, its listing and its JSON are those of examples/; other bytes are made by
hand."""
import os
import unittest
from concurrent.futures import ThreadPoolExecutor

import mabristu
from mabristu import Pool, Refused

EXAMPLES = os.environ.get("EXAMPLES", os.path.join(os.path.dirname(os.path.realpath(__file__)), "../../../examples"))
SIZES = 1, 2, 3, 7, 1000


def example(name):
    with open(f"{EXAMPLES}/{name}", "rb") as it:
        return it.read()


def in_pieces(order, data, size, **limits):
    decoder = order.decoder(**limits)
    for at in range(0, len(data), size):
        decoder.feed(data[at : at + size])
    return decoder.finish()


def answered(call, *given, **named):
    """The canonical bytes of a message, or the refusal and what it says."""
    try:
        return call(*given, **named).encode()
    except Refused as refused:
        return str(refused), refused.byte, refused.path, refused.number


class Shop(unittest.TestCase):
    @classmethod
    def setUpClass(cls):
        cls.order, cls.data = Pool(example("shop.set"))["shop.Order"], example("shop_order.bin")


class Pieces(Shop):
    def test_messages(self):
        for size in SIZES:
            message = in_pieces(self.order, self.data, size)
            self.assertEqual([message.listing(), message.encode()], [example("shop_order.show.txt").decode(), self.order.canonical(self.data)])
            self.assertIs(message.type, self.order)
        self.assertEqual(self.order.decoder().finish(), self.order())
        decoder = self.order.decoder()
        for piece in (b"", bytearray(self.data[:50]), memoryview(self.data)[50:], b""):
            decoder.feed(piece)
        self.assertEqual(decoder.finish(), self.order.decode(self.data))

    def test_answers_of_the_whole(self):
        for at in range(len(self.data)):
            for data in (self.data[:at], self.data[:at] + b"\xff" + self.data[at + 1 :]):
                whole = answered(self.order.decode, data)
                for size in SIZES:
                    self.assertEqual(answered(in_pieces, self.order, data, size), whole, (data, size))

    def test_long_messages(self):
        # A line of 200,000 bytes, and 20,000 lines, in pieces for which the lock is given up.
        for data in (b"\x1a\xc4\x9a\x0c\x0a\xc0\x9a\x0c" + 200_000 * b"a", 20_000 * (b"\x1a\x09\x0a\x07bolt M8")):
            message = in_pieces(self.order, data, 50_000)
            self.assertEqual([message.encode(), message.encoded_length()], [data, len(data)])

    def test_the_piece_that_settles_it(self):
        # The string at byte 7 has 3 bytes by its length, and its message ends after 2 of them.
        found = Pool.of_sources({"m.proto": 'syntax = "proto3"; message M { int32 a = 1; string b = 2; M c = 3; }'})["M"]
        decoder = found.decoder()
        decoder.feed(b"\x08\x01\x1a\x06\x08\x02\x12")
        with self.assertRaises(Refused) as it:
            decoder.feed(b"\x03")
        self.assertEqual(str(it.exception), "byte 7 path 3[0].2[0] cause PastEnd")
        self.assert_finished(decoder)

    def assert_finished(self, decoder):
        self.assertEqual(decoder.pending, 0)
        for call in (decoder.finish, lambda: decoder.feed(b"")):
            with self.assertRaises(ValueError) as it:
                call()
            self.assertEqual((type(it.exception), str(it.exception)), (ValueError, "the decoder is finished"))

    def test_a_finished_decoder(self):
        decoder = self.order.decoder()
        decoder.feed(self.data)
        decoder.finish()
        self.assert_finished(decoder)
        decoder = self.order.decoder()
        decoder.feed(self.data[:-1])
        with self.assertRaises(Refused) as it:
            decoder.finish()
        self.assertEqual((it.exception.cause, it.exception.byte), ("Truncated", len(self.data) - 1))
        self.assert_finished(decoder)

    def test_pending(self):
        # A number of two bytes, a string of 4, and an unknown record of 3.
        decoder, held = self.order.decoder(), []
        self.assertEqual(decoder.pending, 0)
        for byte in b"\x08\xe7\x24\x12\x04abcd\xa2\x06\x03xyz":
            decoder.feed(bytes([byte]))
            held.append(decoder.pending)
        self.assertEqual(held, [0, 1, 0, 0, 0, 1, 2, 3, 0, 1, 0, 0, 1, 2, 0])

    def test_limits(self):
        for limits in ({"max_bytes": 100}, {"max_depth": 0}, {"max_bytes": 0}):
            whole = answered(self.order.decode, self.data, **limits)
            self.assertIn("TooLarge" if "max_bytes" in limits else "TooDeep", whole[0])
            for size in SIZES:
                self.assertEqual(answered(in_pieces, self.order, self.data, size, **limits), whole)
        for limits in ({"max_depth": 101}, {"max_bytes": 1 << 31}, {"max_bytes": -1}):
            self.assertRaises(ValueError, self.order.decoder, **limits)
        self.assertRaises(TypeError, self.order.decoder, 5)

    def test_objects(self):
        decoder = self.order.decoder()
        self.assertEqual(repr(decoder), "<mabristu.Decoder of shop.Order>")
        self.assertIs(decoder.type, self.order)
        self.assertRaises(TypeError, decoder.feed, "text")
        self.assertRaises(TypeError, mabristu.Decoder)
        for it in ("feed", "finish", "pending", "type"):
            self.assertTrue(getattr(mabristu.Decoder, it).__doc__)
        # The pool may go before.
        decoder = Pool(example("shop.set"))["shop.Order"].decoder()
        decoder.feed(self.data)
        self.assertEqual(decoder.finish().encode(), self.order.canonical(self.data))

    def test_threads(self):
        decoder = self.order.decoder()
        for at in range(0, len(self.data), 7):
            self.in_a_thread(lambda: decoder.feed(self.data[at : at + 7]))
        self.assertEqual(self.in_a_thread(decoder.finish), self.order.decode(self.data))
        decoders = [self.order.decoder() for _ in range(100)]
        for it in decoders:
            it.feed(self.data[:40])
        self.in_a_thread(decoders.clear)

    def test_two_threads_feed_one_decoder(self):
        # While one thread feeds it long pieces without the lock, another one is refused, or waits.
        decoder, piece, answers = self.order.decoder(), 3_000 * (b"\x1a\x09\x0a\x07bolt M8"), []

        def feed():
            for _ in range(20):
                try:
                    decoder.feed(piece)
                    answers.append(1)
                except RuntimeError as refused:
                    self.assertEqual(str(refused), "another thread is feeding this decoder")

        with ThreadPoolExecutor(3) as pool:
            for it in [pool.submit(feed) for _ in range(3)]:
                it.result()
        self.assertEqual(len(decoder.finish()["lines"]), 3_000 * len(answers))

    def in_a_thread(self, call):
        with ThreadPoolExecutor(1) as pool:
            return pool.submit(call).result()


class Json(Shop):
    def test_bytes(self):
        read = self.order.canonical_from_json
        # The JSON is what protobuf's json_format prints of the order.
        for text in (example("shop_order.json"), example("shop_order.json").decode()):
            self.assertEqual(read(text), self.order.canonical(self.data))
        self.assertEqual([read("{}"), read('{"number":"1","nothing":[2]}', lenient=True)], [b"", b"\x08\x01"])
        self.assertRaises(TypeError, read, 7)

    def test_long_output(self):
        # 1,000 doubles of 8 bytes, which is more than their JSON has; and a string of 100,000 bytes, for which the lock is given up.
        found = Pool.of_sources({"l.proto": 'syntax = "proto3"; message L { repeated double d = 1; string s = 2; }'})["L"]
        self.assertEqual(found.canonical_from_json('{"d":[' + ",".join(1000 * ["0"]) + "]}"), b"\x0a\xc0\x3e" + bytes(8000))
        self.assertEqual(found.canonical_from_json(b'{"s":"' + 100_000 * b"a" + b'"}'), b"\x12\xa0\x8d\x06" + 100_000 * b"a")

    def test_refusals(self):
        rows = [('{"number":1,"nothing":2}', 12, "UnknownName", 105), ('{"number":true}', 10, "BadValue", 109), ("{", 1, "UnexpectedEnd", 102),
                (b'{"placedOn":"\xff"}', 13, "BadUtf8", 103), ('{"number":1,"number":2}', 12, "RepeatedName", 106)]
        for text, byte, cause, number in rows:
            with self.assertRaises(Refused) as it:
                self.order.canonical_from_json(text)
            refused = it.exception
            self.assertEqual((str(refused), refused.byte, refused.cause, refused.number), (f"json byte {byte} cause {cause}", byte, cause, number))


if __name__ == "__main__":
    unittest.main()
