"""Python objects that change what is read of them while it is read. To be run with the address sanitizer too: a library that uses what was freed may pass."""
import gc
import unittest

from mabristu import Pool

SOURCE = 'syntax = "proto3"; message A { repeated string s = 1; repeated int32 n = 2; map<string, int32> m = 3; A a = 4; repeated A l = 5; double d = 6; }'


class Index:
    """A number that does something when it is read."""

    def __init__(self, number, act):
        self.number, self.act = number, act

    def __index__(self):
        self.act()
        return self.number


def churn():
    """Takes memory of the sizes that were freed, and writes it."""
    return [bytes([it]) * size for size in (8, 16, 24, 33, 40, 48, 64, 100, 256) for it in range(20)]


class Hostile(unittest.TestCase):
    @classmethod
    def setUpClass(cls):
        cls.a = Pool.of_sources({"a.proto": SOURCE})["A"]

    def test_lists_of_a_raw_change(self):
        for _ in range(50):
            message, strings, steps = self.a(), [("%03d" % 7).encode() * 50], []

            def clear():
                strings.clear()
                steps.clear()
                churn()

            steps.extend([(Index(21, clear), 1)])
            self.assertEqual(message._change("push", steps, strings, (9, 0)), 0)
            strings, steps = [b"string" * 20, b"another" * 20], [(21, 1), (22, 0)]
            self.assertEqual(message._change("set", steps, strings, (Index(9, clear), 1)), 0)
            self.assertEqual(list(message["s"]), [(b"another" * 20).decode()])
            # The steps are a list whose pairs are gone when the first is read.
            strings, steps = [], [(Index(21, clear), 2), (22, 0), (21, 1)]
            self.assertEqual(message._change("set", steps, strings, (5, 0)), 6)
        self.assertRaises(ValueError, message._change, "clear", 257 * [(21, 1)], [], None)
        self.assertRaises(ValueError, message._change, "clear", [(21, 1)], 65 * [b""], None)
        self.assertRaises(TypeError, message._change, "clear", [[21, 1]], [], None)
        self.assertRaises(TypeError, message._change, "clear", [(21, 1)], ["text"], None)

    def full(self):
        return self.a.from_dict({"s": [50 * "x", 60 * "y", ""], "n": [1, 2, 3], "m": {"a": 1, "b": 2}, "a": {"a": {"s": ["deep"]}}, "l": [{"d": 1}, {"d": 2}, {}]})

    def acts(self, message):
        """What is done to a message meanwhile."""
        def replace():
            message["a"] = {"s": ["other"]}

        def remove():
            del message["l"][0]

        def fill():
            message._fill(b"")

        return [message["l"].clear, message["s"].clear, message["m"].clear, replace, remove, fill, lambda: message.merge(b"\x22\x00\x2a\x00"),
                lambda: message["l"].insert(0, {}), lambda: message._change("clear", [(21, 5)], [], None)]

    def each(self, attempt):
        """Makes an attempt with each act, on a new message; what Python answers does not matter, but that it does."""
        for at in range(len(self.acts(self.full()))):
            message, left = self.full(), [3]
            act = self.acts(message)[at]

            def acted():
                left[0] -= 1
                try:
                    if left[0] < 0:
                        return
                    act()
                except (LookupError, RuntimeError):
                    pass
                churn()

            try:
                attempt(message, acted)
            except (LookupError, ValueError, TypeError, RuntimeError):
                pass
            self.assertEqual(self.a.decode(message.encode()), message)
            for part in (message["l"], message["s"], message["m"], message["a"]["a"]["s"]):
                list(part), repr(part)

    def test_indexes(self):
        for call in (lambda m, i: m["l"][i], lambda m, i: m["s"][i], lambda m, i: m["l"].__setitem__(i, {"d": 3}), lambda m, i: m["s"].__setitem__(i, "z"),
                     lambda m, i: m["l"].__delitem__(i), lambda m, i: m["n"].__delitem__(slice(i, None)), lambda m, i: m["l"].__setitem__(slice(i, 3), [{}, {}]),
                     lambda m, i: m["l"].insert(i, {"d": 4}), lambda m, i: m["l"].pop(i), lambda m, i: m["l"][i:], lambda m, i: m["l"]._make_at(i),
                     lambda m, i: m["l"]._move(i, 1), lambda m, i: m["a"]["a"]["s"][i], lambda m, i: m["s"].index("", i), lambda m, i: m._read(21, i)):
            self.each(lambda message, act: call(message, Index(1, act)))

    def test_comparisons(self):
        class Equal:
            def __init__(self, act):
                self.act = act

            def __eq__(self, other):
                self.act()
                return False

            __hash__ = None

        self.each(lambda message, act: message["l"] == [Equal(act), Equal(act), Equal(act)])
        self.each(lambda message, act: message["s"] == [Equal(act)] * 3)
        self.each(lambda message, act: message["m"] == {"a": Equal(act), "b": Equal(act)})
        self.each(lambda message, act: Equal(act) in message["l"])
        self.each(lambda message, act: message["l"].index(Equal(act)))
        self.each(lambda message, act: message["l"].remove(Equal(act)))
        self.each(lambda message, act: message["l"][0] == Equal(act))

    def test_mappings_and_sequences(self):
        class Fields(dict):
            def __init__(self, act, **fields):
                super().__init__(fields)
                self.act = act

            def items(self):
                for it in super().items():
                    self.act()
                    yield it
                self.act()

            def keys(self):
                self.act()
                return super().keys()

            def __len__(self):
                self.act()
                return super().__len__()

            def __getitem__(self, key):
                self.act()
                return super().__getitem__(key)

        class Values(list):
            def __init__(self, act, *values):
                super().__init__(values)
                self.act = act

            def __len__(self):
                self.act()
                return super().__len__()

            def __iter__(self):
                for it in super().__iter__():
                    self.act()
                    yield it

            def __eq__(self, other):
                self.act()
                return True

            __hash__ = None

        fields = lambda act: Fields(act, d=1.5, s=Values(act, "a", "b"), l=Values(act, {}, {"d": 2}), m=Fields(act, k=1))
        for call in (lambda m, act: m.__setitem__("a", fields(act)), lambda m, act: m["l"].append(fields(act)), lambda m, act: m["l"].__setitem__(1, fields(act)),
                     lambda m, act: m["l"].extend(Values(act, fields(act), {})), lambda m, act: m.__setitem__("l", Values(act, fields(act))),
                     lambda m, act: m.__setitem__("s", Values(act, "a", "b")), lambda m, act: m.__setitem__("m", Fields(act, x=1, y=2)),
                     lambda m, act: m["l"].__setitem__(slice(0, 2), Values(act, fields(act))), lambda m, act: m["m"].update(Fields(act, x=1)),
                     lambda m, act: m["a"]["a"].__setitem__("a", fields(act)), lambda m, act: m["l"] == Values(act, 1), lambda m, act: m["m"] == Fields(act, a=1)):
            self.each(call)

    def test_names_and_keys(self):
        class Name(str):
            def __init__(self, _):
                self.act = None

            def __eq__(self, other):
                if self.act:
                    self.act()
                return str.__eq__(self, other)

            def __hash__(self):
                if self.act:
                    self.act()
                return str.__hash__(self)

        class Number(int):
            act = None

            def __int__(self):
                self.act()
                return 1

            __index__ = __float__ = __int__

        def named(name, act):
            made = Name(name)
            made.act = act
            return made

        def number(act):
            made = Number(1)
            made.act = act
            return made

        for name in "snmald":
            self.each(lambda message, act: message[named(name, act)])
            self.each(lambda message, act: message.__delitem__(named(name, act)))
            self.each(lambda message, act: message.__contains__(named(name, act)))
            self.each(lambda message, act: message.array(named(name, act)))
        self.each(lambda message, act: message["m"].__setitem__(named("k", act), number(act)))
        self.each(lambda message, act: message["m"][named("a", act)])
        self.each(lambda message, act: message.__setitem__("d", number(act)))
        self.each(lambda message, act: message["n"].append(number(act)))
        self.each(lambda message, act: message["l"][0].__setitem__("d", number(act)))
        self.each(lambda message, act: message[number(act)])
        self.each(lambda message, act: self.a.find(message.encode(), named("a", act), named("d", act)))

    def test_finalizers(self):
        # What runs while memory is taken: a collection of cycles, whose finalizers change the message.
        class Cycle:
            def __init__(self, act):
                self.me, self.act = self, act

            def __del__(self):
                self.act()

        threshold = gc.get_threshold()
        gc.set_threshold(1)
        try:
            for call in (lambda m: m.to_dict(), lambda m: m["m"].items(), lambda m: list(m["l"]), lambda m: m["l"] == list(m["l"]), lambda m: m.copy(),
                         lambda m: m["l"].insert(1, {}), lambda m: m.array("n"), lambda m: list(m), lambda m: m["m"].keys(), lambda m: m["l"][::2]):
                def attempt(message, act):
                    Cycle(act)
                    try:
                        call(message)
                    finally:
                        gc.collect()

                self.each(attempt)
        finally:
            gc.set_threshold(*threshold)

    def test_sources(self):
        class Sources(dict):
            def items(self):
                return self["items"]

        for items in ([1], [()], [("a.proto",)], [("a.proto", "", "")], [["a.proto", ""]], "ab", [None]):
            with self.assertRaises(TypeError) as it:
                Pool.of_sources(Sources(items=items))
            self.assertEqual(str(it.exception), "the items of sources are pairs of a name and a source")
        for it in (None, 5, ["a.proto"], "a.proto"):
            self.assertRaises(TypeError, Pool.of_sources, it)
        self.assertIn("B", Pool.of_sources(Sources(items=[("b.proto", 'syntax = "proto3"; message B {}')])))


if __name__ == "__main__":
    unittest.main()
