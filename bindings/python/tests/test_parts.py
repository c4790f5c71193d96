"""Parts of messages: which of them a change takes away, how they compare, and what is done with them. The types are those of SOURCE."""
import array
import collections.abc
import copy
import os
import pickle
import random
import subprocess
import sys
import time
import unittest

import mabristu
from mabristu import Pool, Refused, UnknownName

SOURCE = """syntax = "proto3";
enum Color { RED = 0; GREEN = 1; BLUE = 2; }
message Wheel { int32 pressure = 1; repeated int32 worn = 2; Wheel spare = 3; map<string, Wheel> by_name = 4; string label = 5; optional Color color = 6; }
message M {
  repeated Wheel wheels = 1;
  map<string, Wheel> named = 2;
  map<sint32, Wheel> numbered = 3;
  oneof e { Wheel alarm = 4; string note = 5; Wheel calm = 6; }
  Wheel position = 7;
  M previous = 8;
  string vin = 9;
  repeated sint64 deltas = 10;
  map<string, double> gauges = 11;
  repeated string words = 12;
  optional double speed = 13;
  Color color = 14;
  repeated Color colors = 15;
  map<string, Color> paints = 16;
  uint32 small = 17;
  repeated double readings = 18;
  repeated float halves = 19;
  repeated bool flags = 20;
  repeated fixed64 wide = 21;
  repeated int64 plain = 22 [packed = false];
  map<bool, int32> truths = 23;
  bytes raw = 24;
}
"""


class Types(unittest.TestCase):
    @classmethod
    def setUpClass(cls):
        cls.pool = Pool.of_sources({"m.proto": SOURCE})
        cls.m, cls.wheel = cls.pool["M"], cls.pool["Wheel"]

    def said(self, kind, call, *given, **named):
        with self.assertRaises(kind) as it:
            call(*given, **named)
        self.assertIs(type(it.exception), kind)
        return str(it.exception)

    def assert_gone(self, *parts):
        for part in parts:
            calls = [lambda: part["pressure"], lambda: part.__setitem__("pressure", 1), part.encode, lambda: part == part, part.copy, part.to_dict, part.numbers,
                     lambda: "pressure" in part, lambda: bool(part), lambda: part["worn"], lambda: part.unknown, part.frame, part.to_json, lambda: list(part)]
            for call in calls:
                self.assertIn("this part of a message is gone", self.said(LookupError, call))
            self.assertEqual(repr(part), "<part of a message that is gone>")

    def pressures(self, wheels):
        return [it["pressure"] for it in wheels]


class Gone(Types):
    def message(self):
        return self.m(wheels=[{"pressure": it} for it in range(5)], named={it: {"pressure": ord(it)} for it in "abc"}, numbered={-1: {"pressure": 7}},
                      alarm={"pressure": 1}, position={"pressure": 2, "spare": {"pressure": 3}})

    def test_an_element_is_removed(self):
        m = self.message()
        wheels = [m["wheels"][it] for it in range(5)]
        inside = wheels[1]["spare"]
        inside["pressure"] = 8
        worn = wheels[1]["worn"]
        del m["wheels"][1]
        self.assert_gone(wheels[1], inside)
        for call in (lambda: len(worn), lambda: worn.append(1), lambda: worn == [], lambda: list(worn)):
            self.assertRaises(LookupError, call)
        # The others are the same wheels as before.
        rest = [wheels[it] for it in (0, 2, 3, 4)]
        self.assertEqual(self.pressures(rest), [0, 2, 3, 4])
        rest[1]["pressure"] = 20
        self.assertEqual(self.pressures(m["wheels"]), [0, 20, 3, 4])
        del m["wheels"][2:]
        self.assert_gone(*rest[2:])
        self.assertEqual(self.pressures(rest[:2]), [0, 20])
        m["wheels"].insert(0, {"pressure": 9})
        m["wheels"].insert(-1, {"pressure": 10})
        self.assertEqual([self.pressures(rest[:2]), self.pressures(m["wheels"])], [[0, 20], [9, 0, 10, 20]])
        m["wheels"][1] = {"pressure": 11}
        self.assert_gone(rest[0])
        self.assertEqual(rest[1]["pressure"], 20)
        m["wheels"].clear()
        self.assert_gone(rest[1])

    def test_the_wheel_of_the_issue(self):
        m = self.message()
        first = m["wheels"][0]
        del m["wheels"][0]
        self.assertRaises(LookupError, first.__setitem__, "pressure", 9)
        self.assertEqual(self.pressures(m["wheels"]), [1, 2, 3, 4])

    def test_fields_and_oneofs(self):
        m = self.message()
        position, spare, alarm = m["position"], m["position"]["spare"], m["alarm"]
        del m["vin"], m["wheels"]
        self.assertEqual([position["pressure"], spare["pressure"], alarm["pressure"]], [2, 3, 1])
        m["note"] = "x"
        self.assert_gone(alarm)
        calm = m["calm"]
        calm["pressure"] = 5
        self.assertEqual([m.which_oneof("e"), calm["pressure"]], ["calm", 5])
        m["alarm"]["pressure"] = 6
        self.assert_gone(calm)
        m["position"] = {"pressure": 4}
        self.assert_gone(position, spare)
        position = m["position"]
        del m["position"]
        self.assert_gone(position)
        alarm = m["alarm"]
        m["note"] = ""
        self.assert_gone(alarm)

    def test_entries(self):
        m = self.message()
        a, b, one = m["named"]["a"], m["named"]["b"], m["numbered"][-1]
        del m["named"]["a"]
        self.assert_gone(a)
        self.assertEqual([b["pressure"], one["pressure"]], [98, 7])
        m["named"]["c"] = {}
        self.assertEqual(b["pressure"], 98)
        m["named"]["b"] = {"pressure": 1}
        self.assert_gone(b)
        m["numbered"].clear()
        self.assert_gone(one)

    def test_merges_and_raw_changes(self):
        m = self.message()
        wheel, a, position, alarm, worn = m["wheels"][1], m["named"]["a"], m["position"], m["alarm"], m["position"]["worn"]
        m.merge(self.m(wheels=[{}], position={"worn": [4]}, note="x", named={"a": {}}))
        self.assert_gone(a, alarm)
        self.assertEqual([wheel["pressure"], position["pressure"], worn], [1, 2, [4]])
        self.assertRaises(Refused, m.merge, b"\x08")
        self.assertEqual(position["pressure"], 2)
        m._change("clear", [(21, 1)], [], None)
        self.assert_gone(position, wheel)

    def test_lists_and_maps_stay(self):
        m = self.message()
        wheels, named, deltas = m["wheels"], m["named"], m["deltas"]
        m["wheels"], m["named"], m["deltas"] = [{"pressure": 4}], {"z": {}}, [1, 2]
        self.assertEqual([self.pressures(wheels), named.keys(), deltas], [[4], ["z"], [1, 2]])
        del m["wheels"], m["named"], m["deltas"]
        self.assertEqual([len(wheels), len(named), deltas], [0, 0, []])
        wheels.append({"pressure": 6})
        self.assertEqual(self.pressures(m["wheels"]), [6])

    def test_as_objects_of_python(self):
        """Random changes of a list, beside a list of objects: a part is its object, or is gone."""
        chosen = random.Random(1)
        for _ in range(60):
            m, model, kept = self.m(), [], []
            for step in range(60):
                length = len(model)
                what = chosen.choice(["append", "insert", "del", "slice", "replace", "keep", "set", "pop", "reverse"] if length else ["append", "insert"])
                at, to = (chosen.randrange(-length, length), chosen.randrange(-length, length + 2)) if length else (0, 0)
                if what == "append":
                    m["wheels"].append({"pressure": step})
                    model.append([step])
                elif what == "insert":
                    m["wheels"].insert(to, {"pressure": step})
                    model.insert(to, [step])
                elif what == "del":
                    del m["wheels"][at]
                    del model[at]
                elif what == "slice":
                    new = [step + it / 10 for it in range(chosen.randrange(3))]
                    m["wheels"][at:to] = [{"pressure": int(10 * it)} for it in new]
                    model[at:to] = [[int(10 * it)] for it in new]
                elif what == "replace":
                    m["wheels"][at] = {"pressure": step}
                    model[at] = [step]
                elif what == "keep":
                    kept.append((m["wheels"][at], model[at]))
                elif what == "pop":
                    self.assertEqual(m["wheels"].pop(at)["pressure"], model.pop(at)[0])
                elif what == "set":
                    m["wheels"][at]["pressure"] = model[at][0] = step
                elif what == "reverse":
                    m["wheels"].reverse()
                    model = [list(it) for it in model[::-1]]
                self.assertEqual(self.pressures(m["wheels"]), [it for it, in model])
                for part, of in kept:
                    if any(it is of for it in model):
                        self.assertEqual(part["pressure"], of[0])
                    else:
                        self.assertRaises(LookupError, lambda: part["pressure"])


class Compared(Types):
    def test_by_value(self):
        m = self.m(wheels=[{"pressure": 1}, {"pressure": 1}, {"pressure": 2}], deltas=[1, -2], gauges={"a": 0.5, "b": 1}, named={"a": {"pressure": 1}})
        self.assertTrue(m["wheels"][0] == m["wheels"][0] == m["wheels"][1] == m["named"]["a"] == self.wheel(pressure=1))
        self.assertFalse(m["wheels"][0] != m["wheels"][1] or m["wheels"][0] == m["wheels"][2] or m["wheels"][0] == self.m())
        self.assertTrue(m["deltas"] == [1, -2] and [1, -2] == m["deltas"] and m["deltas"] == m["deltas"] and m["deltas"] != [1] and m["deltas"] != [1, 2])
        self.assertTrue(m["gauges"] == {"a": 0.5, "b": 1.0} == m["gauges"] and m["gauges"] != {"a": 0.5} and m["gauges"] != {} and m["gauges"] == m["gauges"])
        self.assertTrue(m["wheels"] == m.copy()["wheels"] and m["wheels"] == [it.copy() for it in m["wheels"]] and m["wheels"] == list(m["wheels"]))
        self.assertTrue(m["named"] == {"a": self.wheel(pressure=1)} and m["named"] == m.copy()["named"] and m["words"] == [] and m["truths"] == {})
        self.assertFalse(m["deltas"] == (1, -2) or m["deltas"] == 5 or m["gauges"] == [("a", 0.5)] or m["deltas"] == m["gauges"])
        for it in (m, m["wheels"], m["wheels"][0], m["named"]):
            self.assertRaises(TypeError, hash, it)
        self.assertTrue(m["position"] == self.wheel() and m == m.copy())


class Whole(Types):
    def test_what_a_message_can_do(self):
        inner = {"pressure": 5, "worn": [1, 2], "spare": {"label": "s"}, "by_name": {"x": {}}}
        m = self.m(wheels=[{}, inner], named={"k": inner, "j": {}}, numbered={-7: inner, 7: {}}, position={"spare": {"spare": inner}}, previous={"wheels": [inner]})
        alone = self.wheel.from_dict(inner)
        parts = [m["wheels"][1], m["named"]["k"], m["numbered"][-7], m["position"]["spare"]["spare"], m["previous"]["wheels"][-1]]
        for part in parts:
            self.assertEqual([part, part.encode(), bytes(part), part.encoded_length(), part.frame()],
                             [alone, alone.encode(), alone.encode(), alone.encoded_length(), alone.frame()])
            self.assertEqual([repr(part), part.listing(), part.to_json(), part.to_dict(), part.numbers()],
                             [repr(alone), alone.listing(), alone.to_json(), inner, alone.numbers()])
            for copied in (part.copy(), copy.copy(part), copy.deepcopy(part), pickle.loads(pickle.dumps(part))):
                copied["pressure"] = 6
                self.assertEqual([copied["pressure"], part["pressure"], copied == part], [6, 5, False])
        part = parts[1]
        part["spare"]["label"] = "changed"
        self.assertEqual([part.encode() == alone.encode(), self.wheel.decode(part.encode())["spare"]["label"]], [False, "changed"])
        self.assertRaises(TypeError, part.merge, b"")

    def test_bytes_beside_protobuf_of_deep_and_unknown_records(self):
        # By hand: wheels {100: 7}, named {"a": {100: 8}}, an unknown record of this message.
        m = self.m.decode(bytes.fromhex("0a03a00607" "12080a016112" "03a00608" "f80701"))
        self.assertEqual([m["wheels"][0].encode().hex(), m["named"]["a"].encode().hex(), m["named"]["a"].unknown.hex()], ["a00607", "a00608", "a00608"])
        self.assertEqual(m["wheels"][0].copy().unknown.hex(), "a00607")

    def test_bytes_of_a_small_part_with_maps(self):
        """The bytes of a part of a large message, which are written by calls, are those of the part alone, with more keys than a few, and long ones."""
        inner = {"k" * it: {"pressure": it, "by_name": {"": {}, "é": {"label": "y"}}} for it in range(0, 600, 13)}
        m = self.m(position={"label": "x", "by_name": inner}, previous={"numbered": {it: {"pressure": 1} for it in (5, -7, 0)}, "truths": {True: 3, False: -1}},
                   raw=bytes(400_000))
        m["vin"] = "changed"
        for part, alone in ((m["position"], self.wheel(label="x", by_name=inner)), (m["previous"], self.m(**m["previous"].to_dict()))):
            self.assertEqual(part.encode(), alone.encode())
            self.assertEqual(part.to_dict(), alone.to_dict())
        self.assertEqual([len(m["position"]["by_name"]), m["position"]["by_name"].keys()], [47, sorted(inner)])
        self.assertEqual([m["previous"]["numbered"].keys(), m["previous"]["truths"].items()], [[-7, 0, 5], [(False, -1), (True, 3)]])

    def test_assignment(self):
        m, other = self.m(), self.m(position={"pressure": 4, "worn": [1]}, wheels=[{"label": "a"}, {"label": "b"}])
        m["position"] = other["position"]
        m["previous"] = other
        m["wheels"] = other["wheels"]
        m["wheels"].append(other["position"])
        m["wheels"][0] = other["wheels"][1]
        m["named"]["k"] = other["position"]
        m["alarm"] = self.wheel(pressure=9)
        m["numbered"] = {3: m["named"]["k"], 4: {"pressure": 1}}
        self.assertEqual(m["previous"], other)
        self.assertEqual([it.to_dict() for it in m["wheels"]], [{"label": "b"}, {"label": "b"}, {"pressure": 4, "worn": [1]}])
        self.assertEqual([m["position"], m["named"]["k"], m["numbered"][3], m["alarm"]["pressure"]], 3 * [other["position"]] + [9])
        m["position"] = m["position"]
        m["previous"] = m
        self.assertEqual([m["position"], m["previous"]["previous"]], [other["position"], other])
        m["wheels"] = m["wheels"]
        m["wheels"].extend(m["wheels"])
        self.assertEqual([it["label"] for it in m["wheels"]], ["b", "b", ""] * 2)
        before = m.encode()
        self.assertEqual(self.said(TypeError, m.__setitem__, "position", other), "M.position takes a Wheel, and not a M")
        self.assertRaises(TypeError, m["wheels"].append, other)
        self.assertRaises(TypeError, m["wheels"].__setitem__, 0, other)
        self.assertRaises(TypeError, m["named"].__setitem__, "k", other)
        self.assertEqual(m.encode(), before)

    def test_assignment_with_unknown_records(self):
        unknown = self.wheel.decode(bytes.fromhex("0805" "1a03a00607" "a00608"))
        m = self.m(wheels=[{"label": "a"}, {}, {"label": 300 * "c"}], named={"k": {}, "l": {"label": "z"}})
        m["position"], m["wheels"][1], m["named"]["k"] = unknown, unknown, unknown
        m["wheels"][0]["spare"] = unknown
        m["wheels"].append(unknown)
        m["wheels"].insert(0, unknown)
        for it in (m["position"], m["wheels"][0], m["wheels"][2], m["named"]["k"], m["wheels"][1]["spare"], m["wheels"][4]):
            self.assertEqual(it, unknown)
        self.assertEqual([m["wheels"][3]["label"], m["named"]["l"]["label"], m["wheels"][1]["label"]], [300 * "c", "z", "a"])
        self.assertEqual(self.m.from_dict({"wheels": [unknown]})["wheels"][0], unknown)
        self.assertEqual(self.m.decode(m.encode()), m)

    def test_construction(self):
        m = self.m(vin="x", deltas=[1, 2], wheels=[self.wheel(pressure=1), {"pressure": 2}], position=self.wheel(), gauges={"a": 1})
        self.assertEqual(m.to_dict(), {"vin": "x", "deltas": [1, 2], "wheels": [{"pressure": 1}, {"pressure": 2}], "position": {}, "gauges": {"a": 1.0}})
        self.assertRaises(TypeError, self.m, {"vin": "x"})
        self.assertRaises(KeyError, self.m, nothing=1)

    def test_a_message_inside_is_made(self):
        m = self.m()
        m["previous"]["vin"] = "x"
        self.assertEqual(m.to_dict(), {"previous": {"vin": "x"}})
        m["previous"]["previous"]["position"]["worn"].append(4)
        m["previous"]["previous"]["named"]["a"] = {"pressure": 1}
        m["position"]["spare"]["spare"] = {"pressure": 2}
        m["wheels"].append({})
        m["wheels"][0]["spare"]["pressure"] = 0
        self.assertEqual(m.to_dict(), {"previous": {"vin": "x", "previous": {"position": {"worn": [4]}, "named": {"a": {"pressure": 1}}}},
                                       "position": {"spare": {"spare": {"pressure": 2}}}, "wheels": [{"spare": {}}]})
        part = m["alarm"]
        self.assertEqual([bool(part), "alarm" in m, part.encode(), list(part), part.unknown, part.to_dict()], [False, False, b"", [], b"", {}])
        del part["pressure"], part["spare"], part["worn"]
        part.drop_unknown()
        part["worn"].clear()
        self.assertEqual(["alarm" in m, part["spare"]["spare"]["label"]], [False, ""])
        part["spare"]["label"] = "y"
        self.assertEqual([m["alarm"].to_dict(), bool(part)], [{"spare": {"label": "y"}}, True])

    def test_a_message_that_would_be_made_for_a_refused_change(self):
        m = self.m(note="kept")
        before = m.encode()
        self.assertRaises(ValueError, m["alarm"].__setitem__, "pressure", 2**31)
        self.assertRaises(TypeError, m["position"]["worn"].append, "x")
        self.assertRaises(KeyError, m["position"].__setitem__, "nothing", 1)
        self.assertEqual(m.encode(), before)
        deep = self.m()
        part = deep
        for _ in range(99):
            part["previous"]["vin"] = "d"
            part = part["previous"]
        part["note"] = "kept"
        before = deep.encode()
        self.assertEqual(self.said(Refused, part["alarm"]["spare"].__setitem__, "pressure", 1), "change cause TooDeep")
        self.assertEqual([deep.encode() == before, part["note"]], [True, "kept"])


class Costs(Types):
    """What takes time in proportion: twice as much may take at most three times as long, of the processor, in the best of some rounds."""

    def assert_linear(self, make, call, small=4000):
        def least(size):
            found = []
            for _ in range(3):
                message = make(size)
                begin = time.process_time()
                call(message)
                found.append(time.process_time() - begin)
            return min(found)

        # What is linear takes 8 times as long, what is quadratic 64 times.
        for _ in range(4):
            one, eight = least(small), least(8 * small)
            if eight < 24 * one:
                return
        self.fail(f"{small} take {one} s, and 8 times as many {eight} s")

    def test_maps(self):
        make = lambda size: self.m.from_json('{"gauges":{' + ",".join(f'"k{it}":1' for it in range(size)) + "}}")
        for call in (lambda m: m["gauges"].keys(), lambda m: m["gauges"].items(), lambda m: m["gauges"].values(), lambda m: m.to_dict(), lambda m: list(m["gauges"]),
                     lambda m: m["gauges"] == m["gauges"], lambda m: m.copy()["gauges"].keys()):
            self.assert_linear(make, call)

    def test_parts(self):
        make = lambda size: self.m(wheels=size * [{"pressure": 1, "label": "x"}])
        for call in (lambda m: [it.encode() for it in m["wheels"]], lambda m: [it.to_dict() for it in m["wheels"]], lambda m: m["wheels"] == m["wheels"],
                     lambda m: m.__setitem__("wheels", m["wheels"]), lambda m: [it["spare"].__setitem__("label", "y") for it in list(m["wheels"])],
                     lambda m: [it.copy() for it in m["wheels"] if it.__setitem__("pressure", 2) is None]):
            self.assert_linear(make, call, 500)


class Lists(Types):
    def test_registered(self):
        m = self.m()
        self.assertIsInstance(m["deltas"], collections.abc.MutableSequence)
        self.assertIsInstance(m["gauges"], collections.abc.MutableMapping)
        for kind, of in ((collections.abc.MutableSequence, mabristu.List), (collections.abc.MutableMapping, mabristu.Map)):
            self.assertEqual([it for it in dir(kind) if not it.startswith("_") and not hasattr(of, it)], [])

    def test_as_lists_of_python(self):
        """Random calls on lists of numbers, of strings and of messages, beside lists."""
        chosen = random.Random(2)
        makers = {"deltas": lambda: chosen.choice((0, -1, 2**62, -(2**63), chosen.randrange(-100, 100))), "words": lambda: chosen.choice(("", "a", 200 * "é")),
                  "readings": lambda: chosen.choice((0.0, 1.5, float("inf"))), "plain": lambda: chosen.choice((0, -1, 300)), "flags": lambda: chosen.random() < 0.5,
                  "wheels": lambda: self.wheel(pressure=chosen.randrange(4)), "colors": lambda: chosen.randrange(4)}
        for name, make in makers.items():
            m, model = self.m(vin="v", raw=b"r"), []
            for _ in range(400):
                ours, length = m[name], len(model)
                bound = lambda: chosen.choice((None, chosen.randrange(-length - 2, length + 3)))
                at, part = chosen.randrange(-length - 2, length + 3), slice(bound(), bound(), chosen.choice((None, None, 1, -1, 2, -3)))
                values = [make() for _ in range(chosen.randrange(4))]
                call = chosen.choice([
                    lambda it: it.append(values[0]) if values else None, lambda it: it.insert(at, values[0]) if values else None, lambda it: it.pop(),
                    lambda it: it.pop(at), lambda it: it.extend(values), lambda it: it.__setitem__(part, values), lambda it: it.__delitem__(part),
                    lambda it: it.__setitem__(at, values[0]) if values else None, lambda it: it.__delitem__(at), lambda it: it[at], lambda it: list(it[part]),
                    lambda it: list(reversed(it)), lambda it: it.index(values[0]) if values else None, lambda it: it.count(values[0]) if values else None,
                    lambda it: it.remove(values[0]) if values else None, lambda it: it.__iadd__(values) and None, lambda it: it.reverse(), lambda it: values[:1] == it[:1],
                    lambda it: (values[0] in it) if values else None, lambda it: it.clear() if length > 20 else None])
                found, wanted = answered(call, ours), answered(call, model)
                self.assertEqual(found, wanted, (name, model))
                self.assertEqual([m[name] == model, list(m[name]), m["vin"], m["raw"]], [True, model, "v", b"r"])
            self.assertEqual(list(self.m.decode(m.encode())[name]), model)

    def test_sorting(self):
        m = self.m(deltas=[3, -1, 2], wheels=[{"pressure": 3}, {"pressure": 1}])
        m["deltas"].sort()
        m["wheels"].sort(key=lambda it: it["pressure"])
        self.assertEqual([m["deltas"], self.pressures(m["wheels"])], [[-1, 2, 3], [1, 3]])
        m["deltas"].sort(reverse=True)
        m["deltas"] += [7]
        self.assertEqual([m["deltas"], repr(m["deltas"])], [[3, 2, -1, 7], "[3, 2, -1, 7]"])

    def test_a_refused_slice_changes_nothing(self):
        m = self.m(deltas=[1, 2, 3], wheels=[{"pressure": 1}, {"pressure": 2}])
        before = m.encode()
        for part, values in ((slice(0, 2), [1, "x"]), (slice(None, None, 2), [1]), (slice(0, 1), 5), (slice(1, 1), [2**63])):
            self.assertRaises((TypeError, ValueError), m["deltas"].__setitem__, part, values)
        for values in ([{}, {"pressure": "x"}], [5], [{"nothing": 1}]):
            self.assertRaises((TypeError, KeyError), m["wheels"].__setitem__, slice(0, 1), values)
            self.assertRaises((TypeError, KeyError), m["wheels"].extend, values)
        self.assertRaises(TypeError, m["deltas"].insert, 0, "x")
        self.assertRaises(IndexError, self.m()["deltas"].pop)
        self.assertEqual(m.encode(), before)

    def test_maps(self):
        m = self.m(gauges={"a": 1, "c": 3}, named={"k": {"pressure": 1}}, truths={True: 1, False: 2}, numbered={-5: {}, 3: {}, -(2**31): {}})
        self.assertEqual([m["gauges"].pop("a"), m["gauges"].pop("a", 7), m["gauges"].setdefault("b", 2), m["gauges"].setdefault("b", 9)], [1.0, 7, 2.0, 2.0])
        self.assertRaises(KeyError, m["gauges"].pop, "a")
        m["gauges"].update({"d": 4}, e=5)
        m["gauges"].update([("f", 6)])
        self.assertEqual(m["gauges"].popitem(), ("f", 6.0))
        self.assertEqual(m["gauges"], {"b": 2.0, "c": 3.0, "d": 4.0, "e": 5.0})
        self.assertEqual([m["named"].pop("k").to_dict(), m["named"], m["truths"].items(), m["numbered"].keys()],
                         [{"pressure": 1}, {}, [(False, 2), (True, 1)], [-(2**31), -5, 3]])
        self.assertRaises(KeyError, m["named"].popitem)
        self.assertEqual([repr(m["truths"]), list(m["gauges"]), m["gauges"].values()], ["{False: 2, True: 1}", ["b", "c", "d", "e"], [2.0, 3.0, 4.0, 5.0]])


def answered(call, values):
    """What a call gives, with messages as dicts, or the kind of its exception."""
    try:
        return plain(call(values))
    except (IndexError, ValueError, TypeError) as refused:
        return type(refused)


def plain(value):
    if isinstance(value, mabristu.Message):
        return value.to_dict()
    return [plain(it) for it in value] if isinstance(value, list) else value


class Enums(Types):
    def test_names(self):
        m = self.m(color="GREEN", colors=["RED", 2, "BLUE", 9], paints={"a": "BLUE", "b": 7})
        self.assertEqual(m.to_dict(), {"color": 1, "colors": [0, 2, 2, 9], "paints": {"a": 2, "b": 7}})
        self.assertEqual(m.to_dict(enums="names"), {"color": "GREEN", "colors": ["RED", "BLUE", "BLUE", 9], "paints": {"a": "BLUE", "b": 7}})
        self.assertEqual(self.m.from_dict(m.to_dict(enums="names")), m)
        self.assertEqual([m.name("color"), m.name(14), m.name("colors"), m.name("paints"), self.m().name("color")],
                         ["GREEN", "GREEN", ["RED", "BLUE", "BLUE", 9], {"a": "BLUE", "b": 7}, "RED"])
        m["color"] = "BLUE"
        m["colors"].append("GREEN")
        m["colors"][0] = "BLUE"
        m["paints"]["c"] = "RED"
        wheel = self.wheel()
        self.assertEqual([m.name("color"), m["colors"], m["paints"]["c"], wheel.name("color"), wheel["color"]], ["BLUE", [2, 2, 2, 9, 1], 0, None, None])
        of = self.m.field("color").enum
        self.assertEqual([of, of.names, of.numbers, self.m.field("vin").enum], ["Color", {0: "RED", 1: "GREEN", 2: "BLUE"}, {"RED": 0, "GREEN": 1, "BLUE": 2}, None])
        self.assertIs(of, self.m.field("color").enum)
        self.assertIsInstance(of, mabristu.Enum)
        self.assertEqual(self.said(ValueError, m.__setitem__, "color", "PINK"), "M.color takes a value of Color, which has none of the name 'PINK'")
        self.assertEqual(self.said(TypeError, m.name, "vin"), "M.vin is no enum")
        self.assertRaises(ValueError, m.to_dict, enums="others")
        self.assertRaises(ValueError, m["colors"].append, 2**31)

    def test_closed_enums(self):
        # A file of proto2: a number that the enum does not declare is an unknown record, which is no field.
        source = 'syntax = "proto2"; enum E { A = 0; B = 5; } message M { optional E one = 1; repeated E many = 2; repeated E packed = 3 [packed = true]; optional M m = 4; }'
        m = Pool.of_sources({"m.proto": source}, lenient=True)["M"].decode(bytes.fromhex("0805" "0807" "1005" "1007" "1000" "1a03050700" "2206" "0805" "0809" "1009"))
        self.assertEqual(m.to_dict(), {"one": 5, "many": [5, 0], "packed": [5, 0], "m": {"one": 5}})
        self.assertEqual([list(m.array("many")), list(m.array("packed")), list(m["many"])], [[5, 0], [5, 0], [5, 0]])
        m["many"].insert(0, "A")
        m["packed"].insert(1, "B")
        self.assertEqual([m["many"], m["packed"], m["m"].encode().hex(), len(m.unknown)], [[0, 5, 0], [5, 5, 0], "080508091009", 6])
        before = m.encode()
        for it in (m, m["m"]["m"]["m"]):
            self.assertEqual(self.said(Refused, it.__setitem__, "one", 7), "change cause NoSuchValue")
        self.assertEqual(m.encode(), before)


class Errors(Types):
    def test_what_they_say(self):
        m = self.m()
        rows = [
            (TypeError, lambda: m.__setitem__("vin", 5), "M.vin takes a str, and not int"),
            (TypeError, lambda: m.__setitem__("small", "5"), "M.small takes an int from 0 to 4294967295, and not str"),
            (ValueError, lambda: m.__setitem__("small", -1), "M.small takes an int from 0 to 4294967295: the value is out of range"),
            (ValueError, lambda: m.__setitem__("small", 2**32), "M.small takes an int from 0 to 4294967295: the value is out of range"),
            (ValueError, lambda: m.__setitem__("speed", 10**400), "M.speed takes a float or an int: the value is out of range"),
            (TypeError, lambda: m.__setitem__("raw", "x"), "M.raw takes bytes, and not str"),
            (TypeError, lambda: m["deltas"].append(1.0), "M.deltas takes an int from -9223372036854775808 to 9223372036854775807, and not float"),
            (ValueError, lambda: m["deltas"].append(2**63), "M.deltas takes an int from -9223372036854775808 to 9223372036854775807: the value is out of range"),
            (TypeError, lambda: m["gauges"].__setitem__(1, 1.0), "a key of M.gauges takes a str, and not int"),
            (ValueError, lambda: m["numbered"].__setitem__(2**31, {}), "a key of M.numbered takes an int from -2147483648 to 2147483647: the value is out of range"),
            (TypeError, lambda: m["gauges"].__setitem__("a", None), "M.gauges takes a float or an int, and not NoneType"),
            (TypeError, lambda: m.__setitem__("deltas", 5), "M.deltas takes a list, and not int"),
            (TypeError, lambda: m.__setitem__("gauges", [1]), "M.gauges takes a dict, and not list"),
            (TypeError, lambda: m.__setitem__("position", 5), "M.position takes a message of Wheel or a dict of its fields, and not int"),
            (TypeError, lambda: m["wheels"].append(5), "M.wheels takes a message of Wheel or a dict of its fields, and not int"),
            (TypeError, lambda: m["flags"].append(1), "M.flags takes True or False, and not int"),
            (UnknownName, lambda: m["nothing"], "M has no field nothing"),
            (UnknownName, lambda: m[99], "M has no field 99"),
            (TypeError, lambda: m[1.5], "a field of M is named by a str, a number or a Field"),
            (ValueError, lambda: m["deltas"].index(4), "M.deltas has no such value"),
        ]
        for kind, call, wanted in rows:
            self.assertEqual(self.said(kind, call), wanted)
        self.assertEqual(m.encode(), b"")

    def test_get(self):
        m = self.m(speed=0.0, vin="")
        self.assertEqual([m.get("speed", 5), self.m().get("speed", 5), self.m()["speed"], self.m().get("speed"), m.get("vin", "none"), m.get(name="deltas", default=3)],
                         [0.0, 5, None, None, "none", 3])
        self.assertEqual([m.get("position", 4), m["gauges"].get("a", default=4)], [4, 4])


class Arrays(Types):
    def test_formats(self):
        rows = {"deltas": ([1, -2, 2**62, -(2**63)], "q"), "readings": ([0.5, -0.0, float("inf")], "d"), "halves": ([0.5, 2.0], "f"), "flags": ([True, False], "?"),
                "wide": ([0, 2**64 - 1], "Q"), "plain": ([-1, 0, 7], "q"), "colors": ([0, 2, -1], "i")}
        m = self.m(**{name: values for name, (values, _) in rows.items()}, previous={"deltas": [5]})
        for name, (values, kind) in rows.items():
            found = m.array(name)
            self.assertEqual([type(found), found.format, found.tolist(), found.readonly, self.m().array(name).tolist()], [memoryview, kind, values, True, []])
        self.assertEqual([m["previous"].array("deltas").tolist(), m["previous"]["previous"].array("deltas").tolist()], [[5], []])
        self.assertEqual(array.array("d", m.array("readings")).tolist(), rows["readings"][0])
        for name in ("vin", "words", "wheels", "gauges", "speed"):
            self.assertEqual(self.said(TypeError, m.array, name), f"M.{name} is no list of numbers")
        self.assertRaises(KeyError, m.array, "nothing")


class Pickles(Types):
    def test_messages(self):
        m = self.m(vin="x", wheels=[{"pressure": 1}])
        for protocol in range(2, pickle.HIGHEST_PROTOCOL + 1):
            again = lambda it: pickle.loads(pickle.dumps(it, protocol))
            self.assertEqual([again(m), again(m).type is self.m, again(self.m) is self.m, again(self.pool) is self.pool], [m, True, True, True])
            self.assertEqual([again(m["wheels"][0]), again(m["wheels"]), again(m["named"]), again(self.m.field("vin")) is self.m.field("vin")],
                             [m["wheels"][0], list(m["wheels"]), {}, True])
            self.assertEqual(again([m, m])[0].to_dict(), m.to_dict())
        self.assertEqual([copy.deepcopy(m), copy.copy(m["wheels"]), copy.deepcopy({"a": m})["a"]], [m, list(m["wheels"]), m])

    def test_two_pools_of_the_same_sources(self):
        pools = [Pool.of_sources({"m.proto": SOURCE}) for _ in range(3)]
        for pool in pools:
            self.assertIs(pickle.loads(pickle.dumps(pool["M"])), pool["M"])
            self.assertEqual(pickle.loads(pickle.dumps(pool["M"](vin="x"))), pool["M"](vin="x"))

    def test_another_process(self):
        code = """import pickle, sys, mabristu
given = sys.stdin.buffer.read()
one, two = pickle.loads(given), pickle.loads(given)
print(one == two, one.type is two.type, one["vin"], one.type.name)"""
        run = lambda data: subprocess.run([sys.executable, "-c", code], input=data, stdout=subprocess.PIPE, check=True,
                                          env={**os.environ, "PYTHONPATH": os.pathsep.join(sys.path)}).stdout.decode()
        self.assertEqual(run(pickle.dumps(self.m(vin="x"))), "True True x M\n")

    def test_a_pool_that_is_gone(self):
        data = pickle.dumps(Pool.of_sources({"a.proto": 'syntax = "proto3"; message Only { int32 a = 1; }'})["Only"](a=3))
        self.assertEqual(pickle.loads(data)["a"], 3)
        lenient = Pool(self.pool.to_set(), lenient=True)
        again = pickle.loads(pickle.dumps(lenient))
        self.assertIs(again, lenient)
        del again, lenient


class Pools(Types):
    def test_iteration(self):
        self.assertEqual([list(self.pool), len(self.pool)], [[self.wheel, self.m], 2])

    def test_flags_of_json(self):
        for flag in ("ignore_unknown", "lenient"):
            self.assertEqual(self.m.from_json('{"vinn":"a","vin":"b","color":"PINK"}', **{flag: True}).to_dict(), {"vin": "b"})
            self.assertEqual(self.m.canonical_from_json('{"vinn":"a"}', **{flag: True}), b"")
        for text in ('{"vinn":"a"}', '{"color":"PINK"}'):
            self.assertRaises(Refused, self.m.from_json, text)
            self.assertRaises(Refused, self.m.canonical_from_json, text, ignore_unknown=False)


if __name__ == "__main__":
    unittest.main()
