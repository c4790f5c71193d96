"""Answers that are easily wrong: what find gives where nothing is, fields of other types, and dicts with two members of a oneof. The types are those of
SOURCE, and the bytes are made by hand."""
import base64
import gzip
import inspect
import pickle
import pydoc
import unittest

import mabristu
from mabristu import Pool, Refused, UnknownName

SOURCE = """syntax = "proto3";
message Sub { int32 code = 1; optional int32 maybe = 2; Sub inner = 3; }
message M {
  oneof e { Sub alarm = 1; Sub calm = 2; string note = 5; }
  repeated Sub many = 3;
  map<string, Sub> named = 4;
  Sub one = 6;
  int32 code = 7;
  repeated int32 numbers = 8;
}
"""


class Types(unittest.TestCase):
    @classmethod
    def setUpClass(cls):
        cls.pool = Pool.of_sources({"m.proto": SOURCE})
        cls.m, cls.sub = cls.pool["M"], cls.pool["Sub"]

    def said(self, kind, call, *given, **named):
        """What an exception of this kind says."""
        with self.assertRaises(kind) as it:
            call(*given, **named)
        return str(it.exception)


class Find(Types):
    def test_what_is_absent(self):
        find = self.m.find
        # Of nothing; of calm set; of alarm set without a code; of alarm set, and then calm.
        for data, found in ((b"", None), (b"\x12\x02\x08\x05", None), (b"\x0a\x00", 0), (b"\x0a\x02\x08\x05", 5), (b"\x0a\x02\x08\x05\x12\x00", None)):
            self.assertEqual([find(data, "alarm", "code"), find(data, "alarm", "maybe")], [found, None])
            self.assertEqual([find(data, 1, 1), find(data, 1, 2)], [found, None])
        self.assertEqual([find(b"", "code"), find(b"", "note"), find(b"", "one", "inner", "code"), find(b"\x32\x00", "one", "inner", "code")], [0] + 3 * [None])
        self.assertEqual([find(b"\x32\x02\x1a\x00", "one", "inner", "code"), find(b"\x32\x04\x1a\x02\x08\x09", "one", "inner", "code")], [0, 9])

    def test_paths_that_lead_elsewhere(self):
        said = lambda *names: self.said(TypeError, self.m.find, b"\x1a\x02\x08\x05", *names)
        self.assertEqual(said("many", "code"), "many of M is a list: find goes through messages to one scalar")
        self.assertEqual(said("many"), "many of M is a list: find goes through messages to one scalar")
        self.assertEqual(said("named", "code"), "named of M is a map: find goes through messages to one scalar")
        self.assertEqual(said("numbers"), "numbers of M is a list: find goes through messages to one scalar")
        self.assertEqual(said("one"), "one of M is a message: find reads one scalar")
        self.assertEqual(said("one", "code", "code"), "code of Sub is no message")
        self.assertEqual(self.said(KeyError, self.m.find, b"", "one", "nothing"), "Sub has no field nothing")


class Fields(Types):
    def test_fields_of_another_type(self):
        message, code = self.m(), self.sub.field("code")
        message["code"] = 4
        for call in (lambda: message[code], lambda: code in message, lambda: message.get(code), lambda: message.__setitem__(code, 1),
                     lambda: message.__delitem__(code)):
            self.assertEqual(self.said(KeyError, call), "'field Sub.code is of another type than M'")
        self.assertEqual(message.to_dict(), {"code": 4})
        message[self.m.field("code")] = 5
        self.assertEqual(message[self.m.field("code")], 5)
        other = Pool.of_sources({"m.proto": SOURCE})["M"].field("code")
        self.assertEqual(self.said(KeyError, lambda: message[other]), "'field M.code is of another type than M, of another pool'")


class Names(Types):
    def test_names_that_are_near(self):
        pool = Pool.of_sources({"a.proto": """syntax = "proto3"; package fleet.v1; enum State { NONE = 0; SENT = 1; }
                                             message Report { oneof payment { int32 card = 1; } State state = 2; repeated State states = 3; }"""})
        report = pool["fleet.v1.Report"]
        message = report()
        for call, said in (
            (lambda: pool["fleet.v1.Reprot"], "type fleet.v1.Reprot unknown: did you mean fleet.v1.Report?"),
            (lambda: pool["Report"], "type Report unknown: did you mean fleet.v1.Report?"),
            (lambda: pool["x"], "type x unknown"),
            (lambda: message["stat"], "fleet.v1.Report has no field stat: did you mean state?"),
            (lambda: message.__setitem__("crad", 1), "fleet.v1.Report has no field crad: did you mean card?"),
            (lambda: report(cart=1), "fleet.v1.Report has no field cart: did you mean card?"),
            (lambda: message["STATE"], "fleet.v1.Report has no field STATE: did you mean state?"),
            (lambda: message["sttae_"], "fleet.v1.Report has no field sttae_"),
            (lambda: message[9], "fleet.v1.Report has no field 9"),
            (lambda: message[""], "fleet.v1.Report has no field "),
            (lambda: message.which_oneof("paiment"), "fleet.v1.Report has no oneof paiment: did you mean payment?"),
        ):
            self.assertEqual(self.said(UnknownName, call), said)
            with self.assertRaises(KeyError) as it:
                call()
            self.assertEqual(str(pickle.loads(pickle.dumps(it.exception))), said)
        for call in (lambda: message.__setitem__("state", "SNT"), lambda: message["states"].append("SNT"), lambda: report(states=["SNT"])):
            self.assertRegex(self.said(ValueError, call), "^fleet.v1.Report.states? takes a value of fleet.v1.State, which has none of the name 'SNT': did you mean SENT\\?$")

    def test_signature(self):
        self.assertEqual(list(inspect.signature(self.m).parameters), [it.name for it in self.m.fields])
        named = Pool.of_sources({"a.proto": 'syntax = "proto3"; message A { int32 from = 1; int32 to = 2; int32 self = 3; }'})["A"]
        self.assertEqual(str(inspect.signature(named)), "(*, to=Ellipsis, self=Ellipsis)")
        self.assertEqual(named(**{"from": 1, "self": 2}).to_dict(), {"from": 1, "self": 2})

    def test_signatures_of_calls(self):
        kinds = (mabristu.Pool, mabristu.MessageType, mabristu.Field, mabristu.Message, mabristu.List, mabristu.Map, mabristu.Decoder, mabristu.Frames)
        for call in [getattr(kind, name) for kind in kinds for name in dir(kind) if not name.startswith("_")] + [mabristu.raw_check, mabristu.raw_short]:
            if callable(call):
                inspect.signature(call)
        # It is made by a pool alone, and has a page of help all the same.
        self.assertRaises(ValueError, inspect.signature, mabristu.MessageType)
        self.assertIn("from_json", pydoc.render_doc(mabristu.MessageType))


class Hints(Types):
    def hint(self, call, *given):
        with self.assertRaises(Refused) as it:
            call(*given)
        refused = it.exception
        self.assertEqual(refused.__notes__, [f"  {refused.hint}"] if refused.hint else [])
        again = pickle.loads(pickle.dumps(refused))
        self.assertEqual([again.hint, again.byte, again.path, str(again), again.type], [refused.hint, refused.byte, refused.path, str(refused), None])
        return refused.hint

    def test_of_messages(self):
        self.assertEqual(self.hint(self.m.decode, b"\x1a\x00\x1a\x02\x08"), "at many[1].code[0] of M")
        self.assertEqual(self.hint(self.m.check, b"\x22\x05\x0a\x01k\x12\x05"), "at named[0].value[0] of M")
        self.assertEqual(self.hint(self.m().merge, b"\x08"), "at alarm[0] of M")
        self.assertIsNone(self.hint(self.m.decode, b"\xff"))
        decoder = self.m.decoder()
        decoder.feed(b"\x0a\x02\x08")
        self.assertEqual(self.hint(decoder.finish), "at alarm[0].code[0] of M")
        bad = []
        self.assertEqual(list(self.m.frames(b"\x02\x38\xff", skip=bad.append)), [])
        self.assertEqual([it.hint for it in bad], ["at code[0] of M"])

    def test_of_changes(self):
        source = 'syntax = "proto2"; enum E { ONE = 1; TWO = 2; } message M { optional E one = 1; repeated E many = 2; optional M inside = 3; map<int32, M> by = 4; }'
        kind = Pool.of_sources({"m.proto": source}, lenient=True)["M"]
        message = kind()
        self.assertEqual([self.hint(message.__setitem__, "one", 7), self.hint(message["many"].append, 3), self.hint(message["inside"].__setitem__, "one", 0)],
                         ["M.one takes a value of E: ONE, TWO", "M.many takes a value of E: ONE, TWO", "M.one takes a value of E: ONE, TWO"])
        deep = message
        for _ in range(100):
            deep["inside"]["one"] = 1
            deep = deep["inside"]
        self.assertEqual([self.hint(deep["inside"].__setitem__, "one", 1), self.hint(deep.__setitem__, "by", {1: {}})],
                         [f"with M.{it} messages would nest more than 100 levels deep" for it in ("inside", "by")])

    def test_of_sets(self):
        data = self.pool.to_set()
        looks = [(gzip.compress(data), "gzip"), (base64.b64encode(data), "base64"), (data.hex().encode(), "hexadecimal"), (b'{"file": []}', "JSON"),
                 (SOURCE.encode(), "source"), (b"// A comment.\n" + SOURCE.encode(), "source")]
        for given, looks_like in looks:
            for it in (given, bytearray(given), memoryview(given)):
                self.assertIn(looks_like, self.hint(Pool, it))
        self.assertIsNone(self.hint(Pool, data[:-1]))

    def test_of_sources(self):
        of = lambda source: self.hint(Pool.of_sources, {"a.proto": source, "b.proto": 'syntax = "proto3";'})
        self.assertEqual(of('syntax = "proto3";\nmessage A {\n  int32 é;\n}'), "line 3 column 9: é;")
        self.assertEqual(of('syntax = "proto3";\nimport "b.proto";\nimport public "c/d.proto";'), "the sources have no c/d.proto, which it imports")
        self.assertIsNone(of('syntax = "proto3"; message A { B b = 1; }'))

    def test_of_json(self):
        self.assertEqual(self.hint(self.m.from_json, '{\n "vinn": "ä"}'), 'line 2 column 2: "vinn": "ä"}')
        self.assertEqual(self.hint(self.m.canonical_from_json, b'{"note": "\xc3\xa4", "code": x}'), "line 1 column 23: x}")


class Dicts(Types):
    def test_two_members_of_a_oneof(self):
        for fields in ({"alarm": {"code": 1}, "note": "x"}, {"note": "", "alarm": {}}, {"many": [], "calm": {}, "note": "x"}):
            members = [it for it in fields if it != "many"]
            said = f"M.{members[0]} and M.{members[1]} are both of the oneof e, which holds one"
            self.assertEqual(self.said(ValueError, self.m.from_dict, fields), said)
        self.assertEqual(self.m.from_dict({"many": [{"code": 1}], "alarm": {}}).which_oneof("e"), "alarm")


if __name__ == "__main__":
    unittest.main()
