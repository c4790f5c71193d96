"""Python's memory is refused, at each allocation of a call by itself and from each one on: the call raises MemoryError or does what it should, and the message
is one. (The library's own allocations are refused by .ci/allocations.)"""
import pickle
import unittest

import mabristu
from mabristu import Pool
from test_parts import SOURCE

try:
    import _testcapi
except ImportError:
    _testcapi = None

FIELDS = {
    "wheels": [{"pressure": it, "spare": {"label": "x"}, "by_name": {"a": {"pressure": 1}}} for it in range(4)], "named": {"k": {"pressure": 1}}, "raw": 3000 * b"x",
    "deltas": [1, 2, 3], "gauges": {"a": 1.0}, "words": ["a", "b"], "previous": {"vin": "x", "previous": {"wheels": [{}]}}, "colors": [1, 2],
}


def calls(kind, data):
    return [
        lambda m: m["vin"], lambda m: m["wheels"][1]["spare"]["label"], lambda m: m.to_dict(enums="names"), lambda m: m["wheels"].insert(1, {"pressure": 3}),
        lambda m: m["wheels"][1:2], lambda m: m["wheels"].__setitem__(slice(0, 1), [{}, {}]), lambda m: m.__setitem__("named", {"z": {"pressure": 4}}),
        lambda m: m["alarm"]["spare"].__setitem__("pressure", 1), lambda m: m["deltas"].append(5), lambda m: m["gauges"].items(),
        lambda m: m["wheels"] == list(m["wheels"]), lambda m: m.array("deltas"), lambda m: repr(m), lambda m: m.copy(), lambda m: m["wheels"][2].copy(),
        lambda m: m["wheels"][0].encode(), lambda m: m.__setitem__("position", m["wheels"][1]), lambda m: m.merge(b"\x0a\x00"), lambda m: m.frame(),
        lambda m: m["wheels"].pop(), lambda m: m["wheels"].reverse(), lambda m: kind.find(data, "previous", "vin"), lambda m: kind.decode(data), lambda m: m.to_json(),
        lambda m: list(m), lambda m: m.which_oneof("e"), lambda m: m.unknown, lambda m: m["named"].pop("k"), lambda m: kind.canonical(data),
        lambda m: m["wheels"][0]._fill(b"\x08\x05\xa0\x06\x07"), lambda m: m.name("colors"), lambda m: kind.from_json('{"vin":"x"}'),
        lambda m: kind.decoder().feed(data), lambda m: kind._frame(m.frame(), 0, mabristu.MAX_BYTES, 100), lambda m: m["nothing"], lambda m: m.__setitem__("vin", 5), lambda m: pickle.dumps(m),
        lambda m: Pool.of_sources({"a.proto": 'syntax = "proto3"; message A { int32 a = 1; }'})["A"](a=3),
    ]


@unittest.skipUnless(_testcapi, "this Python can't refuse its memory")
class Memory(unittest.TestCase):
    def test_refused_allocations(self):
        kind = Pool.of_sources({"m.proto": SOURCE})["M"]
        data, refused = kind.from_dict(FIELDS).encode(), 0
        for call in calls(kind, data):
            for bounds in [(it, it + 1) for it in range(100)] + [(it,) for it in range(0, 100, 3)]:
                message = kind.from_dict(FIELDS)
                refused += self.is_refused(call, message, bounds)
                self.assertEqual(kind.decode(message.encode()), message)
        self.assertGreater(refused, 500)

    def is_refused(self, call, message, bounds):
        _testcapi.set_nomemory(*bounds)
        try:
            call(message)
        except MemoryError:
            return True
        except (KeyError, TypeError, pickle.PicklingError):
            return False
        except SystemError as error:
            # Python 3.11 and later says so where it has no memory for the frame of a function, which then is not entered.
            trace = error.__traceback__
            while trace.tb_next:
                trace = trace.tb_next
            if trace.tb_frame.f_code.co_name != "is_refused":
                raise
        finally:
            _testcapi.remove_mem_hooks()
        return False


if __name__ == "__main__":
    unittest.main()
