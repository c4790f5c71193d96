"""The page of a message: what the server says, and to whom. tests/browser.py looks at the page in a browser."""
import base64
import hashlib
import json
import os
import re
import subprocess
import sys
import tempfile
import unittest
import urllib.error
import urllib.request

from mabristu import Pool
from mabristu.inspect import alone, changed, contents, described, looked_at

EXAMPLES = os.path.join(os.path.dirname(os.path.realpath(__file__)), "../../../examples")


def read(name):
    with open(f"{EXAMPLES}/{name}", "rb") as it:
        return it.read()


class Said(unittest.TestCase):
    def setUp(self):
        self.order = Pool(read("shop.set"))["shop.Order"]
        self.data = read("shop_order.bin")

    def test_a_message_has_its_listing_json_and_canonical_bytes(self):
        said = looked_at(self.order, self.data)
        self.assertEqual(said["listing"], self.order.listing(self.data, decimal=True))
        self.assertEqual(json.loads(said["json"]), {("placedOn" if name == "placed_on" else name): it for name, it in json.loads(read("shop_order.json")).items()})
        self.assertEqual(base64.b64decode(said["canonical"]), self.order.canonical(self.data))

    def test_a_fault_has_its_byte_path_and_cause(self):
        fault = looked_at(self.order, self.data[:65])["fault"]
        self.assertEqual((fault["byte"], fault["path"], fault["cause"]), (65, [(3, 1), (3, 0)], "Truncated"))

    def test_without_a_type_the_fields_are_judged(self):
        self.assertEqual(looked_at(None, self.data), {})
        self.assertEqual(looked_at(None, b"\x08")["fault"]["byte"], 1)

    def test_fields_are_described_by_their_numbers(self):
        types = described(self.order)
        self.assertEqual(types["shop.Order"]["3"], {"name": "lines", "kind": "message", "shape": "list", "type": "shop.Line"})
        self.assertEqual(types["shop.Order"]["4"]["key"], "string")
        self.assertEqual(types["shop.Order"]["7"]["enum"]["1"], "SENT")

    def test_a_scalar_is_changed_at_its_place(self):
        steps = {("number",): "7", ("lines", 1, "article"): "nut", ("discounts", "loyal"): "-1", ("state",): "PAID", ("invoice", "signature"): "00 ff",
                 ("corrections", 0): "0x10", ("gift",): "true", ("lines", 0, "price"): "2.5"}
        message = self.order.decode(self.data)
        for place, text in steps.items():
            self.data = changed(self.order, self.data, list(place), text)
        message["number"], message["lines"][1]["article"], message["discounts"]["loyal"], message["state"] = 7, "nut", -1, 2
        message["invoice"]["signature"], message["corrections"][0], message["gift"], message["lines"][0]["price"] = b"\0\xff", 16, True, 2.5
        self.assertEqual(self.data, message.encode())

    def test_the_file_runs_its_own_script_and_style_alone(self):
        page = alone(contents(self.order, "</script><script>alert(1)</script>", self.data))
        policy = re.search(r'Content-Security-Policy" content="([^"]*)"', page)[1]
        for tag in ("script", "style"):
            (inner,) = re.findall(rf"<{tag}>(.*?)</{tag}>", page, re.S)
            self.assertIn(f"'sha256-{base64.b64encode(hashlib.sha256(inner.encode()).digest()).decode()}'", policy)
        self.assertNotIn("<script>alert", page)
        self.assertNotIn("unsafe", policy)


class Served(unittest.TestCase):
    def setUp(self):
        words = [sys.executable, "-m", "mabristu.inspect", "--set", "shop.set", "--type", "shop.Order"]
        with tempfile.NamedTemporaryFile(delete=False) as stream:
            whole = read("shop_order.bin")
            stream.write(bytes([len(whole)]) + whole + b"\x02\xff\xff" + b"\x00")
        self.addCleanup(os.remove, stream.name)
        self.server = subprocess.Popen([*words, "--frames", stream.name], cwd=EXAMPLES, stdout=subprocess.PIPE, text=True)
        self.addCleanup(self.server.stdout.close)
        self.addCleanup(self.server.wait)
        self.addCleanup(self.server.kill)
        self.at = self.server.stdout.readline().strip()

    def answer(self, url, asked=None, **headers):
        data = None if asked is None else json.dumps(asked).encode()
        with urllib.request.urlopen(urllib.request.Request(url, data, headers)) as it:
            return it.headers, it.read()

    def ask(self, word, **asked):
        return json.loads(self.answer(self.at + word, asked)[1])

    def status(self, url, **headers):
        try:
            self.answer(url, **headers)
        except urllib.error.HTTPError as error:
            with error:
                return error.code
        return 200

    def test_another_token_or_host_gets_nothing(self):
        host, token = self.at.split("/")[2:4]
        self.assertEqual(self.status(self.at), 200)
        for url in (f"http://{host}/", f"http://{host}/{token[:-1]}/", f"http://{host}/{token}x/given", f"{self.at}../given"):
            self.assertEqual(self.status(url), 404, url)
        self.assertEqual(self.status(self.at, Host="localhost"), 404)

    def test_the_policy_has_no_exceptions(self):
        headers, _ = self.answer(self.at)
        self.assertIn("default-src 'none'", headers["Content-Security-Policy"])
        self.assertNotIn("unsafe", headers["Content-Security-Policy"])

    def test_bytes_are_judged_and_changed(self):
        self.assertEqual(self.ask("look", hex="08")["fault"]["cause"], "Truncated")
        self.assertEqual(base64.b64decode(self.ask("change", hex="0801", steps=["number"], text="2")["bytes"]), b"\x08\x02")
        self.assertIn("error", self.ask("change", hex="0801", steps=["number"], text="two"))
        self.assertIn("error", self.ask("look", hex="0"))

    def test_frames_are_listed_with_the_bad_ones(self):
        frames = self.ask("frames", first=0)
        self.assertEqual([(it["at"], it["size"], "fault" in it) for it in frames["frames"]], [(0, 119, False), (119, 3, True), (122, 1, False)])
        self.assertFalse(frames["more"])
        self.assertEqual(base64.b64decode(self.ask("frame", number=1)["bytes"]), b"\xff\xff")
        self.assertIn("fault", self.ask("frame", number=1)["said"])


if __name__ == "__main__":
    unittest.main()
