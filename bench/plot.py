"""The plot of docs/SPEED.md: how fast each input is decoded, beside libprotobuf and the floor, as SVG.

Its colours follow whether the page is light or dark, on a ground of its own, so that it can be read in both."""
import math
from xml.sax.saxutils import escape

WIDTH, LEFT, RIGHT, ROW = 860, 290, 100, 22
TEXTS = {
    "strings": "strings and bytes",
    "packed": "packed numbers",
    "repeats": "unpacked lists",
    "unknown": "unknown records",
    "small": "many small messages",
    "groups": "the same in groups",
    "maps": "maps",
    "nests": "messages in messages",
    "inner": "groups and messages in turn",
}
PAYLOADS = {
    "google_message1_proto3": "google_message1 of proto3",
    "google_message1_proto2": "google_message1 of proto2",
    "google_message2": "google_message2, with groups",
}
STYLE = """
  text { font: 13px system-ui, sans-serif; fill: #1f2328; }
  .title { font-size: 16px; font-weight: 600; }
  .part { font-weight: 600; }
  .small { font-size: 12px; fill: #59636e; }
  .ground { fill: #ffffff; }
  .grid { stroke: #d1d9e0; }
  .span { stroke: #c8d1da; stroke-width: 3; }
  .ours { fill: #0969da; }
  .peer { fill: #bc4c00; }
  .floor { stroke: #59636e; stroke-width: 2; }
  @media (prefers-color-scheme: dark) {
    text { fill: #f0f6fc; }
    .small { fill: #9198a1; }
    .ground { fill: #0d1117; }
    .grid { stroke: #3d444d; }
    .span { stroke: #3d444d; }
    .ours { fill: #58a6ff; }
    .peer { fill: #f0883e; }
    .floor { stroke: #9198a1; }
  }
"""


class Drawing:
    def __init__(self, least, most):
        self.least, self.most = math.floor(math.log10(least)), math.ceil(math.log10(most))
        self.parts, self.y = [], 0

    def x(self, speed):
        share = (math.log10(speed) - self.least) / (self.most - self.least)
        return round(LEFT + share * (WIDTH - LEFT - RIGHT), 1)

    def text(self, x, words, kind="", anchor="start"):
        self.parts.append(f'<text x="{x}" y="{self.y + 4}" class="{kind}" text-anchor="{anchor}">{escape(words)}</text>')

    def ours(self, x):
        self.parts.append(f'<circle cx="{x}" cy="{self.y}" r="5.5" class="ours"/>')

    def peer(self, x):
        self.parts.append(f'<rect x="{x - 5}" y="{self.y - 5}" width="10" height="10" class="peer"/>')

    def floor(self, x):
        self.parts.append(f'<line x1="{x}" x2="{x}" y1="{self.y - 8}" y2="{self.y + 8}" class="floor"/>')

    def row(self, title, ours, peer, floor):
        self.text(LEFT - 14, title, anchor="end")
        self.parts.append(f'<line x1="{self.x(ours)}" x2="{self.x(peer)}" y1="{self.y}" y2="{self.y}" class="span"/>')
        if floor:
            self.floor(self.x(floor))
        self.peer(self.x(peer))
        self.ours(self.x(ours))
        self.text(WIDTH - 20, f"{ours / peer:.2f}" if ours < peer else f"{ours / peer:.1f}", anchor="end")
        self.y += ROW

    def legend(self, protobuf):
        self.y += 2
        for x, mark, words in (
            (26, self.ours, "mabristu"),
            (132, self.peer, f"libprotobuf {protobuf}, dynamic messages"),
            (420, self.floor, "the floor: plain Rust into the same values, nothing proved"),
        ):
            mark(x)
            self.text(x + 12, words)
        self.y += 30

    def part(self, title, rows):
        """Rows under a title, over lines at each power of ten."""
        self.text(20, title, "part")
        self.text(WIDTH - 20, "× libprotobuf", "small", "end")
        top = self.y = self.y + ROW
        for row in rows:
            self.row(*row)
        bottom = self.y - ROW / 2 + 2
        for power in range(self.least, self.most + 1):
            x = self.x(10 ** power)
            self.parts.insert(0, f'<line x1="{x}" x2="{x}" y1="{top - ROW / 2}" y2="{bottom}" class="grid"/>')
            self.text(x, f"{10 ** power:,}" + (" MB/s" if power == self.most else ""), "small", "middle")
        self.y += ROW + 8

    def svg(self, title):
        height = self.y
        head = f'<svg xmlns="http://www.w3.org/2000/svg" viewBox="0 0 {WIDTH} {height}" width="{WIDTH}" height="{height}" role="img">'
        ground = f'<rect width="{WIDTH}" height="{height}" class="ground"/>'
        return "\n".join([head, f"<title>{escape(title)}</title>", f"<style>{STYLE}</style>", ground, *self.parts, "</svg>"]) + "\n"


def plot(report):
    def rows(titles, size):
        """A row without both speeds was not measured."""
        found = [(title, *report.values(it, size, "decode")) for it, title in titles.items()]
        return [row for row in found if row[1] and row[2]]

    parts = {
        "Messages of 30 to 500 bytes, decoded and dropped one by one": rows(TEXTS, "single"),
        "Inputs of 10 MB": rows(TEXTS, "10MB"),
        "protobuf's own data sets": rows(PAYLOADS, "payload"),
    }
    speeds = [speed for rows in parts.values() for row in rows for speed in row[1:] if speed]
    drawing = Drawing(min(speeds), max(speeds))
    title = "Decoding by types that are known only at run time"
    drawing.y = 26
    drawing.text(20, title, "title")
    drawing.y += 24
    reported = report.figures["texts"]
    drawing.text(20, f"MB of input a second of processor time, to decode and to drop; the best of {reported['passes'] * 2} rounds, {reported['date']}", "small")
    drawing.y += 24
    drawing.legend(reported["protobuf"])
    for of_part, found in parts.items():
        if found:
            drawing.part(of_part, found)
    return drawing.svg(title)
