"""Streams of messages, each after its length."""
from ._refused import Refused, fault

FULL = 0x7FFFFFFF, 100
BLOCK = 65536
TRUNCATED = 1


class Frame:
    """A message in a stream. at is where its frame begins, size is the number of bytes of the frame, and data has the bytes of the message."""

    __slots__ = ("at", "size", "data")

    def __init__(self, at, size, data):
        self.at, self.size, self.data = at, size, data

    def __repr__(self):
        return f"<mabristu.Frame at {self.at} size {self.size}>"


class Frames:
    """Reads the frames of a stream. If a frame is refused and its end is known, reading goes on after it: with `skip`, or by the next call of next()."""

    def __init__(self, message_type, source, *, skip=None, max_bytes=FULL[0], max_depth=FULL[1]):
        self._type, self._skip, self._limits = message_type, skip, (max_bytes, max_depth)
        self._read = getattr(source, "read", None)
        self._held = b"" if self._read else source if isinstance(source, bytes) else bytes(source)
        self._at = self._before = self._index = 0

    def __iter__(self):
        return self

    def __next__(self):
        while True:
            try:
                return self._next()
            except Refused as refused:
                if self._skip is None:
                    raise
                self._skip(refused)

    def _next(self):
        while True:
            try:
                begin, size, is_whole = self._type._frame(self._held, self._at, *self._limits)
            except Refused as refused:
                raise self._passed(refused) from None
            if is_whole:
                frame = Frame(self._before + self._at, size, self._held[self._at + begin : self._at + size])
                self._at, self._index = self._at + size, self._index + 1
                return frame
            if not self._more(size):
                break
        if self._at == len(self._held):
            raise StopIteration
        raise self._cut(begin if size else len(self._held) - self._at, size or None)

    def _more(self, size):
        """Reads on until the frame of this size (0 if it is not known) is there, but at most as many bytes again as are held. So a fault is found before
        the frame is complete, and each byte is judged at most twice, also if a read gives few bytes. Returns whether there was more."""
        held = [self._held[self._at :]]
        has = len(held[0])
        wanted = min(size or BLOCK, max(BLOCK, 2 * has))
        self._before, self._at = self._before + self._at, 0
        while self._read and has < wanted:
            more = self._read(max(BLOCK, wanted - has))
            if not more:
                break
            held.append(more)
            has += len(more)
            if not size:
                break
        self._held = b"".join(held)
        return len(held) > 1

    def _placed(self, refused):
        refused.frame, refused.at = self._index, self._before + self._at
        self._index += 1
        return refused

    def _passed(self, refused):
        """Goes to the end of a refused frame, or to the end of the stream if the frame's length cannot be read."""
        placed = self._placed(refused)
        if refused.size is None:
            self._end()
        else:
            self._go_to(self._at + refused.size)
        return placed

    def _go_to(self, at):
        """Goes on at an index of the bytes held, or after them."""
        while at > len(self._held):
            at -= len(self._held)
            self._before += len(self._held)
            self._held = self._read(min(at, 1 << 20)) if self._read else b""
            if not self._held:
                at = 0
        self._at = at

    def _end(self):
        self._at, self._read = len(self._held), None

    def _cut(self, begin, size):
        """The fault of the frame in which the stream ends. Its message begins this many bytes after the frame. The bytes of the message have a fault, or
        they are whole records, and end too early."""
        refused = fault(len(self._held) - self._at, (), TRUNCATED)
        try:
            self._type.check(self._held[self._at + begin :], max_bytes=self._limits[0], max_depth=self._limits[1])
        except Refused as inner:
            refused = fault(inner.byte + begin, inner.path, inner.number)
        placed = self._placed(refused)
        placed.size = size
        self._end()
        return placed
