from collections.abc import Callable, Iterator
from typing import Any, Optional

from ._mabristu import MessageType
from ._refused import Refused

class Frame:
    at: int
    size: int
    data: bytes
    def __init__(self, at: int, size: int, data: bytes) -> None: ...

class Frames(Iterator[Frame]):
    def __init__(
        self,
        message_type: MessageType,
        source: Any,
        *,
        skip: Optional[Callable[[Refused], object]] = None,
        max_bytes: int = ...,
        max_depth: int = ...,
    ) -> None: ...
    def __iter__(self) -> Frames: ...
    def __next__(self) -> Frame: ...
