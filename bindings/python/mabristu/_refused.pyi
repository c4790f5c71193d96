from typing import Any, Optional, Union

from ._mabristu import MessageType

CAUSES: dict[int, str]

class Refused(ValueError):
    where: str
    number: int
    cause: str
    # Each attribute is None if it is not known. The input that is refused decides which are known.
    byte: Union[int, Any]
    path: Union[tuple[Any, ...], Any]
    file: Union[int, str, Any]
    name: Union[str, Any]
    frame: Union[int, Any]
    at: Union[int, Any]
    size: Optional[int]
    type: Optional[MessageType]
    @property
    def hint(self) -> Optional[str]: ...
    def names(self, message_type: MessageType) -> tuple[Union[str, int, tuple[Union[str, int], int]], ...]: ...

class UnknownName(KeyError): ...
