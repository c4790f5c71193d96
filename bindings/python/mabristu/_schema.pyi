from typing import Any, NamedTuple, Optional

from ._mabristu import Field, MessageType, Pool

class Enum(str):
    names: dict[int, str]
    numbers: dict[str, int]
    def __new__(cls, pool: Pool, entry: int) -> Enum: ...
    def __reduce__(self) -> tuple[Any, ...]: ...

class DeclaredFile(NamedTuple):
    name: str
    package: str
    imports: int
    syntax: str

class DeclaredType(NamedTuple):
    name: str
    file: str
    parent: Optional[str]
    type: MessageType

class DeclaredEnum(NamedTuple):
    name: str
    file: str
    parent: Optional[str]
    values: list[tuple[str, int]]

class Difference(NamedTuple):
    old: MessageType
    new: MessageType
    field: Field
    severity: str

class Schema:
    files: list[DeclaredFile]
    types: list[DeclaredType]
    enums: list[DeclaredEnum]
    def __init__(self, pool: Pool) -> None: ...
