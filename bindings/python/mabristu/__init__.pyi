from ._frames import Frame as Frame, Frames as Frames
from ._mabristu import (
    INTERFACE as INTERFACE,
    MAX_BYTES as MAX_BYTES,
    MAX_DEPTH as MAX_DEPTH,
    Decoder as Decoder,
    Field as Field,
    List as List,
    Map as Map,
    Message as Message,
    MessageType as MessageType,
    Pool as Pool,
    raw_check as raw_check,
    raw_short as raw_short,
)
from ._refused import CAUSES as CAUSES, Refused as Refused, UnknownName as UnknownName
from ._schema import (
    DeclaredEnum as DeclaredEnum,
    DeclaredFile as DeclaredFile,
    DeclaredType as DeclaredType,
    Difference as Difference,
    Enum as Enum,
    Schema as Schema,
)

__version__: str
