"""Decodes, checks, changes and encodes Protocol Buffers messages. It learns their types at run time, from a descriptor set or .proto sources.

    import mabristu

    pool = mabristu.Pool(open("shop.set", "rb").read())
    Order = pool["shop.Order"]
    order = Order.decode(open("shop_order.bin", "rb").read())
    print(order)

If bytes, a set, sources or JSON are wrong, a call raises Refused, with the byte, the path and the cause. If a name is not declared, it raises KeyError. If
memory runs out, it raises MemoryError.
"""
from ._frames import Frame, Frames
from ._mabristu import INTERFACE, MAX_BYTES, MAX_DEPTH, Decoder, Field, List, Map, Message, MessageType, Pool, raw_check, raw_short
from ._refused import CAUSES, Refused, UnknownName
from ._schema import DeclaredEnum, DeclaredFile, DeclaredType, Difference, Enum, Schema
from . import _parts as _parts

__version__ = "0.1.0"
__all__ = ["CAUSES", "DeclaredEnum", "DeclaredFile", "DeclaredType", "Decoder", "Difference", "Enum", "Field", "Frame", "Frames", "INTERFACE", "List",
           "MAX_BYTES", "MAX_DEPTH", "Map", "Message", "MessageType", "Pool", "Refused", "Schema", "UnknownName", "raw_check", "raw_short"]
