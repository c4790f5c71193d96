"""The methods of lists, maps and messages that use other methods: those of list and dict, the names of enums, and pickling. Each is put into its type."""
import hashlib
import operator
import pickle
import sys
import uuid
import weakref
from collections.abc import MutableMapping, MutableSequence

from ._mabristu import Field, List, Map, Message, MessageType, Pool

# ---- Lists ----


def copied(value):
    """A value that is no part: a message is copied."""
    return value.copy() if isinstance(value, Message) else value


def insert(self, index, value):
    """Puts a value before an index, which may count from the end."""
    length, index = len(self), operator.index(index)
    index = max(index + length, 0) if index < 0 else min(index, length)
    self.append(value)
    self._move(index, 1)


def pop(self, index=-1):
    """Removes the value at an index, and returns it (a message as a copy)."""
    value = copied(self[index])
    del self[index]
    return value


def index(self, value, start=0, stop=sys.maxsize):
    """Returns the lowest index of an equal value, from start on and before stop. Raises ValueError if there is none."""
    for at in range(*slice(start, stop).indices(len(self))):
        if self[at] == value:
            return at
    raise ValueError(f"{self.field.full_name} has no such value")


def count(self, value):
    """Returns how many values are equal to this value."""
    return list(self).count(value)


def remove(self, value):
    """Removes the first equal value. Raises ValueError if there is none."""
    del self[self.index(value)]


def reverse(self):
    """Reverses the order of the values."""
    self[:] = self[::-1]


def sort(self, *, key=None, reverse=False):
    """Sorts the values, as list.sort does."""
    self[:] = sorted(self, key=key, reverse=reverse)


def iadd(self, values):
    """Adds each value at the end."""
    self.extend(values)
    return self


# ---- Maps ----

NOTHING = object()


def pop_key(self, key, default=NOTHING):
    """Removes the entry of a key, and returns its value (a message as a copy). If there is no such entry, returns the default, or raises KeyError if no
    default is given."""
    if key not in self:
        if default is NOTHING:
            raise KeyError(key)
        return default
    value = copied(self[key])
    del self[key]
    return value


def popitem(self):
    """Removes the entry with the greatest key, and returns key and value. Raises KeyError if the map is empty."""
    keys = self.keys()
    if not keys:
        raise KeyError("the map is empty")
    return keys[-1], self.pop(keys[-1])


def setdefault(self, key, default):
    """Returns the value under a key. If there is none, the default is put there first."""
    if key not in self:
        self[key] = default
    return self[key]


def update(self, entries=(), **more):
    """Puts in the entries of a mapping, or pairs of keys and values. They replace entries with the same keys."""
    for key, value in dict(entries, **more).items():
        self[key] = value


# ---- Messages, pools and types ----


def name(self, field):
    """Returns the name of an enum value, or its number if the enum has no name for it. None if the field is not set and has no default. For a list or map
    of enum values, returns a list or dict of names."""
    value = self[field]
    if isinstance(value, (List, Map)):
        field = value.field
    elif not isinstance(field, Field):
        field = next(it for it in self.type.fields if field in (it.name, it.number))
    if field.enum is None:
        raise TypeError(f"{field.full_name} is no enum")
    names = field.enum.names
    if field.shape == "list":
        return [names.get(it, it) for it in value]
    if field.shape == "map":
        return {key: names.get(it, it) for key, it in value.items()}
    return names.get(value, value)


def types(self):
    """The message types of the pool, in the order of its set."""
    return (self._type_at(it) for it in range(self._counts()[1]))


def length(self):
    """How many message types the pool has."""
    return self._counts()[1]


# ---- Types ----


def signature(self):
    """The fields that Order(..) takes: for inspect.signature, help() and completion. A field whose name is a keyword of Python is not listed."""
    from inspect import Parameter, Signature
    from keyword import iskeyword

    return Signature([Parameter(it.name, Parameter.KEYWORD_ONLY, default=...) for it in self.fields if not iskeyword(it.name)])


class OfInstances:
    """An attribute of each message type, but not of MessageType itself."""

    def __init__(self, read):
        self.read = read

    def __get__(self, instance, owner=None):
        if instance is None:
            raise AttributeError("message types have it")
        return self.read(instance)


# ---- Pickling: a message is its bytes, its type is its name, and a pool what it was made of ----

POOLS = weakref.WeakValueDictionary()
MARKS = weakref.WeakKeyDictionary()


def digest(*made_of):
    return hashlib.sha256(pickle.dumps(made_of, 4)).digest()


def known(pool):
    """A mark of the pool, by which a copy in this process finds the same pool, and the set or sources of the pool."""
    mark = MARKS.setdefault(pool, uuid.uuid4().bytes)
    POOLS[mark] = pool
    is_set, given, is_lenient = pool._origin
    return mark, is_set, given if is_set else tuple(sorted(given, key=repr)), is_lenient


def pool_of(mark, is_set, given, is_lenient):
    """The pool with a mark, or a pool that was made here of the same set or sources before, or a new pool."""
    pool = POOLS.get(mark)
    if pool is not None:
        return pool
    key = digest(is_set, given, is_lenient)
    pool = POOLS.get(key)
    if pool is None:
        pool = POOLS[key] = Pool(given, lenient=is_lenient) if is_set else Pool.of_sources(dict(given), lenient=is_lenient)
    return pool


def decoded(message_type, data):
    return message_type.decode(data)


def put_into(kind, **methods):
    for word, method in methods.items():
        method.__name__ = word
        method.__qualname__ = f"{kind.__name__}.{word}"
        setattr(kind, word, method)


put_into(List, insert=insert, pop=pop, index=index, count=count, remove=remove, reverse=reverse, sort=sort, __iadd__=iadd,
         __reduce__=lambda self: (list, ([copied(it) for it in self],)))
put_into(Map, pop=pop_key, popitem=popitem, setdefault=setdefault, update=update,
         __reduce__=lambda self: (dict, ([(key, copied(it)) for key, it in self.items()],)))
put_into(Message, name=name, __reduce__=lambda self: (decoded, (self.type, self.encode())))
put_into(MessageType, __reduce__=lambda self: (operator.getitem, (self.pool, self.name)))
put_into(Field, __reduce__=lambda self: (MessageType.field, (self.owner, self.name)))
put_into(Pool, __iter__=types, __len__=length, __reduce__=lambda self: (pool_of, known(self)))
MessageType.__signature__ = OfInstances(signature)
MutableSequence.register(List)
MutableMapping.register(Map)
