"""Makes random changes of two messages by Python's protobuf, and prints of each a line of JSON: the change, and the deterministic encoding then, in
hexadecimal:

  changes_by_protobuf.py SET COUNT [SEED]

SET has the types of test_parts.py. A change is [which, call, path, ..]: which of the two messages, and names, indexes and keys that lead to what is
changed. A value that JSON has not is a list: ["bytes", hex], ["double", hex of its bits]."""
import json
import random
import struct
import sys

from google.protobuf import descriptor_pb2, descriptor_pool, message_factory

NUMBERS = 0, 1, -1, 127, 128, 2**31 - 1, -(2**31)
KEYS = {"gauges": ("", "a", "é", "b"), "paints": ("x", "y"), "truths": (False, True), "named": ("k", "l"), "by_name": ("n", ""), "numbered": (0, -1, 5, -(2**31))}
LISTS = {"M": ("deltas", "words", "readings", "flags", "colors", "plain", "halves", "wide"), "Wheel": ("worn",)}
SCALARS = {"M": ("vin", "speed", "color", "small", "note", "raw"), "Wheel": ("pressure", "label", "color")}
MAPS = {"M": ("gauges", "paints", "truths"), "Wheel": ()}
WHEELS = {"M": ("alarm", "calm", "position"), "Wheel": ("spare",)}
WHEEL_MAPS = {"M": ("named", "numbered"), "Wheel": ("by_name",)}


def bits(number):
    return ["double", struct.pack("<d", number).hex()]


def value_of(chosen, name):
    """A value for a field, as protobuf takes it and as JSON has it."""
    if name in ("vin", "note", "label", "words"):
        return (chosen.choice(("", "a", "é😀", 300 * "z")),) * 2
    if name in ("speed", "readings", "gauges", "halves"):
        found = chosen.choice((0.0, -0.0, 1.5, float("inf"), -2.25))
        return found, bits(found)
    if name == "raw":
        found = chosen.randbytes(chosen.choice((0, 3)))
        return found, ["bytes", found.hex()]
    if name == "flags":
        return (chosen.random() < 0.5,) * 2
    if name in ("small", "wide"):
        return (chosen.choice((0, 1, 2**32 - 1)),) * 2
    return (chosen.choice((0, 1, 2, 9) if name in ("color", "colors", "paints") else NUMBERS),) * 2


def way(chosen, message, kind):
    """A message of the same or another type inside, and the path to it."""
    path = []
    for _ in range(chosen.randrange(4)):
        name = chosen.choice(WHEELS[kind] + WHEEL_MAPS[kind] + (("wheels", "previous") if kind == "M" else ()))
        inside = getattr(message, name)
        if name in WHEEL_MAPS[kind] or name == "wheels":
            keys = range(len(inside)) if name == "wheels" else sorted(inside)
            if not keys:
                continue
            key = chosen.choice(keys)
            message, kind, path = inside[key], "Wheel", [*path, name, key]
        else:
            message, kind, path = inside, "M" if name == "previous" else "Wheel", [*path, name]
    return message, kind, path


def change_list(chosen, values, name):
    """A change of a list of scalars: [call, ..]."""
    value, given = value_of(chosen, name)
    at = chosen.randrange(len(values)) if len(values) else 0
    call = chosen.choice(("append", "insert", "set", "del", "clear", "extend") if len(values) else ("append", "extend", "insert"))
    if call == "append":
        values.append(value)
    elif call == "insert":
        values.insert(at, value)
    elif call == "set":
        values[at] = value
    elif call == "del":
        del values[at]
        return [call, at]
    elif call == "clear":
        del values[:]
        return [call]
    else:
        values.extend([value] * 3)
        return [call, 3 * [given]]
    return [call, given] if call == "append" else [call, at, given]


def change_wheels(chosen, wheels, others):
    """A change of a list of messages; of others is the message that is copied."""
    at = chosen.randrange(len(wheels)) if len(wheels) else 0
    call = chosen.choice(("append", "insert", "del", "replace", "slice") if len(wheels) else ("append", "insert"))
    made = [type(it).FromString(it.SerializeToString()) for it in wheels]
    if call == "append":
        made.append(others)
    elif call == "insert":
        made.insert(at, others)
    elif call == "del":
        del made[at]
    elif call == "replace":
        made[at] = others
    else:
        made[at : at + 2] = [others, others]
    kept = [it.SerializeToString() for it in made]
    del wheels[:]
    for it in kept:
        wheels.add().ParseFromString(it)
    return [call, at]


def is_there(message, path):
    """Whether each message on a path is there: protobuf makes those that are not, even where a field in them is cleared."""
    for at, step in enumerate(path):
        if isinstance(step, str) and step in WHEELS["M"] + WHEELS["Wheel"] + ("previous",) and (at == 0 or path[at - 1] not in WHEEL_MAPS["M"] + ("by_name",)):
            if not message.HasField(step):
                return False
        message = getattr(message, step) if isinstance(step, str) and hasattr(message, "DESCRIPTOR") else message[step]
    return True


def change(chosen, messages):
    """Makes a change, and gives it."""
    which = chosen.randrange(2)
    message, kind, path = way(chosen, messages[which], "M")
    what = chosen.choice(("scalar", "list", "map", "clear", "wheels", "entry", "copy") if kind == "M" else ("scalar", "list", "clear", "entry", "copy"))
    if what == "scalar":
        name = chosen.choice(SCALARS[kind])
        value, given = value_of(chosen, name)
        setattr(message, name, value)
        return [which, "assign", path, name, given]
    if what == "list":
        name = chosen.choice(LISTS[kind])
        return [which, "list", path, name, *change_list(chosen, getattr(message, name), name)]
    if what == "map":
        name = chosen.choice(MAPS[kind])
        key, (value, given) = chosen.choice(KEYS[name]), value_of(chosen, name)
        if key in getattr(message, name) and chosen.random() < 0.5:
            del getattr(message, name)[key]
            return [which, "remove", path, name, key]
        getattr(message, name)[key] = value
        return [which, "put", path, name, key, given]
    if what == "clear" and not is_there(messages[which], path):
        return change(chosen, messages)
    if what == "clear":
        name = chosen.choice(SCALARS[kind] + LISTS[kind] + MAPS[kind] + WHEELS[kind] + WHEEL_MAPS[kind])
        # To clear a member of a oneof that is not set changes nothing. protobuf 3.21 in C++ clears the member that is set, where the other was read before.
        if message.DESCRIPTOR.fields_by_name[name].containing_oneof is None or message.HasField(name):
            message.ClearField(name)
        return [which, "clear", path, name]
    return change_messages(chosen, messages, which, message, kind, path, what)


def change_messages(chosen, messages, which, message, kind, path, what):
    """A change that copies a message of the other whole one."""
    other, other_kind, other_path = way(chosen, messages[1 - which], "M")
    if other_kind != "Wheel":
        other, other_path = messages[1 - which].position, ["position"]
    other = type(other).FromString(other.SerializeToString())
    if what == "wheels":
        return [which, "wheels", path, other_path, *change_wheels(chosen, message.wheels, other)]
    name = chosen.choice(WHEELS[kind] if what == "copy" else WHEEL_MAPS[kind])
    if what == "copy":
        # CopyFrom of an empty message leaves an absent one absent: here it is there then.
        getattr(message, name).CopyFrom(other)
        getattr(message, name).SetInParent()
        return [which, "assign_part", path, name, other_path]
    key = chosen.choice(KEYS[name])
    getattr(message, name)[key].CopyFrom(other)
    return [which, "put_part", path, name, key, other_path]


def main(path, count, seed="1"):
    found = descriptor_pb2.FileDescriptorSet()
    with open(path, "rb") as it:
        found.ParseFromString(it.read())
    pool = descriptor_pool.DescriptorPool()
    for file in found.file:
        pool.Add(file)
    of, chosen = message_factory.MessageFactory(pool).GetPrototype(pool.FindMessageTypeByName("M")), random.Random(int(seed))
    messages = of(), of()
    for step in range(int(count)):
        if step % 150 == 149:
            messages = of(), of()
        made = [2, "new", []] if step % 150 == 149 else change(chosen, messages)
        print(json.dumps([made, [it.SerializeToString(deterministic=True).hex() for it in messages]]))


if __name__ == "__main__":
    main(*sys.argv[1:])
