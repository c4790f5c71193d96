"""Changes of messages by dicts, lists, maps and messages.

What has several parts is put into an empty message first. So where a part is refused, the message to be changed is as it was.
"""
from collections.abc import Mapping

MESSAGES = "message", "group"


def is_message(field):
    return field.kind in MESSAGES


def is_instance_of_message(value):
    return hasattr(type(value), "encoded_length")


def taken(field, value):
    """A value whose parts are read once, and may be read again."""
    if field.shape == "list":
        if isinstance(value, (str, bytes, bytearray, Mapping)) or not hasattr(value, "__iter__") and not hasattr(value, "__getitem__"):
            raise TypeError(f"{field.full_name} takes a list, and not {type(value).__name__}")
        return [taken_message(field, it) for it in value] if is_message(field) else list(value)
    if field.shape == "map":
        if not hasattr(value, "keys"):
            raise TypeError(f"{field.full_name} takes a dict, and not {type(value).__name__}")
        found = dict(value)
        return {key: taken_message(field, it) for key, it in found.items()} if is_message(field) else found
    return taken_message(field, value)


def taken_message(field, value):
    """A dict, or a message with unknown records that is changed by no one else."""
    if is_instance_of_message(value):
        if value.type is not field.type:
            raise TypeError(f"{field.full_name} takes a {field.type.name}, and not a {value.type.name}")
        # A dict has no unknown records: where there are some, a copy is put there by its bytes.
        kept = value.copy()
        fields = kept.to_dict()
        return fields if from_dict(kept.type, fields).encoded_length() == kept.encoded_length() else kept
    if not hasattr(value, "keys"):
        raise TypeError(f"{field.full_name} takes a message of {field.type.name} or a dict of its fields, and not {type(value).__name__}")
    return dict(value)


def put(message, values):
    """Sets fields of an empty message by a dict of them, or makes it equal to another message."""
    if is_instance_of_message(values):
        message._fill(values.encode())
        return
    if not isinstance(values, Mapping):
        raise TypeError(f"a message of {message.type.name} is given as a dict of its fields or as a message, and not as {type(values).__name__}")
    members = {}
    for name, value in values.items():
        field = message.type.field(name)
        other = members.setdefault(field.oneof, field) if field.oneof else field
        if other is not field:
            raise ValueError(f"{other.full_name} and {field.full_name} are both of the oneof {field.oneof}, which holds one")
        fill(message, field, value)


def fill(message, field, value):
    """Puts a value into a field that is not set."""
    value = taken(field, value) if field.shape in ("list", "map") else value
    if field.shape == "list":
        values = message[field]
        for it in value:
            put(values._make(), it) if is_message(field) else values.append(it)
    elif field.shape == "map":
        entries = message[field]
        for key, it in value.items():
            if is_message(field):
                put(entries._make(key), it)
            else:
                entries[key] = it
    elif is_message(field):
        put(message._make(field), taken_message(field, value))
    else:
        message[field] = value


def set_field(message, field, value):
    """Sets a list, a map or a message."""
    value = taken(field, value)
    fill(message.type(), field, value)
    del message[field]
    fill(message, field, value)


def append(values, message_type, value):
    value = taken_message(values.field, value)
    put(message_type(), value)
    put(values._make(), value)


def extend(values, more):
    more = list(more)
    if is_message(values.field):
        more = [taken_message(values.field, it) for it in more]
        for it in more:
            put(values.field.type(), it)
    for it in more:
        values.append(it)


def put_entry(entries, message_type, pair):
    key, value = pair
    value = taken_message(entries.field, value)
    put(message_type(), value)
    put(entries._make(key), value)


def set_message(values, index, value):
    """Puts a message in place of one in a list."""
    value = taken_message(values.field, value)
    put(values.field.type(), value)
    put(values._make_at(index), value)


def delete_slice(values, part):
    for index in sorted(range(*part.indices(len(values))), reverse=True):
        del values[index]


def set_slice(values, part, more):
    """Puts other values in place of those of a slice."""
    field = values.field
    more = taken(field, more)
    fill(field.owner(), field, more)
    at, stop, step = part.indices(len(values))
    if step == 1:
        delete_slice(values, slice(at, max(at, stop)))
        for it in more:
            values.append(it)
        values._move(at, len(more))
        return
    indices = range(at, stop, step)
    if len(indices) != len(more):
        raise ValueError(f"{len(more)} values are no {len(indices)}, as many as the slice of {field.full_name} has")
    for index, it in zip(indices, more):
        values[index] = it


def plain_dict(entries):
    return dict(entries.items())


def from_dict(message_type, values):
    message = message_type()
    put(message, values)
    return message
