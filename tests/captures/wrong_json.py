"""Wrong values of each schema: `json-schemas` checks that they are refused.

A sample is a value that the program prints, with one element if it is an array. Each object of it
is changed: a member is missing or of another type, a word, a text or a number is out of range, or
there is one member more. What is out of range is in wrong_members.py.
"""
import copy
import sys

from wrong_members import FREE, NULLABLE, OF_EACH_TYPE, OPTIONAL, WRONG


def objects(value, path=()):
    """Each object of a value, and the path to it."""
    if isinstance(value, dict):
        yield path, value
    for key, part in value.items() if isinstance(value, dict) else enumerate(value):
        if isinstance(part, (dict, list)):
            yield from objects(part, (*path, key))


def with_object(sample, path, changed):
    """A copy of the sample with another object at the end of this path."""
    if not path:
        return changed
    value = copy.copy(sample)
    value[path[0]] = with_object(sample[path[0]], path[1:], changed)
    return value


def of_type(schema, member, it):
    """Values of the types that a member does not have; for a text one that is no word of it."""
    for other in OF_EACH_TYPE:
        is_same = type(other) is type(it[member]) and not isinstance(other, str)
        is_free = isinstance(other, str) and (schema, member) in FREE
        is_null = other is None and (schema, member, it.get("key")) in NULLABLE
        if not (is_same or is_free or is_null):
            yield other


def changed_members(schema, it):
    """An object with a member more, without one, or with one of another type, and what it is."""
    yield "a member more", {**it, "more": 1}
    for member in it:
        if (schema, member) not in OPTIONAL:
            yield f"no {member}", {key: value for key, value in it.items() if key != member}
        for other in of_type(schema, member, it):
            yield f"{member}: {other!r}", {**it, member: other}


def is_meant(it, wanted):
    """Whether an object has these members: with this value, any (...), or not at all (None)."""
    return all(
        (value is None) == (key not in it) and (value in (None, ...) or it[key] == value)
        for key, value in wanted.items()
    )


def out_of_range(schema, it, used):
    """An object with the wrong values above; each row is used for the first object it means."""
    for row, (member, wanted, values) in enumerate(WRONG[schema]):
        if row not in used and member in it and is_meant(it, wanted):
            used.add(row)
            yield from ((f"{member}: {value!r}", {**it, member: value}) for value in values)


def wrong_wholes(samples):
    """An element without its array, an array around an object, and routes of only one failure."""
    for sample in samples:
        yield "not an array", sample[0] if isinstance(sample, list) else [sample]
        if isinstance(sample, list) and {"failure", "routes"} <= set(sample[0]):
            without = {key: value for key, value in sample[0].items() if key != "routes"}
            yield "routes of only one failure", [sample[0], without]
    yield from (("another value", value) for value in OF_EACH_TYPE)


def wrong_values(schema, samples):
    """All that must be refused, each with what is wrong."""
    used = set()
    yield from wrong_wholes(samples)
    for sample in samples:
        for path, it in objects(sample):
            for what, changed in [*changed_members(schema, it), *out_of_range(schema, it, used)]:
                yield what, with_object(sample, path, changed)
            if path and isinstance(path[-1], int):
                yield from (
                    (f"{other!r} at {path}", with_object(sample, path, other))
                    for other in OF_EACH_TYPE
                )
    left = [WRONG[schema][row][:2] for row in range(len(WRONG[schema])) if row not in used]
    if left:
        sys.exit(f"{schema}: no sample has {left}")
