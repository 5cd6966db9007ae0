"""The entries of both logs: their kinds, their fields in order, and their bytes in an image."""

from collections import namedtuple

Entry = namedtuple("Entry", "kind job fields")

GROUP_KINDS = {
    "Put": (1, "stripe column digest digest flag"),
    "Skip": (2, "stripe"),
    "Seen": (3, "stripe column"),
    "Gone": (4, "stripe column"),
    "Broke": (5, "stripe column"),
    "Fault": (6, "stripe column"),
    "Begin": (7, "stripe column"),
    "Hop": (8, "stripe column"),
    "Mended": (9, "stripe column"),
    "GaveUp": (10, "stripe column column"),
    "Oddly": (11, "stripe column digest"),
    "Stuck": (12, "stripe column column"),
    "MoveBegin": (13, "column archive"),
    "Moved": (14, "stripe column flag"),
    "MoveEnd": (15, "column"),
    "Swapped": (16, "column archive"),
    "Counted": (17, ""),
    "Put2": (18, "stripe column digest digest digest flag flag"),
}

INDEX_KINDS = {
    "Reserve": (1, "name"),
    "Taken": (2, "name"),
    "Publish": (3, "name digest"),
    "Abandon": (4, "name"),
    "Find": (5, "name flag"),
    "Listed": (6, ""),
    "Renew": (7, "name digest"),
    "Often": (8, "name"),
}

MOST_ENTRIES = 262144


def field_bytes(sort, value):
    """A field of an entry as bytes."""
    if sort in ("stripe", "archive"):
        return value.to_bytes(4, "big")
    if sort in ("column", "flag"):
        return bytes([value])
    if sort == "name":
        return bytes([len(value)]) + value
    return value


def entry_bytes(entry, kinds):
    """An entry as bytes: its kind, its job and its fields."""
    kind, sorts = kinds[entry.kind]
    fields = b"".join(field_bytes(sort, value) for sort, value in zip(sorts.split(), entry.fields))
    return bytes([kind]) + entry.job.to_bytes(4, "big") + fields
