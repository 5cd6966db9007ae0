"""An audit: how many points of each piece of a record's splits are exposed to a coalition, and which blocks no record names."""

from . import pieces
from .table import VOID


def is_exposed(rack, spots, group, column):
    """A column is known to a coalition that has it, or that has two columns of its group, or a parity column of it."""
    had = [spot for spot in spots if spot[0] == group]
    return (group, column) in had or len(had) >= 2 or any(its >= rack.columns for _, its in had)


def exposed_points(rack, spots, split, piece):
    """How many points of each fragment of a piece are exposed."""
    geometry = split.geometry
    counts = []
    for fragment in range(geometry.fragments):
        first = (piece * geometry.fragments + fragment) * geometry.shards
        places = split.places[first:first + geometry.shards]
        counts.append(sum(is_exposed(rack, spots, group, column) for group, column, _ in places))
    return counts


def lines(rack, spots, record):
    """A line for each split and piece of a record, and whether some piece has no fragment that is hidden."""
    texts, is_bare = [], False
    for number, split in enumerate(record.splits):
        for piece in range(pieces.count_pieces(record.length)):
            counts = exposed_points(rack, spots, split, piece)
            have, need = min(counts), split.geometry.need
            texts.append(b"veil %s %d %d %d %d %d\n" % (record.name, number, piece, counts.index(have) + 1, have, need))
            is_bare = is_bare or have >= need
    return b"".join(texts), is_bare


def loose_lines(rack, spots, tables, records):
    """A line for each exposed data column with slots that have a block and that no split of any record names."""
    named = {place for record in records for split in record.splits for place in split.places}
    texts = []
    for group in range(rack.groups):
        for column in range(rack.columns):
            if not is_exposed(rack, spots, group, column):
                continue
            count = sum(tables[group].state(stripe, column) != VOID and (group, column, stripe) not in named
                        for stripe in range(rack.stripes))
            if count > 0:
                texts.append(b"loose %d %d %d\n" % (group, column, count))
    return b"".join(texts)
