"""A drill: two files of one length, and the random bytes with which the second has the seen blocks of the first."""

import re

from . import field, pieces
from .stream import Stream

LONGEST_SOURCE = 1769481
LENGTH = re.compile(rb"(0|[1-9][0-9]{0,5})\n")


def read_pair(data):
    """The two files of a source, or None where it is of another form."""
    found = LENGTH.match(data)
    if not found:
        return None
    length, at = int(found[1]), found.end()
    first, second = data[at:at + length], data[at + length + 1:at + 2 * length + 1]
    wanted = found[0] + first + b"\n" + second + b"\n"
    return (first, second) if length <= pieces.LONGEST and data == wanted and len(second) == length else None


def report(pair, geometry, hidden, seen, seed):
    """The status, and what the drill over two files says."""
    if len(seen) >= geometry.need:
        return 1, b"exposed %d %d %d\n" % (hidden, len(seen), geometry.need)
    random = Stream(seed, 0, 0).take(pieces.random_length(len(pair[0]), geometry))
    other = explained(pair[0], pair[1], geometry, hidden, seen, random)
    blocks = seen_blocks(pair[0], geometry, hidden, seen, random)
    assert blocks == seen_blocks(pair[1], geometry, hidden, seen, other)
    text = b"explained %d %d %d\n" % (len(pair[0]), pieces.count_pieces(len(pair[0])), len(blocks))
    return 0, text + b"digest " + pieces.digest(b"".join(blocks)).hex().encode() + b"\n"


def seen_blocks(data, geometry, hidden, seen, random):
    """The blocks at the seen points of the hidden fragment and at all points of the others, by piece, fragment and point."""
    blocks = pieces.blocks_of(data, geometry, pieces.Cutter(random))
    kept = []
    for index, block in enumerate(blocks):
        fragment, point = index // geometry.shards % geometry.fragments + 1, index % geometry.shards + 1
        if fragment != hidden or point in seen:
            kept.append(block)
    return kept


def explained(first, second, geometry, hidden, seen, random):
    """The random bytes with which the second file gives what is seen of the first, piece by piece."""
    size, parts = pieces.piece_length(geometry), [random[:16]]
    for piece in range(pieces.count_pieces(len(first))):
        begin = 16 + piece * size
        objects = [pieces.object_of(random[:16], data, piece) for data in (first, second)]
        parts.append(explained_piece(objects, geometry, hidden, seen, random[begin:begin + size]))
    return b"".join(parts)


def explained_piece(objects, geometry, hidden, seen, random):
    """The random bytes of a piece: the XOR of both objects goes to the hidden pad, and to the coefficients of its fragment."""
    out = bytearray(random)
    change = field.add(*objects)
    pads = [random[16 + at * pieces.OBJECT:16 + (at + 1) * pieces.OBJECT] for at in range(geometry.fragments - 1)]
    before = pieces.fragments_of(objects[0], pads)[hidden - 1]
    after = field.add(before, change)
    if hidden < geometry.fragments:
        begin = 16 + (hidden - 1) * pieces.OBJECT
        out[begin:begin + pieces.OBJECT] = after
    head = (random[:16], hidden, geometry.fragments)
    difference = field.add(pieces.content_of(*head, before), pieces.content_of(*head, after))
    first = 16 + (geometry.fragments - 1) * pieces.OBJECT
    first += (hidden - 1) * ((geometry.need - 1) * pieces.CONTENT + 8 * geometry.shards)
    for power, factor in enumerate(field.vanishing(seen)[1:]):
        begin = first + power * pieces.CONTENT
        row = field.add(bytes(out[begin:begin + pieces.CONTENT]), field.weighted(factor, difference))
        out[begin:begin + pieces.CONTENT] = row
    return bytes(out)
