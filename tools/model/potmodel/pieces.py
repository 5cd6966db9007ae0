"""A file in pieces: objects, fragments, contents, shares and shard blocks, and the way back."""

from collections import namedtuple
from hashlib import sha256

from . import field

LONGEST = 884736
PART = 864
OBJECT = 928
CONTENT = 992
BLOCK = 1024
MOST_PIECES = 1024

Geometry = namedtuple("Geometry", "fragments need shards blur")
Shard = namedtuple("Shard", "x m n blur name pointer share")


def digest(data):
    """SHA-256 of FIPS 180-4."""
    return sha256(data).digest()


def number(value, size):
    """A number with its highest byte first."""
    return value.to_bytes(size, "big")


def count_pieces(length):
    """How many pieces a file of this length has: an empty file has one."""
    return max(1, -(-length // PART))


def piece_length(geometry):
    """How many random bytes a piece takes: its object's id, the pads, and for each fragment coefficients and names."""
    k, m, n, _ = geometry
    return 16 + (k - 1) * OBJECT + k * ((m - 1) * CONTENT + 8 * n)


def random_length(length, geometry):
    """How many random bytes a file of this length takes: those of its pieces behind its id."""
    return 16 + count_pieces(length) * piece_length(geometry)


def object_of(file_id, data, piece):
    """The object of a piece: a head, the digest of all but itself, and the part with zeros behind it."""
    part = data[piece * PART:(piece + 1) * PART]
    head = file_id + number(piece, 4) + number(count_pieces(len(data)), 4) + number(len(data), 8)
    part = part + bytes(PART - len(part))
    return head + digest(head + part) + part


def read_object(data):
    """The head of an object (file id, piece, pieces, length), or None where the bytes leave the grammar."""
    file_id, piece = data[:16], int.from_bytes(data[16:20], "big")
    pieces, length = int.from_bytes(data[20:24], "big"), int.from_bytes(data[24:32], "big")
    if length > LONGEST or pieces != count_pieces(length) or piece >= pieces:
        return None
    if data[32:64] != digest(data[:32] + data[64:]):
        return None
    kept = min(PART, length - piece * PART)
    return (file_id, piece, pieces, length) if not any(data[64 + kept:]) else None


def content_of(object_id, fragment_number, fragments, part):
    """The content of a fragment; fragments are numbered from 1."""
    head = object_id + bytes([fragment_number, fragments]) + bytes(14)
    return head + digest(head + part) + part


def read_content(data):
    """The head of a content (object id, fragment's number, fragments), or None where it leaves the grammar."""
    fragment_number, fragments = data[16], data[17]
    if not 2 <= fragments <= 8 or not 1 <= fragment_number <= fragments or any(data[18:32]):
        return None
    return (data[:16], fragment_number, fragments) if data[32:64] == digest(data[:32] + data[64:]) else None


def blurred(name, bits):
    """A name without its low bits."""
    return name >> bits << bits


def block_of(shard):
    """The block of a shard."""
    head = b"PSH1" + bytes([shard.x, shard.m, shard.n, shard.blur])
    return head + number(shard.name, 8) + number(shard.pointer, 8) + bytes(8) + shard.share


def read_shard(block):
    """The shard of a block, or None where it leaves the grammar."""
    x, m, n, blur = block[4:8]
    name, pointer = int.from_bytes(block[8:16], "big"), int.from_bytes(block[16:24], "big")
    if block[:4] != b"PSH1" or any(block[24:32]) or not 1 <= n <= 16 or not 1 <= x <= n or not 1 <= m <= n or blur > 63:
        return None
    return Shard(x, m, n, blur, name, pointer, block[32:]) if pointer == blurred(pointer, blur) else None


def share_of(content, rows, point):
    """The share at a point: at each place the polynomial whose constant term is the content's byte."""
    power, pairs = 1, []
    for row in rows:
        power = field.times(power, point)
        pairs.append((power, row))
    return field.add(content, field.weighted_sum(pairs, len(content)))


class Cutter:
    """Hands out random bytes in order."""

    def __init__(self, random):
        self.random, self.at = random, 0

    def take(self, count):
        """The next bytes."""
        self.at += count
        return self.random[self.at - count:self.at]


def fragments_of(piece_object, pads):
    """The fragments of an object: the pads, and the XOR of the object with all of them."""
    return pads + [field.sum_of(pads + [piece_object], OBJECT)]


def ring_of(content, geometry, random):
    """The blocks of a fragment, in the order of their points: coefficients first, then the names of a ring."""
    rows = [random.take(CONTENT) for _ in range(geometry.need - 1)]
    names = [int.from_bytes(random.take(8), "big") for _ in range(geometry.shards)]
    blocks = []
    for index, name in enumerate(names):
        pointer = blurred(names[(index + 1) % len(names)], geometry.blur)
        share = share_of(content, rows, index + 1)
        blocks.append(block_of(Shard(index + 1, geometry.need, geometry.shards, geometry.blur, name, pointer, share)))
    return blocks


def piece_blocks(piece_object, geometry, random):
    """The blocks of a piece, by fragment and point."""
    object_id = random.take(16)
    pads = [random.take(OBJECT) for _ in range(geometry.fragments - 1)]
    blocks = []
    for index, fragment in enumerate(fragments_of(piece_object, pads)):
        blocks += ring_of(content_of(object_id, index + 1, geometry.fragments, fragment), geometry, random)
    return blocks


def blocks_of(data, geometry, random):
    """All blocks of a file, by piece, fragment and point; `random` hands out its random bytes."""
    file_id = random.take(16)
    blocks = []
    for piece in range(count_pieces(len(data))):
        blocks += piece_blocks(object_of(file_id, data, piece), geometry, random)
    return blocks


def group_of(index, shards, groups):
    """The group of a file's block of this number, numbered by piece, fragment and point."""
    return (index // shards + index % shards) % groups


def joined(points, shares):
    """The content that shares at these points are joined to."""
    return field.value_through(points, shares, 0)


def part_of(contents):
    """The part of a file in a piece whose contents these are, with what stands behind it; nothing is decoded."""
    return field.sum_of([content[64:] for content in contents], OBJECT)[64:]
