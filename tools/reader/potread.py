#!/usr/bin/env python3
"""Reads what a potshards archive holds, by docs/FORMATS.md alone: no other program of the repository is needed.

    potread.py FOLDER list             the names and lengths of all files
    potread.py FOLDER fetch NAME       a file, to standard output; bad blocks that it met are named on standard error
    potread.py FOLDER check            each block that the desk names and that is not as it was: status 1 where there is one
    potread.py FOLDER recover OUT      without the desk: each file that the blocks give, into the folder OUT under its id

FOLDER has `archive-0`, `archive-1` .. and, but for `recover`, `desk.pss` or `desk.psi`. Nothing in it is changed.
"""
import hashlib
import os
import sys
from collections import defaultdict, namedtuple
from itertools import accumulate, product
Shard = namedtuple("Shard", "x m n blur name pointer share")

def digest(data):
    return hashlib.sha256(data).digest()

def times(a, b):
    """The product of FIPS 197."""
    result = 0
    while b:
        result ^= a * (b & 1)
        a, b = a << 1 ^ (0x11B if a & 0x80 else 0), b >> 1
    return result

ROWS = [bytes(times(weight, byte) for byte in range(256)) for weight in range(256)]
INVERSE = [0] + [row.index(1) for row in ROWS[1:]]
POWERS = list(accumulate([1] + [3] * 15, times))

def weighted_sum(pairs, length):
    result = 0
    for weight, data in pairs:
        result ^= int.from_bytes(data.translate(ROWS[weight]), "big")
    return result.to_bytes(length, "big")

def value_at(x, points, shares):
    """What the polynomials through the shares are at x, byte by byte (Lagrange)."""
    weights = [1] * len(points)
    for at, other in product(range(len(points)), points):
        if points[at] != other:
            weights[at] = times(weights[at], times(x ^ other, INVERSE[points[at] ^ other]))
    return weighted_sum(zip(weights, shares), len(shares[0]))

def part_of(path, at, size):
    """Bytes of a file; fewer where it ends before, none where it is not there."""
    if not os.path.exists(path):
        return b""
    with open(path, "rb") as file:
        file.seek(at)
        return file.read(size)

def image_of(folder):
    """The image of desk.pss: of two open slots that of the greater generation; else desk.psi."""
    path, found = os.path.join(folder, "desk.pss"), []
    for slot in (0, 1):
        generation, length = (int.from_bytes(part_of(path, at + slot * 2 ** 30, 8).ljust(8, b"\0"), "big") for at in (4096, 4104))
        if part_of(path, slot, 1) == b"\1" and length <= 2 ** 30 - 4096:
            found.append((generation, -slot, part_of(path, 4112 + slot * 2 ** 30, length).ljust(length, b"\0")))
    return max(found)[2] if found else part_of(os.path.join(folder, "desk.psi"), 0, 2 ** 30)

class Desk:
    """What an image says: the slots by group, stripe and column, each with the archive that serves it, and the records."""
    def __init__(self, data):
        if len(data) < 48 or data[:4] != b"PSI1" or digest(data[:-32]) != data[-32:]:
            sys.exit("the desk's image is damaged")
        self.data, self.at, self.form = data, 20, data[7]
        self.groups, self.columns, *self.geometry = self.take(6)
        self.parity = self.take(2)[0] if self.form == 2 else self.number(2) + 1
        self.stripes = self.number(4)
        self.slots = [self.table() for _ in range(self.groups)]
        self.records = dict(self.record() for _ in range(self.number(4)))
    def take(self, size):
        self.at += size
        return self.data[self.at - size:self.at]
    def number(self, size):
        return int.from_bytes(self.take(size), "big")
    def table(self):
        """By stripe and column: the archive, and the digest of the block, None where the slot is Void."""
        self.take(8)
        homes = []
        for _ in range(self.columns + self.parity):
            home, is_moving, target, position = self.number(4), self.take(4)[0], self.number(4), self.number(4)
            homes.append((home, target, position if is_moving else 0))
        return [[(target if stripe < position else home, self.take(32) if self.number(1) else None)
                 for home, target, position in homes] for stripe in range(self.stripes)]
    def record(self):
        """A name, and the length, the digest, the geometry and the places of its current split."""
        name, length, wanted = self.take(self.number(1)).decode(), self.number(8), self.take(32)
        for _ in range(self.number(1) if self.form == 2 else 1):
            geometry = list(self.take(4)) if self.form == 2 else self.geometry
            count = max(1, -(-length // 864)) * geometry[0] * geometry[2]
            places = [(self.number(1), self.number(1), self.number(4)) for _ in range(count)]
        return name, (length, wanted, geometry, places)

def block_at(folder, archive, slot):
    """The block in a slot: byte slot * 1,025 is 1, and the block stands behind it."""
    data = part_of(os.path.join(folder, f"archive-{archive}"), slot * 1025, 1025)
    return data[1:] if len(data) == 1025 and data[0] == 1 else None

def good_block(folder, desk, group, column, stripe, bad):
    """The block of a slot if it is as it was; else the slot is one of the bad ones."""
    archive, wanted = desk.slots[group][stripe][column]
    block = block_at(folder, archive, stripe)
    if block is not None and digest(block) == wanted:
        return block
    bad.add(f"archive-{archive}, slot {stripe}: {'no block' if block is None else 'another block'} (group {group}, column {column})")
    return None

def rebuilt(folder, desk, group, column, stripe, bad):
    """The block of a slot by the others of its stripe, whose weighted sums are zero: one may be gone with it under two parities."""
    weights = [(1, POWERS[c]) for c in range(desk.columns)] + [(1, 0), (0, 1)][:desk.parity]
    held = {c: good_block(folder, desk, group, c, stripe, bad) for c, slot in enumerate(desk.slots[group][stripe]) if slot[1]}
    gone = [c for c, block in held.items() if block is None and c != column]
    sums = [weighted_sum([(weights[c][e], block) for c, block in held.items() if block], 1024) for e in range(desk.parity)]
    for pair in [(1, 0), (0, 1), weights[gone[0]][::-1] if gone else (0, 0)][:1 if desk.parity == 1 else 3]:
        mixed = [times(pair[0], first) ^ times(pair[1], second) for first, second in weights]
        if mixed[column] and not any(mixed[c] for c in gone):
            block = weighted_sum([(times(INVERSE[mixed[column]], pair[e]), total) for e, total in enumerate(sums)], 1024)
            return block if digest(block) == desk.slots[group][stripe][column][1] else None
    return None

def fetch(folder, desk, name, bad):
    """A file: any m shares give a content, the k parts of contents XOR to an object, and this has 864 bytes of the file."""
    length, wanted, (fragments, need, shards, _), places = desk.records[name]
    data = b""
    for first in range(0, len(places), fragments * shards):
        parts = []
        for begin in range(first, first + fragments * shards, shards):
            seen = {}
            for read in (good_block, rebuilt):
                for x, (group, column, stripe) in enumerate(places[begin:begin + shards], 1):
                    block = read(folder, desk, group, column, stripe, bad) if x not in seen and len(seen) < need else None
                    seen.update({x: block[32:]} if block else {})
            if len(seen) < need:
                sys.exit(f"{name}: too few blocks of piece {first // (fragments * shards)}")
            parts.append((1, value_at(0, list(seen), list(seen.values()))[64:]))
        data += weighted_sum(parts, 928)[64:]
    return data[:length] if digest(data[:length]) == wanted else sys.exit(f"{name}: the bytes have another digest")

def shard_of(block):
    x, m, n, blur = block[4:8]
    is_shard = block[:4] == b"PSH1" and 1 <= x <= n <= 16 and 1 <= m <= n and blur < 64 and not any(block[24:32])
    return Shard(x, m, n, blur, int.from_bytes(block[8:16], "big"), int.from_bytes(block[16:24], "big"), block[32:]) if is_shard else None

def contents_of(shards):
    """The contents of rings: n shards, each with a pointer to the next, whose shares are on polynomials of degree below m."""
    named = defaultdict(list)
    for shard in shards:
        named[shard[1:4], shard.x, shard.name >> shard.blur << shard.blur].append(shard)
    chains = [[shard] for shard in shards if shard.x == 1]
    while chains:
        chain = chains.pop()
        first, last, size = chain[0], chain[-1], len(chain)
        if size > last.m and value_at(size, range(1, last.m + 1), [s.share for s in chain[:last.m]]) != last.share:
            continue
        if size < last.n:
            chains += [chain + [after] for after in named[last[1:4], size + 1, last.pointer]]
        elif last.pointer == first.name >> first.blur << first.blur:
            content = value_at(0, range(1, last.m + 1), [s.share for s in chain[:last.m]])
            if content[32:64] == digest(content[:32] + content[64:]) and not any(content[18:32]):
                yield content

def recover(folder, out):
    """Writes the files that the blocks of all archives give, each under its id, where no piece is missing."""
    fragments, files = defaultdict(lambda: defaultdict(set)), defaultdict(dict)
    archives = [name[8:] for name in os.listdir(folder) if name.startswith("archive-")]
    blocks = {block_at(folder, archive, slot) for archive in archives for slot in range(4096)} - {None}
    for content in contents_of({shard_of(block) for block in blocks} - {None}):
        fragments[content[:16], content[17]][content[16]].add(content[64:])
    for (_, count), numbers in fragments.items():
        for parts in product(*(numbers[j] for j in range(1, count + 1))):
            data = weighted_sum([(1, part) for part in parts], 928)
            if data[32:64] == digest(data[:32] + data[64:]):
                files[data[:16] + data[20:32]][int.from_bytes(data[16:20], "big")] = data[64:]
    for head, parts in sorted(files.items()):
        pieces, length = int.from_bytes(head[16:20], "big"), int.from_bytes(head[20:], "big")
        print(head[:16].hex(), length if len(parts) == pieces else "a piece is missing")
        if len(parts) == pieces:
            open(os.path.join(out, head[:16].hex()), "wb").write(b"".join(parts[i] for i in range(pieces))[:length])

def main(folder, command, *rest):
    if command == "recover":
        return recover(folder, *rest)
    desk, bad = Desk(image_of(folder)), set()
    if command == "list":
        print("".join(f"{name} {record[0]}\n" for name, record in sorted(desk.records.items())), end="")
    elif command == "fetch":
        sys.stdout.buffer.write(fetch(folder, desk, rest[0], bad))
    else:
        for group, stripe, column in product(range(desk.groups), range(desk.stripes), range(desk.columns + desk.parity)):
            if desk.slots[group][stripe][column][1]:
                good_block(folder, desk, group, column, stripe, bad)
    print("".join(line + "\n" for line in sorted(bad)), end="", file=sys.stderr if command == "fetch" else sys.stdout)
    return 1 if bad and command == "check" else 0

if __name__ == "__main__":
    sys.exit(main(*sys.argv[1:]) if len(sys.argv) > 2 and sys.argv[2] in ("list", "fetch", "check", "recover") else __doc__)
