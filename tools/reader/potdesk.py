#!/usr/bin/env python3
"""Joins shares of a desk, by docs/FORMATS.md alone: no other program of the repository is needed.

    potdesk.py OUT SHARE..          the newest image of which enough shares are among these files, into the new file OUT
    potdesk.py --make NEED COUNT GENERATION TEXT RANDOM
                                    the shares of a text by random bytes, all as hexadecimal digits, one a line

A share that is damaged is named on standard error and left out. Status 1 where no image is given.
"""
import hashlib
import os
import struct
import sys
from collections import namedtuple
from itertools import combinations
Share = namedtuple("Share", "need count point generation set length body")
HEAD = ">5sBBBQQQ"
MAGIC = b"PDSH\x01"

def digest(data):
    return hashlib.sha256(data).digest()

def times(a, b):
    """The product of FIPS 197."""
    result = 0
    while b:
        result ^= a * (b & 1)
        a, b = a << 1 ^ (0x11B if a & 0x80 else 0), b >> 1
    return result

ROWS = [bytes(times(weight, byte) for byte in range(256)) for weight in range(256)]
INVERSE = [0] + [row.index(1) for row in ROWS[1:]]

def add(pairs, length):
    """The XOR of each text times its weight."""
    result = 0
    for weight, data in pairs:
        result ^= int.from_bytes(data.translate(ROWS[weight]), "big")
    return result.to_bytes(length, "big")

def at_zero(shares):
    """The values at 0 of the polynomials through these shares (Lagrange)."""
    pairs = []
    for share in shares:
        weight = 1
        for other in shares:
            if other.point != share.point:
                weight = times(weight, times(other.point, INVERSE[other.point ^ share.point]))
        pairs.append((weight, share.body))
    return add(pairs, len(shares[0].body))

def share_in(data):
    if len(data) < 64 or digest(data[:-32]) != data[-32:]:
        return None
    magic, need, count, point, generation, number, length = struct.unpack(HEAD, data[:32])
    share = Share(need, count, point, generation, number, length, data[32:-32])
    rules = (magic == MAGIC, 1 <= need <= count <= 16, 1 <= point <= count, length <= 2**30, len(share.body) == length + 32)
    return share if all(rules) else None

def joined(shares):
    """The newest text that some `need` of the shares of a set give, with its digest behind it."""
    sets = {}
    for share in shares:
        sets.setdefault(share._replace(point=0, body=b""), {}).setdefault(share.point, share)
    for key in sorted(sets, key=lambda k: -k.generation):
        points = sets[key]
        print(f"generation {key.generation}: {len(points)} of {key.need} shares", file=sys.stderr)
        for some in combinations(points.values(), key.need):
            whole = at_zero(some)
            if digest(whole[:-32]) == whole[-32:]:
                return whole[:-32]
    return None

def make(need, count, generation, text, random):
    secret = text + digest(text)
    number, rows = random[:8], random[8:]
    assert len(rows) == (need - 1) * len(secret)
    for point in range(1, count + 1):
        power, pairs = 1, [(1, secret)]
        for row in range(need - 1):
            power = times(power, point)
            pairs.append((power, rows[row * len(secret):(row + 1) * len(secret)]))
        head = MAGIC + bytes([need, count, point]) + generation.to_bytes(8, "big") + number + len(text).to_bytes(8, "big")
        front = head + add(pairs, len(secret))
        print((front + digest(front)).hex())

def main(args):
    if args[:1] == ["--make"]:
        return make(*map(int, args[1:4]), *map(bytes.fromhex, args[4:6]))
    shares = []
    for name in args[1:]:
        with open(name, "rb") as file:
            share = share_in(file.read())
        if share is None:
            print(f"{name}: no share", file=sys.stderr)
        else:
            shares.append(share)
    text = joined(shares)
    if text is None:
        return 1
    with open(os.open(args[0], os.O_WRONLY | os.O_CREAT | os.O_EXCL, 0o600), "wb") as out:
        out.write(text)

if __name__ == "__main__":
    if len(sys.argv) < 3:
        sys.exit(__doc__)
    sys.exit(main(sys.argv[1:]))
