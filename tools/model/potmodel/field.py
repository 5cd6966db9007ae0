"""The field with 256 elements of FIPS 197, blocks as sums of weighted blocks, and polynomials over the field."""

from functools import lru_cache


def times(a, b):
    """The product of two bytes as polynomials, modulo z^8 + z^4 + z^3 + z + 1 (FIPS 197, 4.2)."""
    result = 0
    while b:
        if b & 1:
            result ^= a
        a <<= 1
        if a & 0x100:
            a ^= 0x11B
        b >>= 1
    return result


@lru_cache(maxsize=None)
def inverse(a):
    """The element whose product with a is 1; a is not 0."""
    return next(b for b in range(1, 256) if times(a, b) == 1)


@lru_cache(maxsize=None)
def power(exponent):
    """3 to this exponent: the weight of a data column in the second parity equation."""
    result = 1
    for _ in range(exponent):
        result = times(result, 3)
    return result


@lru_cache(maxsize=None)
def row_of(weight):
    """The products of each byte with the weight, as a table for `bytes.translate`."""
    return bytes(times(weight, byte) for byte in range(256))


def weighted(weight, block):
    """The weight times each byte of the block."""
    return block.translate(row_of(weight))


def add(first, second):
    """The XOR of two lists of one length, place by place."""
    total = int.from_bytes(first, "big") ^ int.from_bytes(second, "big")
    return total.to_bytes(len(first), "big")


def sum_of(blocks, length):
    """The XOR of blocks of this length; that of none is zeros."""
    total = 0
    for block in blocks:
        total ^= int.from_bytes(block, "big")
    return total.to_bytes(length, "big")


def weighted_sum(pairs, length):
    """The sum of weight times block over pairs of a weight and a block."""
    return sum_of((weighted(weight, block) for weight, block in pairs), length)


def lagrange(points, at):
    """The weights with which the values at distinct points give the value at another point of their polynomial."""
    weights = []
    for point in points:
        top, bottom = 1, 1
        for other in points:
            if other != point:
                top = times(top, at ^ other)
                bottom = times(bottom, point ^ other)
        weights.append(times(top, inverse(bottom)))
    return weights


def value_through(points, rows, at):
    """What the polynomials through the rows, one row for each point, are at a point: byte by byte."""
    return weighted_sum(zip(lagrange(points, at), rows), len(rows[0]))


def evaluate(coefficients, point):
    """The value of a polynomial, its constant term first."""
    result = 0
    for coefficient in reversed(coefficients):
        result = times(result, point) ^ coefficient
    return result


def coefficients_through(points, values):
    """The polynomial of degree below the number of points through these values, its constant term first."""
    total = [0] * len(points)
    for index, point in enumerate(points):
        basis, bottom = [1], 1
        for other in points:
            if other != point:
                basis = [high ^ low for high, low in zip([0] + basis, [times(other, b) for b in basis] + [0])]
                bottom = times(bottom, point ^ other)
        scale = times(values[index], inverse(bottom))
        total = [have ^ times(scale, new) for have, new in zip(total, basis)]
    return total


def vanishing(points):
    """The polynomial that is 1 at 0 and 0 at each point: the product of all 1 + x / point."""
    result = [1]
    for point in points:
        scale = inverse(point)
        result = [same ^ high for same, high in zip(result + [0], [0] + [times(scale, b) for b in result])]
    return result
