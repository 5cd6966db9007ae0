"""Recovery without the desk: rings by their pointers, the contents that they close with, and the objects of these."""

from collections import defaultdict
from itertools import combinations, product

from . import field, pieces

MOST = 4000000

# Where the work is bounded, so many chains are followed over so many blocks, by the way.
BOUNDS = {"rings": (65536, 2), "robust": (4096, 2), "open": (65536, 17)}


class Wide(Exception):
    """There are more chains or choices than the limit."""


def shards_of(blocks, blur):
    """The distinct shards of this blur among blocks."""
    found = {pieces.read_shard(block) for block in set(blocks)}
    return [shard for shard in found if shard is not None and shard.blur == blur]


def by_kind(shards):
    """The shards by m and n, and in each by point and by the blur of their names."""
    kinds = defaultdict(lambda: defaultdict(lambda: defaultdict(list)))
    for shard in shards:
        kinds[shard.m, shard.n][shard.x][pieces.blurred(shard.name, shard.blur)].append(shard)
    return kinds


def count_chains(shards, way):
    """How many lists of 1 to m shards begin at x = 1 and are linked; of 1 to n where shares may be wrong, from each x on where
    chains may be open."""
    if way == "open":
        return sum(1 for (need, size), points in by_kind(shards).items() for _ in open_chains(points, size, need))
    is_robust, total = way == "robust", 0
    for (need, size), points in by_kind(shards).items():
        ends = {shard: 1 for named in points[1].values() for shard in named}
        total += sum(ends.values())
        for x in range(2, (size if is_robust else need) + 1):
            by_pointer = defaultdict(int)
            for shard, count in ends.items():
                by_pointer[shard.pointer] += count
            ends = {after: count for pointer, count in by_pointer.items() for after in points[x].get(pointer, ())}
            total += sum(ends.values())
    return total


def rings(points, size, most):
    """Chains of this many shards from x = 1 on, each linked to the next; the last to the first where the ring is whole."""
    stack = [(shard,) for named in points[1].values() for shard in named]
    while stack:
        chain = stack.pop()
        if len(chain) < most:
            stack += [chain + (after,) for after in points[len(chain) + 1].get(chain[-1].pointer, ())]
        elif len(chain) < size or chain[-1].pointer == pieces.blurred(chain[0].name, chain[0].blur):
            yield chain


def head_key(share, weight):
    """What a share adds to bytes 18 to 31 of a content, which are zeros."""
    return field.weighted(weight, share[18:32])


def closed_contents(points, need, size):
    """The contents with which rings close, all n shares on one polynomial of degree below m."""
    weights = field.lagrange(range(1, need + 1), 0)
    last = defaultdict(lambda: defaultdict(list))
    for blurred, named in points[need].items():
        for shard in named:
            for pointer in (blurred, None):
                last[pointer, head_key(shard.share, weights[-1])][shard.share].append(shard)
    for front in rings(points, size, need - 1) if need > 1 else [()]:
        wanted = field.sum_of([head_key(s.share, w) for s, w in zip(front, weights)], 14)
        for share, ends in last.get((front[-1].pointer if front else None, wanted), {}).items():
            content = content_of(tuple(s.share for s in front) + (share,), weights)
            for end in ends if content else ():
                if goes_round(points, size, front + (end,)):
                    yield content
                    break


def content_of(shares, weights):
    """The content that shares are joined to, or None where it leaves the grammar."""
    if not 2 <= field.weighted_sum(zip(weights, [share[17:18] for share in shares]), 1)[0] <= 8:
        return None
    content = field.weighted_sum(zip(weights, shares), pieces.CONTENT)
    return content if pieces.read_content(content) else None


def goes_round(points, size, chain):
    """Whether shards on the polynomial of a chain lead from its end back to its beginning."""
    need, ends = len(chain), {chain[-1]}
    shares = [shard.share for shard in chain]
    for x in range(need + 1, size + 1):
        wanted = field.value_through(range(1, need + 1), shares, x)
        ends = {after for shard in ends for after in points[x].get(shard.pointer, ()) if after.share == wanted}
    return any(end.pointer == pieces.blurred(chain[0].name, chain[0].blur) for end in ends)


def open_chains(points, size, need):
    """Chains of 1 to m shards from each point on, the point after n being 1."""
    stack = [(shard,) for x in range(1, size + 1) for named in points[x].values() for shard in named]
    while stack:
        chain = stack.pop()
        yield chain
        if len(chain) < need:
            stack += [chain + (after,) for after in points[chain[-1].x % size + 1].get(chain[-1].pointer, ())]


def open_contents(points, need, size):
    """The contents that open chains of m shards mean."""
    for chain in open_chains(points, size, need):
        if len(chain) == need:
            content = content_of([shard.share for shard in chain], field.lagrange([shard.x for shard in chain], 0))
            if content:
                yield content


def robust_contents(points, need, size):
    """The contents with which rings close robustly."""
    for ring in rings(points, size, size):
        if ring[-1].pointer != pieces.blurred(ring[0].name, ring[0].blur):
            continue
        content = robust_join([shard.share for shard in ring], need)
        if content is not None and pieces.read_content(content):
            yield content


def robust_join(shares, need):
    """The constant terms of the robust polynomials at each place, or None where a place has none."""
    size = len(shares)
    wrong = (size - need) // 2
    content, left = bytearray(len(shares[0])), set(range(len(shares[0])))
    for chosen in combinations(range(1, size + 1), need):
        rows = [shares[x - 1] for x in chosen]
        values = [field.value_through(chosen, rows, x) for x in range(1, size + 1)]
        constant = field.value_through(chosen, rows, 0)
        for place in list(left):
            if sum(value[place] == share[place] for value, share in zip(values, shares)) >= size - wrong:
                content[place] = constant[place]
                left.discard(place)
        if not left:
            return bytes(content)
    return None


CONTENTS = {"rings": closed_contents, "robust": robust_contents, "open": open_contents}


def most_chains(count, way, is_bounded):
    """How many chains are followed over so many blocks."""
    least, each = BOUNDS[way]
    return min(MOST, least + each * count) if is_bounded else MOST


def recover(blocks, blur, way="rings", is_bounded=False):
    """The objects that blocks give, in byte order and each once."""
    shards = shards_of(blocks, blur)
    if count_chains(shards, way) > most_chains(len(blocks), way, is_bounded):
        raise Wide()
    closed = set()
    for (need, size), points in by_kind(shards).items():
        closed.update(CONTENTS[way](points, need, size))
    return sorted(objects_of(closed))


def objects_of(closed):
    """The objects that are the XOR of a closed fragment of each number."""
    fragments = defaultdict(lambda: defaultdict(list))
    for content in closed:
        object_id, at, count = pieces.read_content(content)
        fragments[object_id, count][at].append(content[64:])
    whole = [[numbers[at] for at in range(1, count + 1)] for (_, count), numbers in fragments.items() if len(numbers) == count]
    choices = 0
    for lists in whole:
        ways = 1
        for listed in lists:
            ways *= len(listed)
        choices += ways
    if choices > MOST:
        raise Wide()
    found = {field.sum_of(chosen, pieces.OBJECT) for lists in whole for chosen in product(*lists)}
    return {data for data in found if pieces.read_object(data)}


def listing(objects):
    """The status, and the texts that are written of objects in byte order."""
    heads = [pieces.read_object(data) for data in objects]
    texts = [b"objects %d\n" % len(objects)]
    for file_id, piece, count, length in heads:
        texts.append(b"object %s %d %d %d\n" % (file_id.hex().encode(), piece, count, length))
    files = {}
    for data, (file_id, piece, count, length) in zip(objects, heads):
        files.setdefault((file_id, count, length), {}).setdefault(piece, data)
    status = 0
    for (file_id, count, length), parts in files.items():
        missing = [piece for piece in range(count) if piece not in parts]
        if missing:
            status = 1
            texts.append(b"partial %s %d\n" % (file_id.hex().encode(), missing[0]))
        else:
            whole = b"".join(parts[piece][64:] for piece in range(count))[:length]
            texts.append(b"file %s %d\n" % (file_id.hex().encode(), length) + whole + b"\n")
    return status, texts
