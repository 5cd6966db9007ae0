"""Values that the repository says were computed apart from the crates, each with a name and where it stands."""

from . import bench, drill, field, generator, pieces
from .entries import GROUP_KINDS, INDEX_KINDS, Entry
from .image import Image, Rack, write_image
from .index import Record, Split
from .pieces import Geometry
from .stream import Stream
from .table import BROKEN, LIVE, LOST, VOID, Relay, Table


def polynomial_at(coefficients, points):
    """The values of a polynomial as hexadecimal digits."""
    return bytes(field.evaluate(coefficients, point) for point in points).hex()


def small_image(form):
    """The image of session 5 of one group with one data column and one stripe, in a format."""
    image = Image.empty(Rack(1, 1, 1, 1, Geometry(2, 1, 1, 0)))
    image.session = 5
    return write_image(image, form)


def rising(length, period):
    """The bytes 0, 1, .. that begin again at a period."""
    return bytes(at % period for at in range(length))


def squares(length):
    """Byte i is i^2 + 7 i modulo 251."""
    return bytes((at * at + 7 * at) % 251 for at in range(length))


def stream_bytes(session, job):
    """Bytes 301 to 308 of a stream of the seed 0, 1, .. 31, the first byte being number 0."""
    return Stream(rising(32, 32), session, job).take(309)[301:].hex()


def block_digests(geometry, data):
    """The first four bytes of the digest of each block of a file, whose random bytes are `squares`."""
    random = pieces.Cutter(squares(pieces.random_length(len(data), geometry)))
    return b"".join(pieces.digest(block)[:4] for block in pieces.blocks_of(data, geometry, random)).hex()


def head_values():
    """The first 64 bytes of an object and of a content."""
    piece = pieces.object_of(bytes(range(0xA0, 0xB0)), rising(1000, 251), 1)
    content = pieces.content_of(bytes(range(0x10, 0x20)), 3, 5, rising(928, 253))
    place = "crates/pot_object/src/tests.rt"
    return [("object a0..af of piece 1 of 0, 1, .. 250, 0, ..: 1,000 bytes", place, piece[:64].hex()),
            ("content 3 of 5 of object 10..1f, of the bytes 0, 1, .. 252, 0, ..", place, content[:64].hex())]


def block_values():
    """The digests of all blocks of three files."""
    files = [(Geometry(2, 1, 1, 0), b""), (Geometry(2, 2, 3, 16), rising(865, 256)), (Geometry(3, 3, 4, 63), rising(3, 256))]
    name = "digests of the blocks of %d bytes: k %d, m %d, n %d, blur %d"
    return [(name % ((len(data),) + geometry), "crates/pot_shard/src/block_tests.rt", block_digests(geometry, data)) for geometry, data in files]


def bench_values():
    """What `pot_bench` prints, and how many bytes SHA-256 is given for each byte of ten files."""
    lines = [(f"{line.rsplit(' ', 1)[0]}, its checksum", "crates/pot_bench/stdout", line) for line in bench.lines()]
    return lines + [(f"bytes for SHA-256 of a byte, {name}", "docs/PERFORMANCE.md", ratio) for name, ratio in bench.bytes_digested(10)]


def full_tables(rack):
    """The tables of `full_image`. The digest of a slot is that of its row, counted on over the groups, and its column: 0, 1, p or q."""
    tables = [Table(2, rack.parity, 2, range(first, first + 2 + rack.parity)) for first in (0, 10)]
    tables[0].cursor, tables[1].cursor = (1, 1), (2, 0)
    tables[0].columns[0].to, tables[0].columns[0].upto = 500, 1
    states = {(0, 0, 1): LOST, (0, 0, 3): LOST, (0, 1, 1): VOID, (0, 1, 2): BROKEN, (1, 1, 1): VOID}
    for group, table in enumerate(tables):
        for stripe in range(2):
            for column in range(table.width):
                state = states.get((group, stripe, column), LIVE)
                named = f"{2 * group + stripe}{'01pq'[column]}".encode()
                table.slots[stripe][column] = (state, None if state == VOID else pieces.digest(named))
    return tables


def full_records(rack, form):
    """The records of `full_image`: of `hello` and, in format 2, of a file without bytes."""
    alone = Geometry(2, 1, 1, 0)
    splits = [Split(alone, [(0, 0, 1), (1, 0, 1)]), Split(rack.geometry, [(0, 0, 0), (1, 0, 0), (1, 1, 0), (0, 1, 0)])]
    hello = Record(b"a", 5, pieces.digest(b"hello"), splits[2 - form:])
    empty = Record(b"b.txt", 0, pieces.digest(b""), [Split(alone, [(0, 1, 0), (1, 1, 0)])])
    return [hello, empty][:form]


def full_image(form):
    """An image of session 7 with slots of each state, a column that moves, and an entry of each kind of the format in its logs, all
    of job 3: at stripe 1 and column 1, with other columns in those of three, and the digests of `x`, `y` and `z`."""
    rack = Rack(2, 2, form, 2, Geometry(2, 1, 2, 8))
    values = {"stripe": [1], "column": [1, 2], "digest": [pieces.digest(one) for one in (b"x", b"y", b"z")], "flag": [True, False], "name": [b"n"]}
    own = {"Stuck": (1, 1, 0), "MoveBegin": (1, 511), "Moved": (1, 1, False), "MoveEnd": (2,), "Swapped": (0, 0)}
    own["Renew"] = (b"n", pieces.digest(b"y"))
    logs = []
    for kinds, last in ((GROUP_KINDS, 16 + form), (INDEX_KINDS, 4 + 2 * form)):
        logs.append([Entry(kind, 3, own.get(kind) or fields_of(sorts.split(), values)) for kind, (number, sorts) in kinds.items() if number <= last])
    return write_image(Image(7, rack, full_tables(rack), full_records(rack, form), [logs[0], []], logs[1]), form)


def fields_of(sorts, values):
    """The fields of an entry: of each sort the values in their order."""
    return tuple(values[sort][sorts[:at].count(sort)] for at, sort in enumerate(sorts))


def rising_by_seven(length):
    """Byte i is 7 (i modulo 256) + 3 modulo 256."""
    return bytes((at * 7 + 3) % 256 for at in range(length))


def start_of(data):
    """The first eight bytes of a digest."""
    return pieces.digest(data)[:8].hex()


def veil_values():
    """What explains another object, and what drills report, begin so; the random bytes are `rising_by_seven`."""
    two, three = Geometry(2, 2, 3, 16), Geometry(3, 3, 5, 16)
    objects = [pieces.object_of(bytes([5]) * 16, data, 0) for data in (b"hello", b"world")]
    made = []
    for geometry, hidden, seen in ((two, 1, [3]), (two, 2, [1]), (three, 2, [2, 5])):
        random = rising_by_seven(pieces.piece_length(geometry))
        found = drill.explained_piece(objects, geometry, hidden, seen, random)
        made.append((f"random bytes that explain `world`, fragment {hidden} of {geometry.fragments} at {seen}", start_of(found)))
    pairs = [(b"hello", b"world", two, 1, [3]), (rising_by_seven(1000), bytes(999) + bytes([1]), three, 2, [2, 5])]
    for first, second, geometry, hidden, seen in pairs:
        random = rising_by_seven(pieces.random_length(len(first), geometry))
        blocks = drill.seen_blocks(first, geometry, hidden, seen, random)
        made.append((f"the {len(blocks)} blocks that a drill sees", start_of(b"".join(blocks))))
        made.append((f"the random bytes that a drill over {len(first)} bytes leaves", start_of(drill.explained(first, second, geometry, hidden, seen, random))))
    return [(name, "crates/pot_veil/src/tests.rt", value) for name, value in made]


def weights(target, skip):
    """The weights of three data columns, P and Q in a relay."""
    table = Table(3, 2, 1, range(5))
    return bytes(table.weight_of(Relay(0, target, skip), column) for column in range(5)).hex()


def relay_weights():
    """Rows of weights that a test has: the target, and the slot that is left out."""
    rows = [(0, None), (1, 4), (3, None), (3, 4), (1, 3), (0, 1), (2, 0), (3, 2), (4, None), (4, 3), (4, 1)]
    return relay_sums() + [(f"weights of a relay of column {target}, without {skip}", "crates/table_tests/src/steps.rt", weights(target, skip)) for target, skip in rows]


def relay_sums():
    """The sums of a relay of column 0 of two, without column 1, over P and Q: of the blocks 57 and 13, and the blind 5a."""
    table, total, sums = Table(2, 2, 1, range(4)), 0x5A, []
    for column in (2, 3):
        block = 0
        for data, byte in enumerate((0x57, 0x13)):
            block ^= field.times(table.coefficients(data)[column - 2], byte)
        total ^= field.times(table.weight_of(Relay(0, 0, 1), column), block)
        sums.append(total)
    return [("sums of a relay without column 1", "crates/table_tests/src/steps.rt", bytes(sums).hex())]


def mark_values():
    """The marks of the record of `hello` as `a`, with a split in stripe 3, and with one more in stripe 4."""
    splits = [Split(Geometry(2, 1, 1, 16), [(0, 0, stripe), (0, 1, stripe)]) for stripe in (3, 4)]
    marks = [Record(b"a", 5, pieces.digest(b"hello"), splits[:count]).mark().hex() for count in (1, 2)]
    return [(f"mark of a record of {count} splits", "crates/pot_index/src/tests.rt", mark) for count, mark in enumerate(marks, 1)]


def share_values():
    """Shares that tests have: of 57 + 83 x, and of the content 00 ff with the rows 10 20 and 01 80, at 255, 1 and 5."""
    two = [polynomial_at(row, [255, 1, 5]) for row in ([0x00, 0x10, 0x01], [0xFF, 0x20, 0x80])]
    paired = "".join(a + b for a, b in zip(*[[row[at:at + 2] for at in (0, 2, 4)] for row in two]))
    return [
        ("57 + 83 x at 1, 2 and 3", "crates/pot_split/src/lib.rt", polynomial_at([0x57, 0x83], [1, 2, 3])),
        ("57 + 83 x at 1, 2 and 3", "crates/pot_joins/src/lib.rt", polynomial_at([0x57, 0x83], [1, 2, 3])),
        ("57 + 83 x at 1, 2, 3 and 4", "crates/pot_robust/src/tests.rt", polynomial_at([0x57, 0x83], [1, 2, 3, 4])),
        ("shares of 00 ff at 255, 1 and 5", "crates/pot_split/src/lib.rt", paired),
        ("10 x + x^2 at 255, 1 and 5", "crates/pot_joins/src/lib.rt", two[0]),
    ]


def generated():
    """The script of the generator for 1."""
    script = generator.script(1)
    place = "crates/word_tests/src/generator.rt"
    return [("length of the generator's script for 1", place, f"{len(script):,}".replace(",", "_")), ("SHA-256 of it", place, pieces.digest(script).hex())]


def values():
    """Name, file of the repository, and value: hexadecimal digits, or a text."""
    inverses = bytes(field.inverse(a) for a in range(1, 256)).hex()
    empty = write_image(Image.empty(Rack(3, 1, 1, 8, Geometry(2, 3, 3, 16))))
    return generated() + relay_weights() + mark_values() + share_values() + head_values() + block_values() + bench_values() + veil_values() + [
        ("bytes 301 to 308 of session 0 and job 1", "crates/pot_pads/src/tests.rt", stream_bytes(0, 1)),
        ("bytes 301 to 308 of session 1 and job 0", "crates/pot_pads/src/tests.rt", stream_bytes(1, 0)),
        ("bytes 301 to 308 of session 01020304 and job 05060708", "crates/pot_pads/src/tests.rt", stream_bytes(0x01020304, 0x05060708)),
        ("product 57 83 and 57 13 (FIPS 197, 4.2)", "crates/pot_gf/src/tests.rt", bytes([field.times(0x57, 0x83), field.times(0x57, 0x13)]).hex()),
        ("inverses of 1 to 255", "crates/pot_gf/src/tests.rt", inverses),
        ("05 + 1f x + a0 x^2 at 1, 2, 3 and 80", "crates/pot_gf/src/tests.rt", polynomial_at([0x05, 0x1F, 0xA0], [1, 2, 3, 0x80])),
        ("key stream of the key 0, block 0 (RFC 8439, A.1)", "crates/pot_pads/src/tests.rt", Stream(bytes(32), 0, 0).take(64).hex()),
        ("key stream of the key 0, block 1 (RFC 8439, A.1)", "crates/pot_pads/src/tests.rt", Stream(bytes(32), 0, 0).take(128)[64:].hex()),
        ("SHA-256 of `hello`", "crates/pot_object/src/tests.rt", pieces.digest(b"hello").hex()),
        ("SHA-256 of no bytes", "crates/pot_object/src/tests.rt", pieces.digest(b"").hex()),
        ("image of 118 bytes, format 2", "docs/FORMATS.md", small_image(2).hex()),
        ("image of 118 bytes, format 1", "docs/FORMATS.md", small_image(1).hex()),
        ("image of 118 bytes, format 2", "crates/table_tests/src/image.rt", small_image(2).hex()),
        ("image of 118 bytes, format 1", "crates/table_tests/src/image.rt", small_image(1).hex()),
        ("full image of 1,325 bytes, format 2", "crates/table_tests/src/image.rt", full_image(2).hex()),
        ("full image of 923 bytes, format 1", "crates/table_tests/src/image.rt", full_image(1).hex()),
        ("empty image of 252 bytes, its trailer", "crates/table_tests/src/image.rt", empty[-32:].hex()),
    ]
