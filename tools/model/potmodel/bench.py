"""What `pot_bench` computes for an argument of 1, by its README: the lines of its standard output."""

from . import field, pieces, session
from .devices import Archive, Desk, Room, Sink, Source
from .group import Group
from .stream import Stream
from .table import Table

ROW = 65536
ROUNDS = 17
SEED = bytes([7]) * 32
FILE = 800 * 1024
BATCH_FILE = 100_000
INIT = "init --groups 5 --columns 3 --stripes 4096 --fragments 2 --need 2 --shards 3 --blur 16"


def checksum(name, data):
    """A line: the first eight bytes of a digest behind a name."""
    return f"{name} {pieces.digest(data)[:8].hex()}"


def cut(data, size):
    """The parts of this size."""
    return [data[at:at + size] for at in range(0, len(data), size)]


def loops():
    """What the last round of each loop over rows leaves."""
    content, one, *more = cut(Stream(SEED, 0, 0).take(7 * ROW), ROW)
    two, three = more[:2], more[2:]
    blocks = cut(content, pieces.BLOCK)
    folded = field.weighted_sum([(weight, block) for weight in range(1, ROUNDS + 1) for block in blocks], pieces.BLOCK)
    joined = pieces.joined([3, 4, 5], three)
    digests = b"".join(pieces.digest(block) for block in blocks)
    made = [
        ("xor_into", content),
        ("fold_weighted", folded),
        ("share_out 2 of 3", pieces.share_of(content, [one], 3)),
        ("share_out 3 of 5", pieces.share_of(content, two, 5)),
        ("share_join 2 of 3", pieces.joined([2, 3], two)),
        ("share_join 3 of 5", joined),
        ("digest_of, rows", digested(joined)),
        ("digest_of, blocks", digests),
        ("digest_four, blocks", digests),
        ("fill", Stream(SEED, 0, 1).take(ROUNDS * ROW)[-ROW:]),
    ]
    return [checksum(name, data) for name, data in made]


def digested(row):
    """The row after it was digested in each round, each time with the first byte of the digest as its first from then on."""
    for _ in range(ROUNDS):
        row = pieces.digest(row)[:1] + row[1:]
    return row


def group_line():
    """A group that is filled with the blocks of the content, looked at, and has a column rebuilt and another one moved."""
    group = Group(0, Table.empty(0, 3, 1, 1024), {number: Archive() for number in range(4)})
    for block in 48 * cut(Stream(SEED, 0, 0).take(ROW), pieces.BLOCK):
        group.put(1, block)
    seen = [group.look(1, slot // 3, slot % 3).fields[0][:1] for slot in range(3072)]
    group.swap(1, 0, 4, Archive())
    blinds = Stream(SEED, 0, 5)
    for stripe in range(1024):
        blind = blinds.take(pieces.BLOCK)
        while group.mend(1, stripe, 0, blind).kind != "Whole":
            pass
    group.move_begin(1, 1, 5, Archive())
    while group.move_step(1, 1).kind != "Ended":
        pass
    blocks = [group.archives[number].blocks.get(stripe, b"") for number in range(6) for stripe in range(1024)]
    return checksum("group", b"".join(seen + blocks))


def sessions():
    """A session that stores a file, one that fetches it, and one that does for which archive 0 is gone."""
    data = Stream(SEED, 0, 4).take(FILE)
    room, desk = Room(), Desk()
    work(INIT, b"", room, desk)
    work("run", b"store b %d\n%s\nquit\n" % (FILE, data), room, desk)
    lines = [checksum("store", desk.image)]
    lines.append(checksum("fetch", fetched(room, desk)))
    room.archives[0] = Archive()
    lines.append(checksum("fetch, an archive gone", fetched(room, desk)))
    return lines + [checksum("close", desk.image)]


def batches():
    """A batch that stores a file, and one that fetches it, on one worker, on two and on four."""
    data = Stream(SEED, 0, 6).take(BATCH_FILE)
    pieces_of, made = pieces.count_pieces(BATCH_FILE), []
    for workers in (1, 2, 4):
        made.append(checksum(f"stores on {workers}", b"stored f0 %d %d\n" % (pieces_of, 6 * pieces_of)))
        made.append(checksum(f"fetches on {workers}", b"file f0 %d\n%s\n" % (BATCH_FILE, data)))
    return made


def fetched(room, desk):
    """The bytes of the file as a session of its own fetches them."""
    line, _, rest = work("run", b"fetch b\nquit\n", room, desk).partition(b"\n")
    return rest[:-1] if line == b"file b %d" % FILE else b""


def work(words, script, room, desk):
    """What a call of the program writes."""
    sink = Sink()
    session.run(words.split(), SEED, Source(script), sink, room, desk)
    return bytes(sink.written)


def lines():
    """All lines."""
    return loops() + [group_line()] + sessions() + batches()


def bytes_digested(files):
    """How many bytes SHA-256 is given by stores, an opening and fetches of so many files, for each byte of them."""
    whole, count = files * FILE, pieces.count_pieces(FILE)
    blocks = 6 * count
    stripes = sum(-(-files * [pieces.group_of(b, 3, 5) for b in range(blocks)].count(g) // 3) for g in range(5))
    record = 2 + 8 + 32 + 1 + 4 + 6 * blocks
    store = whole + files * (count * 896 + 2 * count * 960 + 2 * blocks * pieces.BLOCK + record)
    tables = 5 * (8 + 16 * 4 + 4096 * 4) + 32 * (files * blocks + stripes)
    logs = 4 * 6 + files * (blocks * (5 + 5 + 64 + 1) + (5 + 2) + (5 + 2 + 32))
    opening = (4 * stripes + 5) * pieces.BLOCK + 32 + tables + 4 + files * record + logs
    fetch = whole + files * 4 * count * pieces.BLOCK
    return [(name, f"{given / whole:.2f}") for name, given in (("store", store), ("opening", opening), ("fetch", fetch))]
