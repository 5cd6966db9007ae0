"""The image of a desk: written in format 2, and read in formats 1 and 2 with the refusals that the formats name."""

from collections import namedtuple

from .entries import GROUP_KINDS, INDEX_KINDS, MOST_ENTRIES, Entry, entry_bytes
from .index import MOST_SPLITS, Record, Split
from .pieces import LONGEST, Geometry, count_pieces, digest, group_of, number
from .table import BROKEN, LIVE, LOST, VOID, Table

STATES = [VOID, LIVE, LOST, BROKEN]
LETTERS = frozenset(b"abcdefghijklmnopqrstuvwxyz0123456789._-")
MOST_RECORDS = 4000000000
LAST_ARCHIVE = 511

Rack = namedtuple("Rack", "groups columns parity stripes geometry")


class Image:
    """A session's number, its rack, a table for each group, the records, a log for each group, and the index's log."""

    def __init__(self, session, rack, tables, records, group_logs, index_log):
        self.session, self.rack, self.tables, self.records = session, rack, tables, records
        self.group_logs, self.index_log = group_logs, index_log

    @classmethod
    def empty(cls, rack):
        """What `init` makes."""
        tables = [Table.empty(group, rack.columns, rack.parity, rack.stripes) for group in range(rack.groups)]
        return cls(0, rack, tables, [], [[] for _ in tables], [])


class Refused(Exception):
    """An image is refused: `cut`, `trailer` with two digests, or `form` with a place."""


def is_name(text):
    """Whether bytes are a name."""
    return 1 <= len(text) <= 64 and LETTERS.issuperset(text)


def write_image(image, form=2):
    """The bytes of an image: in format 2, or in format 1 with one parity column and one split of the rack's geometry for each file."""
    rack = image.rack
    body = number(image.session, 4) + bytes([rack.groups, rack.columns]) + bytes(rack.geometry)
    body += bytes([rack.parity if form == 2 else 0, 0]) + number(rack.stripes, 4)
    body += b"".join(table_bytes(table) for table in image.tables)
    body += number(len(image.records), 4) + b"".join(record.bytes(form) for record in image.records)
    for log, kinds in [(log, GROUP_KINDS) for log in image.group_logs] + [(image.index_log, INDEX_KINDS)]:
        body += number(len(log), 4) + b"".join(entry_bytes(entry, kinds) for entry in log)
    whole = b"PSI1" + number(form, 4) + number(16 + len(body) + 32, 8) + body
    return whole + digest(whole)


def table_bytes(table):
    """A table: the cursor, the columns, and the slots by stripe and column."""
    text = number(table.cursor[0], 4) + bytes([table.cursor[1], 0, 0, 0])
    for at in table.columns:
        is_moving = at.to is not None
        text += number(at.home, 4) + bytes([is_moving, 0, 0, 0]) + number(at.to or 0, 4) + number(at.upto, 4)
    slots = [bytes([STATES.index(state)]) + (kept or b"") for row in table.slots for state, kept in row]
    return text + b"".join(slots)


def read_image(data):
    """The image of these bytes; else Refused, by the order of the formats."""
    if len(data) < 48:
        raise Refused("cut")
    if data[:4] != b"PSI1":
        raise Refused("form 0")
    form = int.from_bytes(data[4:8], "big")
    if form not in (1, 2):
        raise Refused("form 4")
    total = int.from_bytes(data[8:16], "big")
    if len(data) != total:
        raise Refused("cut" if len(data) < total else "form 8")
    if digest(data[:-32]) != data[-32:]:
        raise Refused(f"trailer {data[-32:].hex()} {digest(data[:-32]).hex()}")
    reader = Reader(data, form)
    image = reader.image()
    if reader.at != reader.end:
        raise Refused(f"form {reader.end}")
    return image


class Reader:
    """Reads the fields of an image in order, each with its rule; the first that breaks it is named by its place."""

    def __init__(self, data, form):
        self.data, self.form, self.at, self.end = data, form, 16, len(data) - 32
        self.archives = set()

    def field(self, size, rule=lambda value: True):
        """The bytes of the next field."""
        value = self.data[self.at:self.at + size]
        if self.at + size > self.end or not rule(value):
            raise Refused(f"form {self.at}")
        self.at += size
        return value

    def number(self, size, rule=lambda value: True):
        """The number of the next field."""
        return int.from_bytes(self.field(size, lambda value: rule(int.from_bytes(value, "big"))), "big")

    def zeros(self, size):
        """A field of zeros."""
        self.field(size, lambda value: not any(value))

    def image(self):
        """All fields between the head of 16 bytes and the trailer."""
        session = self.number(4)
        self.rack = self.read_rack()
        self.tables = [self.read_table() for _ in range(self.rack.groups)]
        records, before = [], b""
        for _ in range(self.number(4, lambda value: value <= MOST_RECORDS)):
            records.append(self.read_record(before))
            before = records[-1].name
        logs = [self.read_log(GROUP_KINDS, 17) for _ in range(self.rack.groups)]
        return Image(session, self.rack, self.tables, records, logs, self.read_log(INDEX_KINDS, 6))

    def read_rack(self):
        """The rack, whose geometry has as few shards as there are groups."""
        groups = self.number(1, lambda value: value <= 16)
        columns = self.number(1, lambda value: 1 <= value <= 16)
        geometry = self.read_geometry(groups)
        parity = 1
        if self.form == 1:
            self.zeros(2)
        else:
            parity = self.number(1, lambda value: value in (1, 2))
            self.zeros(1)
        return Rack(groups, columns, parity, self.number(4, lambda value: 1 <= value <= 4096), geometry)

    def read_geometry(self, groups):
        """A geometry that fits this many groups."""
        fragments = self.number(1, lambda value: 2 <= value <= 8)
        need = self.number(1, lambda value: value >= 1)
        shards = self.number(1, lambda value: need <= value <= min(16, groups))
        return Geometry(fragments, need, shards, self.number(1, lambda value: value <= 63))

    def read_table(self):
        """A table of the rack."""
        rack = self.rack
        table = Table(rack.columns, rack.parity, rack.stripes, [0] * (rack.columns + rack.parity))
        stripe = self.number(4, lambda value: value <= rack.stripes)
        column = self.number(1, lambda value: value < rack.columns and (stripe < rack.stripes or value == 0))
        table.cursor = (stripe, column)
        self.zeros(3)
        for at in table.columns:
            self.read_column(at)
        for stripe in range(rack.stripes):
            for column in range(table.width):
                self.read_slot(table, stripe, column)
        return table

    def read_column(self, at):
        """A column's home and, where it moves, its target and position."""
        at.home = self.number(4, self.is_new_archive)
        self.archives.add(at.home)
        is_moving = self.number(1, lambda value: value <= 1)
        self.zeros(3)
        if not is_moving:
            self.zeros(4)
            self.zeros(4)
            return
        at.to = self.number(4, self.is_new_archive)
        self.archives.add(at.to)
        at.upto = self.number(4, lambda value: value <= self.rack.stripes)

    def is_new_archive(self, value):
        """Whether an archive number is within the limits and named by no field before."""
        return value <= LAST_ARCHIVE and value not in self.archives

    def read_slot(self, table, stripe, column):
        """A slot: its state and, where it is not Void, its digest."""
        state = self.number(1, lambda value: value <= 3 and self.may_be(table, stripe, column, value == 0))
        kept = self.field(32) if state else None
        table.slots[stripe][column] = (STATES[state], kept)

    @staticmethod
    def may_be(table, stripe, column, is_void):
        """Whether a slot may be Void, or may not be."""
        if stripe > table.cursor[0]:
            return is_void
        if column >= table.data:
            return is_void == (table.state(stripe, 0) == VOID)
        if stripe == table.cursor[0]:
            return is_void == (column >= table.cursor[1])
        return is_void or column == 0 or table.state(stripe, column - 1) != VOID

    def read_name(self, rule=is_name):
        """A name, in two fields: its length, and its bytes."""
        return self.field(self.number(1, lambda value: 1 <= value <= 64), rule)

    def read_record(self, before):
        """A record, whose name is above the one before."""
        name = self.read_name(lambda value: is_name(value) and value > before)
        length = self.number(8, lambda value: value <= LONGEST)
        file_digest = self.field(32)
        count = 1 if self.form == 1 else self.number(1, lambda value: 1 <= value <= MOST_SPLITS)
        return Record(name, length, file_digest, [self.read_split(length) for _ in range(count)])

    def read_split(self, length):
        """A split: in format 1 of the rack's geometry, else of its own, and the places of its blocks."""
        geometry = self.rack.geometry if self.form == 1 else self.read_geometry(self.rack.groups)
        places, seen = [], set()
        for index in range(count_pieces(length) * geometry.fragments * geometry.shards):
            wanted = group_of(index, geometry.shards, self.rack.groups)
            group = self.number(1, lambda value: value == wanted)
            column = self.number(1, lambda value: value < self.rack.columns)
            stripe = self.number(4, lambda value: self.is_place(seen, group, column, value))
            places.append((group, column, stripe))
            seen.add(places[-1])
        return Split(geometry, places)

    def is_place(self, seen, group, column, stripe):
        """Whether a place has a slot that is not Void, and is not in the split yet."""
        if stripe >= self.rack.stripes or (group, column, stripe) in seen:
            return False
        return self.tables[group].state(stripe, column) != VOID

    def read_log(self, kinds, kinds_before):
        """A log: its number of entries, and the entries."""
        most = kinds_before if self.form == 1 else kinds_before + (1 if kinds is GROUP_KINDS else 2)
        by_number = {kind: (name, sorts.split()) for name, (kind, sorts) in kinds.items()}
        log = []
        for _ in range(self.number(4, lambda value: value <= MOST_ENTRIES)):
            name, sorts = by_number[self.number(1, lambda value: 1 <= value <= most)]
            job = self.number(4)
            log.append(Entry(name, job, tuple(self.read_value(sort) for sort in sorts)))
        return log

    def read_value(self, sort):
        """A field of an entry."""
        rack = self.rack
        if sort == "stripe":
            return self.number(4, lambda value: value < rack.stripes)
        if sort == "column":
            return self.number(1, lambda value: value < rack.columns + rack.parity)
        if sort == "archive":
            return self.number(4, lambda value: value <= LAST_ARCHIVE)
        if sort == "flag":
            return bool(self.number(1, lambda value: value <= 1))
        return self.read_name() if sort == "name" else self.field(32)
