"""The index of stored files: records with their splits, reserved names, and its log."""

from .entries import MOST_ENTRIES, Entry
from .pieces import digest, number

MOST_SPLITS = 16


class Split:
    """A geometry, and a place (group, column, stripe) for each block by piece, fragment and point."""

    def __init__(self, geometry, places):
        self.geometry, self.places = geometry, places


class Record:
    """A file's name, length and digest, and its splits, the current one last."""

    def __init__(self, name, length, file_digest, splits):
        self.name, self.length, self.digest, self.splits = name, length, file_digest, splits

    @property
    def current(self):
        """The split by which the file is fetched."""
        return self.splits[-1]

    def bytes(self, form=2):
        """The record as an image has it; in format 1 without the number of splits and the geometry."""
        text = bytes([len(self.name)]) + self.name + number(self.length, 8) + self.digest
        text += bytes([len(self.splits)]) if form == 2 else b""
        for split in self.splits:
            text += bytes(split.geometry) if form == 2 else b""
            text += b"".join(bytes([group, column]) + number(stripe, 4) for group, column, stripe in split.places)
        return text

    def mark(self):
        """The mark of the record: the digest of its bytes."""
        return digest(self.bytes())


class IndexFull(Exception):
    """The log of the index has no room."""


class Index:
    """Published records by name, the job that reserves each reserved name, and the log."""

    def __init__(self, records, room=MOST_ENTRIES):
        self.records, self.reserved, self.log, self.room = {record.name: record for record in records}, {}, [], room

    def enter(self, kind, job, *fields):
        """Logs an entry."""
        self.log.append(Entry(kind, job, fields))

    def want_room(self, entries):
        """Refuses a call that needs this many entries, beside one for each reserved name."""
        if len(self.log) + len(self.reserved) + entries > self.room:
            raise IndexFull()

    def reserve(self, job, name):
        """Reserves a name, and answers whether it was free."""
        self.want_room(2)
        if name in self.records or name in self.reserved:
            self.enter("Taken", job, name)
            return False
        self.reserved[name] = job
        self.enter("Reserve", job, name)
        return True

    def publish(self, job, record):
        """Publishes the record of a name that the job reserved."""
        del self.reserved[record.name]
        self.records[record.name] = record
        self.enter("Publish", job, record.name, record.mark())

    def abandon(self, job, name):
        """Lets a reserved name go."""
        del self.reserved[name]
        self.enter("Abandon", job, name)

    def find(self, job, name):
        """The record of a name, or None."""
        self.want_room(1)
        self.enter("Find", job, name, name in self.records)
        return self.records.get(name)

    def names(self, job):
        """The published names with the lengths of their files, ascending."""
        self.want_room(1)
        self.enter("Listed", job)
        return [(name, self.records[name].length) for name in sorted(self.records)]

    def renew(self, job, name, split):
        """Gives a record a new current split, and answers whether it has fewer than the most splits."""
        self.want_room(1)
        record = self.records[name]
        if len(record.splits) == MOST_SPLITS:
            self.enter("Often", job, name)
            return False
        self.records[name] = Record(name, record.length, record.digest, record.splits + [split])
        self.enter("Renew", job, name, self.records[name].mark())
        return True
