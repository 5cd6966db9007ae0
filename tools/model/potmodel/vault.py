"""The groups and the index of a session, and the commands over them: each is one job and gives its replies."""

from . import pieces
from .devices import Failed
from .index import MOST_SPLITS, IndexFull, Record, Split
from .script import reply
from .stream import Stream
from .table import BROKEN, LIVE, LOST

RENEWING = 2 ** 31


class RoomFailed(Exception):
    """The room did not give an archive that a command asks for, or did not take it back."""


class Stopped(Exception):
    """A command stops with this reply."""


class Vault:
    """Groups and index, the room from which commands take archives, and the seed and number of the session."""

    def __init__(self, rack, groups, index, room, seed, session):
        self.rack, self.groups, self.index, self.room = rack, groups, index, room
        self.seed, self.session = seed, session

    def stream(self, job):
        """The random bytes of a job."""
        return Stream(self.seed, self.session, job)

    def work_step(self, job, commands):
        """The replies of a command alone, or of the jobs of a batch, the first of which has this number: the moves of a batch begin in the
        order of its lines, and then its jobs are worked one after another, as one worker does."""
        begun = [self.begin_line(job + line, command) for line, command in enumerate(commands)]
        replies = []
        for line, command in enumerate(commands):
            replies += self.work(job + line, command, begun[line])
        return replies

    def begin_line(self, job, command):
        """The group and the column of a move that began or stood, the reply to a `migrate` that began none, or None."""
        if command[0] != "migrate":
            return None
        try:
            return self.begin_move(job, *command[1:])
        except Stopped as stop:
            return stop.args[0]

    def work(self, job, command, begun):
        """The replies of a command, as one text for each line or line with bytes; of a `migrate`, by what it began."""
        if isinstance(begun, bytes):
            return [begun]
        try:
            if command[0] == "migrate":
                return self.move_to_end(job, *command[1:], *begun)
            return getattr(self, "work_" + command[0])(job, *command[1:])
        except IndexFull:
            return [reply("logfull", "index")]
        except Stopped as stop:
            return [stop.args[0]]

    def faulted(self, group, answer):
        """The reply to an answer of a group that ends a command: a fault, a full group or a full log."""
        if answer.kind == "Faulted":
            return reply("fault", group, answer.fields[0])
        return reply("full" if answer.kind == "Full" else "logfull", group)

    def put_blocks(self, job, blocks, shards):
        """Puts blocks in order, and gives their places; the first that is refused stops the command."""
        places = []
        for index, block in enumerate(blocks):
            group = pieces.group_of(index, shards, self.rack.groups)
            answer = self.groups[group].put(job, block)
            if answer.kind != "Ok":
                raise Stopped(self.faulted(group, answer))
            places.append((group, answer.fields[1], answer.fields[0]))
        return places

    def work_store(self, job, name, data):
        """Reserves the name, puts the blocks, and publishes the record or abandons the name."""
        if len(data) > pieces.LONGEST:
            return [reply("long", name, len(data))]
        if not self.index.reserve(job, name):
            return [reply("exists", name)]
        geometry = self.rack.geometry
        try:
            places = self.put_blocks(job, pieces.blocks_of(data, geometry, self.stream(job)), geometry.shards)
        except Stopped:
            self.index.abandon(job, name)
            raise
        self.index.publish(job, Record(name, len(data), pieces.digest(data), [Split(geometry, places)]))
        return [reply("stored", name, pieces.count_pieces(len(data)), len(places))]

    def work_fetch(self, job, name):
        """The file of a name, by any m shards of each fragment."""
        data = self.fetch(job, self.find(job, name), self.stream(job))
        return [reply("file", name, len(data)) + data + b"\n"]

    def find(self, job, name):
        """The record of a name."""
        record = self.index.find(job, name)
        if record is None:
            raise Stopped(reply("absent", name))
        return record

    def fetch(self, job, record, blinds):
        """The bytes of a file by its current split; a fragment with too few blocks stops the command, and so does an odd file."""
        geometry, parts = record.current.geometry, []
        for piece in range(pieces.count_pieces(record.length)):
            contents = [self.fetch_fragment(job, record, piece, j, blinds) for j in range(geometry.fragments)]
            parts.append(pieces.part_of(contents))
        data = b"".join(parts)[:record.length]
        if pieces.digest(data) != record.digest:
            raise Stopped(reply("odd", record.name, record.digest.hex(), pieces.digest(data).hex()))
        return data

    def fetch_fragment(self, job, record, piece, fragment, blinds):
        """The content of a fragment: points are looked at until m are Seen, and then those that are Gone are mended."""
        split = record.current
        geometry = split.geometry
        first = (piece * geometry.fragments + fragment) * geometry.shards
        seen, answers = {}, {}
        for x in range(1, geometry.shards + 1):
            if len(seen) < geometry.need:
                answers[x] = self.look(job, split.places[first + x - 1], x, seen)
        for x in [x for x, answer in answers.items() if answer.kind == "Gone"]:
            if len(seen) < geometry.need:
                answers[x] = self.mend_and_look(job, split.places[first + x - 1], x, seen, blinds)
        if len(seen) < geometry.need:
            for x, answer in sorted(answers.items()):
                if answer.kind == "Faulted":
                    raise Stopped(reply("fault", split.places[first + x - 1][0], answer.fields[0]))
            raise Stopped(reply("lost", record.name, piece, fragment + 1, len(seen), geometry.need))
        return pieces.joined(list(seen), list(seen.values()))

    def look(self, job, place, x, seen):
        """A look at a place; the share of a block that is Seen is kept."""
        group, column, stripe = place
        answer = self.groups[group].look(job, stripe, column)
        if answer.kind == "LogFull":
            raise Stopped(reply("logfull", group))
        if answer.kind == "Seen":
            seen[x] = answer.fields[0][32:]
        return answer

    def mend_and_look(self, job, place, x, seen, blinds):
        """Mends a place, and looks at it once more where it is whole."""
        answer = self.mend_place(job, place, blinds)
        if answer.kind == "LogFull":
            raise Stopped(reply("logfull", place[0]))
        return self.look(job, place, x, seen) if answer.kind == "Whole" else answer

    def mend_place(self, job, place, blinds):
        """Steps of mending until one ends it. A blind is drawn before the first, and one behind each relay that begins."""
        group, column, stripe = place
        blind = blinds.take(pieces.BLOCK)
        while True:
            answer = self.groups[group].mend(job, stripe, column, blind)
            if answer.kind == "Began":
                blind = blinds.take(pieces.BLOCK)
            elif answer.kind not in ("Went", "Mended", "Passed"):
                return answer

    def work_renew(self, job, name, geometry):
        """Fetches a file, puts the blocks of a new split, and makes it the current one."""
        record = self.find(job, name)
        if len(record.splits) == MOST_SPLITS:
            return [reply("often", name)]
        data = self.fetch(job, record, self.stream(job))
        blocks = pieces.blocks_of(data, geometry, self.stream(RENEWING + job))
        places = self.put_blocks(job, blocks, geometry.shards)
        if not self.index.renew(job, name, Split(geometry, places)):
            return [reply("often", name)]
        return [reply("renewed", name, pieces.count_pieces(len(data)), len(places))]

    def work_list(self, job):
        """The names of all files."""
        names = self.index.names(job)
        return [reply("names", len(names)) + b"".join(reply("name", name, length) for name, length in names)]

    def work_status(self, job):
        """The counts and the cursor of each group."""
        lines = []
        for group, at in enumerate(self.groups):
            answer = at.count(job)
            if answer.kind == "LogFull":
                lines.append(reply("logfull", group))
            else:
                live, lost, broken, stripe, column = answer.fields
                lines.append(reply("group", group, "live", live, "lost", lost, "broken", broken, "cursor", stripe, column))
        return lines

    def work_scrub(self, job, group):
        """A look at each Live slot of a group."""
        seen = gone = 0
        place = (0, 0)
        while True:
            place = self.groups[group].next(place[0], place[1], (LIVE,))
            if place is None:
                return [reply("scrubbed", group, seen, gone)]
            answer = self.groups[group].look(job, *place)
            if answer.kind not in ("Seen", "Gone"):
                return [self.faulted(group, answer)]
            seen, gone = seen + (answer.kind == "Seen"), gone + (answer.kind == "Gone")
            place = (place[0], place[1] + 1)

    def work_repair(self, job, group):
        """Mends each slot of a group that is Lost or Broken, once."""
        blinds, place = self.stream(job), (0, 0)
        while True:
            place = self.groups[group].next(place[0], place[1], (LOST, BROKEN))
            if place is None:
                break
            answer = self.mend_place(job, (group, place[1], place[0]), blinds)
            if answer.kind in ("Faulted", "LogFull"):
                return [self.faulted(group, answer)]
            place = (place[0], place[1] + 1)
        kinds = [entry.kind for entry in self.groups[group].log if entry.job == job]
        return [reply("repaired", group, kinds.count("Mended"), kinds.count("Stuck") + kinds.count("Oddly"))]

    def home_of(self, number):
        """The group and the column whose home an archive is."""
        for group, at in enumerate(self.groups):
            home, _ = at.trace(number, number)
            if home is not None:
                return group, home[0]
        raise Stopped(reply("noarchive", number))

    def is_in_use(self, number):
        """Whether a group has or had an archive in this session."""
        return any(number in at.archives for at in self.groups)

    def take(self, number):
        """Takes an archive from the room."""
        try:
            return self.room.take(number)
        except Failed:
            raise RoomFailed()

    def hand_back(self, number, archive, group, answer):
        """Gives an archive back that a group refused; the reply says why it did."""
        try:
            self.room.give(number, archive)
        except Failed:
            raise RoomFailed()
        return reply("inuse", *answer.fields) if answer.kind == "InUse" else reply("logfull", group)

    def work_replace(self, job, first, second):
        """Puts an archive in the place of a column's home."""
        group, column = self.home_of(first)
        if self.is_in_use(second):
            return [reply("inuse", second)]
        archive = self.take(second)
        answer = self.groups[group].swap(job, column, second, archive)
        if answer.kind != "Ok":
            return [self.hand_back(second, archive, group, answer)]
        return [reply("replaced", first, second, answer.fields[0])]

    def begin_move(self, job, first, second):
        """The column of an archive begins to move to another, or moves there already; else the command stops."""
        group, column = self.home_of(first)
        to = self.groups[group].table.columns[column].to
        if to is not None and to != second:
            raise Stopped(reply("inuse", first))
        if to is None:
            if self.is_in_use(second):
                raise Stopped(reply("inuse", second))
            archive = self.take(second)
            answer = self.groups[group].move_begin(job, column, second, archive)
            if answer.kind != "Ok":
                raise Stopped(self.hand_back(second, archive, group, answer))
        return group, column

    def move_to_end(self, job, first, second, group, column):
        """Steps of a move until its end."""
        copied = 0
        while True:
            answer = self.groups[group].move_step(job, column)
            if answer.kind in ("Faulted", "LogFull"):
                return [self.faulted(group, answer)]
            copied += answer.kind == "Copied"
            if answer.kind in ("Ended", "Idle"):
                return [reply("migrated", first, second, copied)]
