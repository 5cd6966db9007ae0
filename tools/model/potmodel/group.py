"""A group of archives under parity: its opening and its calls, each of which is an entry of the log."""

from collections import namedtuple

from . import field
from .devices import Failed
from .entries import MOST_ENTRIES, Entry
from .pieces import BLOCK, digest
from .table import BROKEN, LIVE, LOST, MOST_RELAYS, VOID

Answer = namedtuple("Answer", "kind fields", defaults=[()])


class Flight:
    """The sum of a relay so far, and the blind with which it began."""

    def __init__(self, blind):
        self.blind, self.sum = blind, blind


class Group:
    """A table over archives by their numbers, with the log of this session and the sums of the relays."""

    def __init__(self, number, table, archives, room=MOST_ENTRIES):
        self.number, self.table, self.archives, self.room = number, table, dict(archives), room
        self.log, self.flights = [], {}
        self.had = {column: (at.home, at.to) for column, at in enumerate(table.columns)}
        for stripe in range(table.stripes):
            self.open_stripe(stripe)

    def is_full(self):
        """Whether the log has no room for an entry."""
        return len(self.log) >= self.room

    def enter(self, kind, job, *fields):
        """Logs an entry and does what it says."""
        entry = Entry(kind, job, fields)
        self.table.apply(entry)
        self.log.append(entry)

    def archive(self, stripe, column):
        """The archive that serves a slot."""
        return self.archives[self.table.archive_of(stripe, column)]

    def held(self, stripe, column):
        """The block of a Live slot, or None where its archive holds none of its digest. A call that fails is Failed."""
        block = self.archive(stripe, column).read(stripe)
        return block if block is not None and digest(block) == self.table.digest(stripe, column) else None

    def open_stripe(self, stripe):
        """Reads every Live slot; notes which are Gone, and then which are Broke since the stripe has no filling."""
        table, blocks = self.table, {}
        live = table.columns_in(stripe, LIVE)
        for column in live:
            try:
                blocks[column] = self.held(stripe, column)
            except Failed:
                blocks[column] = None
        for column in live:
            if blocks[column] is None:
                del blocks[column]
                self.enter("Gone", 0, stripe, column)
        for column in self.broken_at_opening(stripe, blocks):
            self.enter("Broke", 0, stripe, column)

    def broken_at_opening(self, stripe, blocks):
        """The slots that break: of a stripe without a Broken slot, with few enough unsound ones, that no blocks fill."""
        table = self.table
        unsound = table.columns_in(stripe, LOST)
        if table.columns_in(stripe, BROKEN) or len(unsound) > table.parity or self.is_filled(stripe, blocks, unsound):
            return []
        return unsound or list(range(table.data, table.width))

    def is_filled(self, stripe, blocks, unsound):
        """Whether the unsound slots have blocks of their digests with which both sums of the stripe are zero."""
        table = self.table
        sums = []
        for equation in range(table.parity):
            sums.append(field.weighted_sum([(table.coefficients(c)[equation], block) for c, block in blocks.items()], BLOCK))
        rows = [[table.coefficients(column)[equation] for column in unsound] for equation in range(table.parity)]
        found = solve(rows, sums)
        return found is not None and all(digest(block) == table.digest(stripe, c) for c, block in zip(unsound, found))

    def put(self, job, block):
        """Puts a block at the cursor, behind the stripes that take none."""
        if self.is_full():
            return Answer("LogFull")
        while True:
            stripe, column = self.table.cursor
            if stripe == self.table.stripes:
                return Answer("Full")
            if self.is_full():
                return Answer("LogFull")
            if not self.table.takes_puts(stripe):
                self.enter("Skip", job, stripe)
                continue
            parities = self.parity_blocks(job, stripe)
            if isinstance(parities, Answer):
                return parities
            if parities is not None:
                return self.write_put(job, stripe, column, block, parities)

    def parity_blocks(self, job, stripe):
        """The parity blocks of a stripe that takes puts; None where one is Gone, and an answer where a read fails."""
        table, blocks = self.table, []
        for column in range(table.data, table.width):
            if table.state(stripe, column) == VOID:
                blocks.append(bytes(BLOCK))
                continue
            try:
                block = self.held(stripe, column)
            except Failed:
                self.enter("Fault", job, stripe, column)
                return Answer("Faulted", (column,))
            if block is None:
                self.enter("Gone", job, stripe, column)
                return None
            blocks.append(block)
        return blocks

    def write_put(self, job, stripe, column, block, parities):
        """Writes the block and the new parity blocks, each also where the write of the one before failed."""
        try:
            self.archive(stripe, column).write(stripe, block)
        except Failed:
            self.enter("Fault", job, stripe, column)
            return Answer("Faulted", (column,))
        digests, kept = [], []
        for equation, old in enumerate(parities):
            new = field.add(old, field.weighted(self.table.coefficients(column)[equation], block))
            digests.append(digest(new))
            try:
                self.archive(stripe, self.table.data + equation).write(stripe, new)
                kept.append(True)
            except Failed:
                kept.append(False)
        self.enter("Put" if len(kept) == 1 else "Put2", job, stripe, column, digest(block), *digests, *kept)
        if all(kept):
            return Answer("Ok", (stripe, column))
        return Answer("Faulted", (self.table.data + kept.index(False),))

    def look(self, job, stripe, column):
        """Reads a slot: Seen with its block, or Gone."""
        if self.is_full():
            return Answer("LogFull")
        block = None
        if self.table.state(stripe, column) == LIVE:
            try:
                block = self.held(stripe, column)
            except Failed:
                self.enter("Fault", job, stripe, column)
                return Answer("Faulted", (column,))
        self.enter("Gone" if block is None else "Seen", job, stripe, column)
        return Answer("Gone") if block is None else Answer("Seen", (block,))

    def sweep(self, job, stripe, column):
        """Looks at four Live slots at most, and at no more than the log has room for: how many were Seen and Gone, and how far it came."""
        seen = gone = 0
        reached = Answer("End")
        if self.is_full() and self.next(stripe, column, (LIVE,)) is not None:
            return seen, gone, Answer("LogFull")
        for _ in range(min(4, self.room - len(self.log))):
            place = self.next(stripe, column, (LIVE,))
            if place is None:
                break
            answer = self.look(job, *place)
            if answer.kind not in ("Seen", "Gone"):
                return seen, gone, answer
            seen, gone, reached = seen + (answer.kind == "Seen"), gone + (answer.kind == "Gone"), Answer("Slot", place)
            stripe, column = place[0], place[1] + 1
        return seen, gone, reached

    def begin(self, job, stripe, column, blind):
        """Begins a relay with this blind."""
        if self.is_full():
            return Answer("LogFull")
        if self.table.state(stripe, column) in (VOID, LIVE):
            return Answer("Whole")
        relay = self.table.relay_of(stripe)
        if relay is not None:
            return Answer("Standing", (relay.target,))
        other = self.table.other_of(stripe, column)
        if other is not None:
            self.enter("Stuck", job, stripe, column, other)
            return Answer("TwoGone", (column, other))
        if len(self.table.relays) == MOST_RELAYS:
            return Answer("Crowded")
        self.enter("Begin", job, stripe, column)
        self.flights[stripe] = Flight(blind)
        return Answer("Ok")

    def advance(self, job, stripe):
        """Lets a relay go over its next column, or ends it."""
        if self.is_full():
            return Answer("LogFull")
        relay = self.table.relay_of(stripe)
        if relay is None:
            return Answer("Idle")
        column = self.table.next_column(relay)
        return self.finish(job, relay) if column is None else self.hop(job, relay, column)

    def hop(self, job, relay, column):
        """Adds weight times the next column's block to the sum, if its archive has the block."""
        stripe, flight, folded = relay.stripe, self.flights[relay.stripe], None
        weight = self.table.weight_of(relay, column)
        if self.table.state(stripe, column) == LIVE:
            try:
                folded = self.archive(stripe, column).fold(stripe, weight, flight.sum)
            except Failed:
                self.enter("Fault", job, stripe, column)
                return Answer("Faulted", (column,))
        if folded is None or not self.is_fold_of(flight.sum, folded, weight, self.table.digest(stripe, column)):
            self.enter("GaveUp", job, stripe, relay.target, column)
            del self.flights[stripe]
            return Answer("Ended")
        flight.sum = folded
        self.enter("Hop", job, stripe, column)
        return Answer("Hopped")

    @staticmethod
    def is_fold_of(before, after, weight, wanted):
        """Whether what was added is the weight times a block of this digest."""
        return digest(field.weighted(field.inverse(weight), field.add(before, after))) == wanted

    def finish(self, job, relay):
        """Writes the rebuilt block, if it has the target's digest."""
        stripe, target, flight = relay.stripe, relay.target, self.flights[relay.stripe]
        block = field.add(flight.sum, flight.blind)
        wanted, found = self.table.digest(stripe, target), digest(block)
        if found != wanted:
            self.enter("Oddly", job, stripe, target, found)
            del self.flights[stripe]
            return Answer("Odd", (wanted, found))
        try:
            self.archive(stripe, target).write(stripe, block)
        except Failed:
            self.enter("Fault", job, stripe, target)
            return Answer("Faulted", (target,))
        self.enter("Mended", job, stripe, target)
        del self.flights[stripe]
        return Answer("Mended")

    def mend(self, job, stripe, column, blind):
        """One step to mend a place: a begin, or an advance of the relay that is in its way."""
        began = self.begin(job, stripe, column, blind)
        if began.kind == "Standing":
            return self.went(self.advance(job, stripe), began.fields[0] == column)
        if began.kind == "Crowded":
            return self.went(self.advance(job, self.table.relays[0].stripe), False)
        return Answer("Began") if began.kind == "Ok" else began

    @staticmethod
    def went(advanced, is_same_place):
        """What an advance means for a mend: one that ends in an Odd of another place passes it."""
        if advanced.kind in ("Hopped", "Ended"):
            return Answer("Went")
        if advanced.kind == "Odd" and not is_same_place:
            return Answer("Passed")
        return advanced

    def move_begin(self, job, column, number, archive):
        """Lets a column move to this archive."""
        if self.is_full():
            return Answer("LogFull")
        at = self.table.columns[column]
        if at.to is not None:
            return Answer("InUse", (at.home,))
        if number in self.archives:
            return Answer("InUse", (number,))
        self.archives[number] = archive
        self.enter("MoveBegin", job, column, number)
        return Answer("Ok")

    def move_step(self, job, column):
        """Copies the slot at a move's position, passes it, or ends the move behind the last stripe."""
        if self.is_full():
            return Answer("LogFull")
        at = self.table.columns[column]
        if at.to is None:
            return Answer("Idle")
        if at.upto == self.table.stripes:
            self.enter("MoveEnd", job, column)
            return Answer("Ended")
        stripe, block = at.upto, None
        try:
            if self.table.state(stripe, column) == LIVE:
                block = self.held(stripe, column)
            if block is not None:
                self.archives[at.to].write(stripe, block)
        except Failed:
            self.enter("Fault", job, stripe, column)
            return Answer("Faulted", (column,))
        self.enter("Moved", job, stripe, column, block is not None)
        return Answer("Passed") if block is None else Answer("Copied")

    def swap(self, job, column, number, archive):
        """Puts an archive in the place of a column's home; answers how many slots were Live."""
        if self.is_full():
            return Answer("LogFull")
        if number in self.archives:
            return Answer("InUse", (number,))
        live = sum(self.table.state(stripe, column) == LIVE for stripe in range(self.table.stripes))
        self.archives[number] = archive
        self.enter("Swapped", job, column, number)
        return Answer("Ok", (live,))

    def next(self, stripe, column, states):
        """The first place at or behind this one whose slot has one of these states, or None."""
        width = self.table.width
        for at in range(stripe * width + min(column, width), self.table.stripes * width):
            place = divmod(at, width)
            if self.table.state(*place) in states:
                return place
        return None

    def use_of(self, number):
        """The use of an archive, as a column and a role, or None. A retired archive was an archive of the column."""
        for column, at in enumerate(self.table.columns):
            if number == at.home:
                return column, "Home"
            if number == at.to:
                return column, "Target"
        return (self.column_that_had(number), "Retired") if number in self.archives else None

    def trace(self, first, second):
        """The column whose home is the first archive, with the target where it moves, and whether the second is in use."""
        homes = [(column, at.to) for column, at in enumerate(self.table.columns) if at.home == first]
        return (homes[0] if homes else None), second in self.archives

    def column_that_had(self, number):
        """The column of a retired archive, by the log or by the table that was read."""
        for entry in self.log:
            if entry.kind in ("MoveBegin", "Swapped") and entry.fields[1] == number:
                return entry.fields[0]
        return next(column for column, numbers in self.had.items() if number in numbers)

    def count(self, job):
        """How many slots are Live, Lost and Broken, and the cursor."""
        if self.is_full():
            return Answer("LogFull")
        self.enter("Counted", job)
        states = [state for row in self.table.slots for state, _ in row]
        return Answer("Ok", tuple(states.count(state) for state in (LIVE, LOST, BROKEN)) + self.table.cursor)


def solve(rows, sums):
    """The blocks that have these sums under the weights of each row, or None. There is a row for each sum."""
    if not rows[0]:
        return None if any(any(total) for total in sums) else []
    if len(rows[0]) == 2:
        (a, b), (c, d) = rows
        scale = field.inverse(field.times(a, d) ^ field.times(b, c))
        first = field.add(field.weighted(field.times(scale, d), sums[0]), field.weighted(field.times(scale, b), sums[1]))
        second = field.add(field.weighted(field.times(scale, c), sums[0]), field.weighted(field.times(scale, a), sums[1]))
        return [first, second]
    at = next(index for index, row in enumerate(rows) if row[0])
    block = field.weighted(field.inverse(rows[at][0]), sums[at])
    fits = all(field.weighted(row[0], block) == total for row, total in zip(rows, sums))
    return [block] if fits else None
