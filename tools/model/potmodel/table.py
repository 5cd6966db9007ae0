"""The table of a group of archives under parity, and what each kind of entry does to it, where it is legal."""

from . import field

VOID, LIVE, LOST, BROKEN = "Void", "Live", "Lost", "Broken"
MOST_RELAYS = 16


class Column:
    """A column: the archive that is its home, and the one that it moves to, with how many stripes are there."""

    def __init__(self, home, to=None, upto=0):
        self.home, self.to, self.upto = home, to, upto


class Relay:
    """A relay: the slot that it rebuilds, the other Lost slot that it leaves out, and the last column it went over."""

    def __init__(self, stripe, target, skip):
        self.stripe, self.target, self.skip, self.last = stripe, target, skip, None


class Table:
    """A cursor, columns, slots by stripe and column, and relays in the order in which they began."""

    def __init__(self, data, parity, stripes, homes):
        self.data, self.parity, self.stripes = data, parity, stripes
        self.cursor = (0, 0)
        self.columns = [Column(home) for home in homes]
        self.slots = [[(VOID, None)] * (data + parity) for _ in range(stripes)]
        self.relays = []

    @classmethod
    def empty(cls, group, data, parity, stripes):
        """The table of a new group: column c has home group * (data + parity) + c."""
        width = data + parity
        return cls(data, parity, stripes, [group * width + column for column in range(width)])

    def copy(self):
        """A table of its own with the same cursor, columns and slots, without relays."""
        other = Table(self.data, self.parity, self.stripes, [column.home for column in self.columns])
        other.cursor = self.cursor
        for column, source in zip(other.columns, self.columns):
            column.to, column.upto = source.to, source.upto
        other.slots = [list(row) for row in self.slots]
        return other

    @property
    def width(self):
        """How many columns there are, parity columns among them."""
        return self.data + self.parity

    def state(self, stripe, column):
        """The state of a slot."""
        return self.slots[stripe][column][0]

    def digest(self, stripe, column):
        """The digest of a slot that is not Void."""
        return self.slots[stripe][column][1]

    def set_state(self, stripe, column, state):
        """Another state with the same digest."""
        self.slots[stripe][column] = (state, self.digest(stripe, column))

    def columns_in(self, stripe, *states):
        """The columns whose slots in this stripe have one of these states."""
        return [column for column in range(self.width) if self.state(stripe, column) in states]

    def relay_of(self, stripe):
        """The relay of a stripe, or None."""
        return next((relay for relay in self.relays if relay.stripe == stripe), None)

    def archive_of(self, stripe, column):
        """The archive that serves a slot: the target below the position of a move, else the home."""
        at = self.columns[column]
        return at.to if at.to is not None and stripe < at.upto else at.home

    def uses(self):
        """The archives that are homes or targets."""
        return [number for at in self.columns for number in (at.home, at.to) if number is not None]

    def coefficients(self, column):
        """The weights of a column in the two parity equations: those of D0 + D1 + .. + P and of the powers of 3 and Q."""
        if column < self.data:
            return 1, field.power(column)
        return (1, 0) if column == self.data else (0, 1)

    def combination(self, relay):
        """How often a relay takes each of the two equations, so that its target has weight 1 and its skip weight 0."""
        target, skip, second = relay.target, relay.skip, self.data + 1
        if target == second:
            return (field.power(skip), 1) if skip is not None and skip < self.data else (0, 1)
        if skip is None or skip == second:
            return 1, 0
        if target == self.data:
            return 1, field.inverse(field.power(skip))
        if skip == self.data:
            return 0, field.inverse(field.power(target))
        times = field.inverse(field.power(target) ^ field.power(skip))
        return field.times(times, field.power(skip)), times

    def weight_of(self, relay, column):
        """The weight of a column in a relay's sum."""
        one, two = self.combination(relay)
        first, second = self.coefficients(column)
        return field.times(one, first) ^ field.times(two, second)

    def next_column(self, relay):
        """The column that a relay goes over next, or None: not its target, not its skip, not Void, of weight not 0."""
        begin = 0 if relay.last is None else relay.last + 1
        for column in range(begin, self.width):
            is_other = column not in (relay.target, relay.skip)
            if is_other and self.state(relay.stripe, column) != VOID and self.weight_of(relay, column):
                return column
        return None

    def other_of(self, stripe, column):
        """The column for which a relay of a Lost or Broken slot is stuck, or None where it may begin."""
        broken = self.columns_in(stripe, BROKEN)
        if self.parity == 2 and broken:
            return broken[0]
        others = [other for other in self.columns_in(stripe, LOST, BROKEN) if other != column]
        return others[0] if len(others) >= self.parity else None

    def takes_puts(self, stripe):
        """Whether a stripe has no relay and no slot that is Lost or Broken."""
        return self.relay_of(stripe) is None and not self.columns_in(stripe, LOST, BROKEN)

    def legal(self, entry):
        """Whether an entry is legal here."""
        return LEGAL[entry.kind](self, entry, *entry.fields)

    def apply(self, entry):
        """Does what a legal entry says."""
        assert self.legal(entry), entry
        AFTER[entry.kind](self, *entry.fields)

    def has(self, stripe, column):
        """Whether a place is in range."""
        return stripe < self.stripes and column < self.width


def legal_put(table, stripe, column, parity):
    """Where a put may be logged: at the cursor, in a stripe that takes puts, by the kind of its parity."""
    return table.parity == parity and (stripe, column) == table.cursor and stripe < table.stripes and table.takes_puts(stripe)


def legal_begin(table, stripe, column):
    """Where a relay may begin."""
    if not table.has(stripe, column) or table.state(stripe, column) not in (LOST, BROKEN) or table.relay_of(stripe):
        return False
    return table.other_of(stripe, column) is None and len(table.relays) < MOST_RELAYS


def legal_end(table, stripe, column, with_next):
    """Where a relay of this target may end, with a next column or without one."""
    relay = table.relay_of(stripe)
    if relay is None or relay.target != column:
        return False
    return (table.next_column(relay) is not None) == with_next


def legal_hop(table, stripe, column):
    """Where a relay may go over a column."""
    relay = table.relay_of(stripe)
    return relay is not None and table.next_column(relay) == column and table.state(stripe, column) == LIVE


def legal_gave_up(table, stripe, column, other):
    """Where a relay may be given up at its next column."""
    return legal_end(table, stripe, column, True) and table.next_column(table.relay_of(stripe)) == other


def legal_stuck(table, stripe, column, other):
    """Where a relay could not begin, for this other column."""
    if not table.has(stripe, column) or table.state(stripe, column) not in (LOST, BROKEN) or table.relay_of(stripe):
        return False
    return other is not None and table.other_of(stripe, column) == other


def legal_moved(table, stripe, column, copied):
    """Where a step of a move may be logged."""
    at = table.columns[column]
    is_there = at.to is not None and stripe == at.upto and stripe < table.stripes
    return is_there and (not copied or table.state(stripe, column) == LIVE)


LEGAL = {
    "Put": lambda t, e, stripe, column, *_: legal_put(t, stripe, column, 1),
    "Put2": lambda t, e, stripe, column, *_: legal_put(t, stripe, column, 2),
    "Skip": lambda t, e, stripe: stripe == t.cursor[0] and stripe < t.stripes and not t.takes_puts(stripe),
    "Seen": lambda t, e, stripe, column: t.has(stripe, column) and t.state(stripe, column) == LIVE,
    "Gone": lambda t, e, stripe, column: t.has(stripe, column),
    "Broke": lambda t, e, stripe, column: e.job == 0 and t.has(stripe, column) and t.state(stripe, column) in (LIVE, LOST),
    "Fault": lambda t, e, stripe, column: t.has(stripe, column),
    "Begin": lambda t, e, stripe, column: legal_begin(t, stripe, column),
    "Hop": lambda t, e, stripe, column: legal_hop(t, stripe, column),
    "Mended": lambda t, e, stripe, column: legal_end(t, stripe, column, False),
    "GaveUp": lambda t, e, stripe, column, other: legal_gave_up(t, stripe, column, other),
    "Oddly": lambda t, e, stripe, column, found: legal_end(t, stripe, column, False) and found != t.digest(stripe, column),
    "Stuck": lambda t, e, stripe, column, other: legal_stuck(t, stripe, column, other),
    "MoveBegin": lambda t, e, column, to: column < t.width and t.columns[column].to is None and to not in t.uses(),
    "Moved": lambda t, e, stripe, column, copied: column < t.width and legal_moved(t, stripe, column, copied),
    "MoveEnd": lambda t, e, column: column < t.width and t.columns[column].to is not None and t.columns[column].upto == t.stripes,
    "Swapped": lambda t, e, column, to: column < t.width and to not in t.uses(),
    "Counted": lambda t, e: True,
}


def put_blocks(table, stripe, column, digest, parities):
    """The data slot is Live, each parity slot has its new digest, and the cursor goes on."""
    table.slots[stripe][column] = (LIVE, digest)
    for index, (parity, kept) in enumerate(parities):
        table.slots[stripe][table.data + index] = (LIVE if kept else LOST, parity)
    table.cursor = (stripe, column + 1) if column + 1 < table.data else (stripe + 1, 0)


def skip(table, stripe):
    """The cursor goes to the next stripe."""
    table.cursor = (stripe + 1, 0)


def lose(table, stripe, column):
    """A Live slot is Lost; any other stays."""
    if table.state(stripe, column) == LIVE:
        table.set_state(stripe, column, LOST)


def begin(table, stripe, column):
    """A relay comes last in the list; its skip is the other Lost slot, if there is one."""
    others = [other for other in table.columns_in(stripe, LOST) if other != column]
    table.relays.append(Relay(stripe, column, others[0] if others else None))


def hop(table, stripe, column):
    """The relay went over this column."""
    table.relay_of(stripe).last = column


def end_relay(table, stripe):
    """The relay of a stripe goes."""
    table.relays.remove(table.relay_of(stripe))


def mended(table, stripe, column):
    """The target is Live again."""
    end_relay(table, stripe)
    table.set_state(stripe, column, LIVE)


def gave_up(table, stripe, other):
    """The relay goes, and the column at which it was given up has lost its block."""
    end_relay(table, stripe)
    lose(table, stripe, other)


def move_begin(table, column, to):
    """The column moves."""
    table.columns[column].to, table.columns[column].upto = to, 0


def moved(table, stripe, column, copied):
    """The position goes on; what was not copied is lost."""
    table.columns[column].upto += 1
    if not copied:
        lose(table, stripe, column)


def move_end(table, column):
    """The column is at home where it moved to."""
    at = table.columns[column]
    at.home, at.to, at.upto = at.to, None, 0


def swapped(table, column, to):
    """The column has another home, where it has no blocks."""
    table.columns[column] = Column(to)
    for stripe in range(table.stripes):
        lose(table, stripe, column)


AFTER = {
    "Put": lambda t, stripe, column, digest, parity, kept: put_blocks(t, stripe, column, digest, [(parity, kept)]),
    "Put2": lambda t, stripe, column, digest, one, two, kept, kept2: put_blocks(t, stripe, column, digest, [(one, kept), (two, kept2)]),
    "Skip": skip,
    "Gone": lose,
    "Broke": lambda t, stripe, column: t.set_state(stripe, column, BROKEN),
    "Begin": begin,
    "Hop": hop,
    "Mended": mended,
    "GaveUp": lambda t, stripe, column, other: gave_up(t, stripe, other),
    "Oddly": lambda t, stripe, column, found: end_relay(t, stripe),
    "MoveBegin": move_begin,
    "Moved": moved,
    "MoveEnd": move_end,
    "Swapped": swapped,
    "Seen": lambda t, *_: None,
    "Fault": lambda t, *_: None,
    "Stuck": lambda t, *_: None,
    "Counted": lambda t: None,
}
