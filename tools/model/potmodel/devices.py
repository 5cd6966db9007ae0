"""What lies outside, in memory: archives, a room of archives, a desk, a source and a sink.

Each numbers its calls from 0, and lists which of them fail. A call that fails changes nothing but the count of faults.
"""

from . import field


class Failed(Exception):
    """A call of a device failed."""


class Fuse:
    """How many calls of several devices together may still pass. Once none is left, each call fails."""

    def __init__(self, calls):
        self.left = calls

    def is_spent(self):
        """Takes one off the calls that are left, and says whether there was none."""
        spent = self.left == 0
        self.left -= not spent
        return spent


class Device:
    """Something that numbers its calls, of which some fail."""

    def __init__(self, fails=()):
        self.fails, self.calls, self.faults, self.fuse = set(fails), 0, 0, None

    def begin_call(self):
        """Numbers a call, and lets it fail where it is listed or its fuse lets none pass."""
        called = self.calls
        self.calls += 1
        is_spent = self.fuse is not None and self.fuse.is_spent()
        if called in self.fails or is_spent:
            self.faults += 1
            raise Failed()


class Archive(Device):
    """Blocks by slot, and the sums that were heard, each with its slot. A listed loss comes at the start of its call."""

    def __init__(self, fails=(), losses=()):
        super().__init__(fails)
        self.blocks, self.heard, self.losses, self.lost = {}, [], list(losses), 0

    def begin_call(self):
        """Loses the blocks that are listed for this call."""
        for call, slot in self.losses:
            if call == self.calls:
                self.lose(slot)
        super().begin_call()

    def lose(self, slot):
        """Loses a block at once."""
        self.blocks.pop(slot, None)
        self.lost += 1

    def read(self, slot):
        """The block of a slot, or None."""
        self.begin_call()
        return self.blocks.get(slot)

    def write(self, slot, block):
        """Puts a block into a slot."""
        self.begin_call()
        self.blocks[slot] = block

    def fold(self, slot, weight, total):
        """Hears a sum, and answers it with the weight times the block added; None where the slot has no block."""
        self.begin_call()
        self.heard.append((slot, total))
        block = self.blocks.get(slot)
        return None if block is None else field.add(total, field.weighted(weight, block))


class Room(Device):
    """Archives by number. One that was never there is empty. One that is taken comes under the room's fuse."""

    def __init__(self, archives=None, fails=()):
        super().__init__(fails)
        self.archives, self.out = dict(archives or {}), set()

    def archive(self, number):
        """The archive of a number that is not out."""
        return self.archives.setdefault(number, Archive())

    def take(self, number):
        """The archive of this number, which is then out."""
        self.begin_call()
        self.out.add(number)
        archive = self.archive(number)
        archive.fuse = self.fuse or archive.fuse
        return self.archives.pop(number)

    def give(self, number, archive):
        """Takes an archive back."""
        self.out.discard(number)
        self.begin_call()
        self.archives[number] = archive


class Desk(Device):
    """One image or none."""

    def __init__(self, image=None, fails=()):
        super().__init__(fails)
        self.image = image

    def read(self):
        """The image, or None."""
        self.begin_call()
        return self.image

    def replace(self, image):
        """Puts an image in place of the one that stands."""
        self.begin_call()
        self.image = image


class Source(Device):
    """Bytes that are read to their end."""

    def __init__(self, data=b"", fails=()):
        super().__init__(fails)
        self.data, self.at = data, 0

    def read(self, room):
        """The next bytes, as many as there is room for; none at the end."""
        self.begin_call()
        taken = self.data[self.at:self.at + room]
        self.at += len(taken)
        return taken


class Sink(Device):
    """Bytes that were written."""

    def __init__(self, fails=()):
        super().__init__(fails)
        self.written = bytearray()

    def write(self, data):
        """Appends bytes."""
        self.begin_call()
        self.written += data
