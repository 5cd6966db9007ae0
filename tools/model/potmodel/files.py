"""The outside in files: archives as `archive-N`, and the desk as `desk.pss`."""

import os

from .devices import Archive, Desk, Device
from .pieces import BLOCK, number

SLOT = BLOCK + 1
FIRST = 4096
SPAN = 2 ** 30
LONGEST_IMAGE = SPAN - FIRST


class FileArchive(Archive):
    """Slot s is at byte s * 1025: a 1 and the block. Anything else holds no block."""

    def __init__(self, path):
        super().__init__()
        self.path = path

    def read(self, slot):
        """The block of a slot, or None."""
        self.begin_call()
        if not os.path.exists(self.path):
            return None
        with open(self.path, "rb") as file:
            file.seek(slot * SLOT)
            data = file.read(SLOT)
        return data[1:] if len(data) == SLOT and data[0] == 1 else None

    def kept(self, stripes):
        """The parity block that is kept behind so many stripes, or None: a 2 and the block."""
        if not os.path.exists(self.path):
            return None
        with open(self.path, "rb") as file:
            file.seek(stripes * SLOT)
            data = file.read(SLOT)
        return data[1:] if len(data) == SLOT and data[0] == 2 else None

    def write(self, slot, block):
        """Puts a block into a slot."""
        self.begin_call()
        with open(self.path, "r+b" if os.path.exists(self.path) else "w+b") as file:
            file.seek(slot * SLOT)
            file.write(b"\1" + block)

    def fold(self, slot, weight, total):
        """As of an archive in memory, over the block of the file."""
        block = self.read(slot)
        self.blocks = {} if block is None else {slot: block}
        self.calls -= 1
        return super().fold(slot, weight, total)


class FileRoom(Device):
    """The archives of a folder."""

    def __init__(self, folder):
        super().__init__()
        self.folder = folder

    def take(self, number_of):
        """The archive of this number."""
        self.begin_call()
        return FileArchive(os.path.join(self.folder, f"archive-{number_of}"))

    def give(self, number_of, archive):
        """An archive in files is there already."""
        self.begin_call()


class FileDesk(Desk):
    """The desk of a folder: `desk.pss`, and where that has no image `desk.psi`."""

    def __init__(self, folder):
        super().__init__()
        self.path, self.older = os.path.join(folder, "desk.pss"), os.path.join(folder, "desk.psi")

    def part(self, at, size):
        """Bytes of the file; those past its end are zeros."""
        data = b""
        if os.path.exists(self.path):
            with open(self.path, "rb") as file:
                file.seek(at)
                data = file.read(size)
        return data + bytes(size - len(data))

    def standing(self):
        """The slot that stands with its generation and length, or None."""
        found = []
        for slot in (0, 1):
            head = self.part(FIRST + slot * SPAN, 16)
            generation, length = int.from_bytes(head[:8], "big"), int.from_bytes(head[8:], "big")
            if self.part(slot, 1) == b"\1" and length <= LONGEST_IMAGE:
                found.append((generation, -slot, length))
        return max(found) if found else None

    def read(self):
        """The image, or None."""
        self.begin_call()
        stands = self.standing()
        if stands:
            return self.part(FIRST - stands[1] * SPAN + 16, stands[2])
        if os.path.exists(self.older):
            with open(self.older, "rb") as file:
                return file.read()
        return None

    def replace(self, image):
        """Shuts the slot that does not stand where its gate is open, fills it, and opens its gate."""
        self.begin_call()
        generation, slot, _ = self.standing() or (0, -1, 0)
        other = 1 + slot
        with open(self.path, "r+b" if os.path.exists(self.path) else "w+b") as file:
            for at, data in ((other, b"\0"), (FIRST + other * SPAN, number(generation + 1, 8) + number(len(image), 8) + image), (other, b"\1")):
                file.seek(at)
                file.write(data)
                file.flush()
