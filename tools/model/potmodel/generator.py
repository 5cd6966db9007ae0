"""The generator: the script of a number, over what it is run, and the summary of its replies."""

from . import session
from .devices import Desk, Room, Sink, Source
from .image import Image, Rack, write_image
from .pieces import Geometry, digest

FILES = 24
RACK = Rack(4, 3, 1, 256, Geometry(2, 2, 3, 16))


def file_of(number, place):
    """The bytes of a file."""
    return bytes((31 * at + 17 * place + number) % 256 for at in range((1000 * number + 777 * place) % 4001))


def script(number, is_batched=True):
    """The script of a number, or the same lines one after another in place of the batch."""
    names = [b"f%d" % place for place in range(FILES)]
    files = [file_of(number, place) for place in range(FILES)]
    stores = b"".join(b"store %s %d\n%s\n" % (name, len(data), data) for name, data in zip(names, files))
    fetches = b"".join(b"fetch %s\n" % name for name in names)
    batch = b"together %d\n%send\n" % (FILES, fetches) if is_batched else fetches
    return stores + b"replace 0 16\n" + batch + b"repair 0\n" + fetches + b"list\nstatus\nquit\n"


def seed(number):
    """The seed of the run."""
    return number.to_bytes(32, "big")


def replies(number):
    """The status and the replies of the run. A fetch in a batch is replied to as one alone, since nothing of the batch begins a relay."""
    sink = Sink()
    source, desk = Source(script(number, is_batched=False)), Desk(write_image(Image.empty(RACK)))
    return session.run(["run", "--seed", seed(number).hex()], bytes(32), source, sink, Room(), desk), bytes(sink.written)


def summary(number):
    """What `generate` writes."""
    return f"generated {number} 76\ndigest {digest(replies(number)[1]).hex()}\n"
