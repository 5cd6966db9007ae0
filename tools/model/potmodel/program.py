"""The program of potshards over real objects: `recheck` alone is its own word, and all other words are a session's."""

from . import session
from .devices import Failed
from .table import BROKEN, LIVE, LOST


def run(words, drawn, source, sink, room, desk):
    """Works a command line and answers the status."""
    if words == ["recheck"]:
        return recheck(sink, desk)
    return session.run(words, drawn, source, sink, room, desk)


def recheck(sink, desk):
    """Makes all slots of the desk's image Live that are Lost or Broken, and tells how many of each group."""
    try:
        status, text = 0, rechecked(desk)
    except session.End as end:
        status, text = end.args
    try:
        if text:
            sink.write(text)
    except Failed:
        return 5
    return status


def rechecked(desk):
    """The lines of a recheck. The image is replaced only where a slot was Lost or Broken."""
    image = session.stands_on(desk)
    counts = [find_again(table) for table in image.tables]
    if any(counts):
        session.replace(desk, image)
    lines = [b"recheck %d %d\n" % (group, count) for group, count in enumerate(counts) if count]
    return b"".join(lines) + b"rechecked %d\n" % sum(counts)


def find_again(table):
    """Makes the slots of a table Live that are Lost or Broken, each with its digest, and answers how many."""
    lost = [(stripe, column) for stripe, row in enumerate(table.slots) for column, slot in enumerate(row) if slot[0] in (LOST, BROKEN)]
    for stripe, column in lost:
        table.set_state(stripe, column, LIVE)
    return len(lost)
