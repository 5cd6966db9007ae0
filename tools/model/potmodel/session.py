"""The program: from words to an exit status, over a source, a sink, a room of archives and a desk."""

from . import audit, drill, recovery
from .devices import Failed
from .group import Group
from .image import Image, Refused, read_image, write_image
from .index import Index
from .script import BadLine, LONGEST_SCRIPT, is_refusal, read_script, steps_of
from .vault import RoomFailed, Vault
from .words import read_words

PART = 4096
LAST_SESSION = 2 ** 32 - 1


class End(Exception):
    """The program ends with a status and, where it is not empty, a text that is still to be written."""


def run(words, drawn, source, sink, room, desk):
    """Works a command line and answers the status."""
    try:
        return work_words(read_words(words), drawn, source, sink, room, desk)
    except End as end:
        status, text = end.args
        try:
            if text:
                sink.write(text)
        except Failed:
            return 5
        return status


def work_words(task, drawn, source, sink, room, desk):
    """Works a task."""
    if task is None:
        raise End(2, b"words refused\n")
    if task[0] == "init":
        return init(task[1], sink, desk)
    if task[0] == "run":
        return serve(task[1] or drawn, task[3], source, sink, room, desk)
    if task[0] == "drill":
        return work_drill(task, drawn, source)
    if task[0] == "audit":
        return work_audit(task, sink, desk)
    if task[0] == "generate":
        from . import generator  # it runs this module's `run`
        raise End(0, generator.summary(task[1]).encode())
    return recover(task, sink, room)


def read_desk(desk):
    """The desk's image, or None."""
    try:
        return desk.read()
    except Failed:
        raise End(6, b"")


def replace(desk, image):
    """Puts an image in place of the desk's."""
    try:
        desk.replace(write_image(image))
    except Failed:
        raise End(6, b"")


def init(rack, sink, desk):
    """Makes an archive, where the desk has no image."""
    if read_desk(desk) is not None:
        raise End(10, b"image exists\n")
    replace(desk, Image.empty(rack))
    raise End(0, b"ready\n")


def read_source(source, most):
    """The bytes of a source to their end, or one more than the most."""
    data = b""
    try:
        while len(data) <= most:
            part = source.read(min(PART, most + 1 - len(data)))
            if not part:
                break
            data += part
    except Failed:
        raise End(4, b"")
    return data


def stands_on(desk):
    """The image that stands on a desk."""
    data = read_desk(desk)
    if data is None:
        raise End(7, b"image refused none\n")
    try:
        return read_image(data)
    except Refused as refused:
        raise End(7, b"image refused " + refused.args[0].encode() + b"\n")


def image_of(desk):
    """The image from which a session begins."""
    image = stands_on(desk)
    if image.session == LAST_SESSION:
        raise End(9, b"session spent\n")
    return image


def serve(seed, is_careful, source, sink, room, desk):
    """A session: its image and its script, the image with which it begins, its commands, and its close. Of a careful one an image that was not kept gives the status."""
    image = image_of(desk)
    try:
        commands = read_script(read_source(source, LONGEST_SCRIPT), image.rack.groups)
    except BadLine as bad:
        raise End(3, b"bad line %d\n" % bad.args[0])
    image.session += 1
    image.group_logs, image.index_log = [[] for _ in image.tables], []
    replace(desk, image)
    archives = take_archives(image, room)
    groups = [start_group(number, table, archives) for number, table in enumerate(image.tables)]
    vault = Vault(image.rack, groups, Index(image.records), room, seed, image.session)
    status = work_commands(vault, commands, sink)
    return close(image, vault, room, desk, status, is_careful)


def take_archives(image, room):
    """The archives of all columns, by group and column, the home and then the target; all go back where one is not given."""
    archives = {}
    try:
        for table in image.tables:
            for number in table.uses():
                archives[number] = room.take(number)
    except Failed:
        give_all(archives, room)
        raise End(8, b"")
    return archives


def start_group(number, table, archives):
    """A group over its archives."""
    return Group(number, table, {use: archives[use] for use in table.uses()})


def give_all(archives, room):
    """Gives archives back in ascending order, and answers whether the room took each."""
    took_all = True
    for number in sorted(archives):
        try:
            room.give(number, archives[number])
        except Failed:
            took_all = False
    return took_all


def work_commands(vault, commands, sink):
    """The steps in order, the replies of each written after it; answers 0 or 1, or the status of what failed."""
    status, job = 0, 1
    for step in steps_of(commands):
        try:
            replies = vault.work_step(job, step)
            job += len(step)
            sink.write(b"".join(replies))
        except RoomFailed:
            return 8
        except Failed:
            return 5
        if any(is_refusal(text) for text in replies):
            status = 1
    return status


def close(image, vault, room, desk, status, is_careful):
    """Gives all archives back and puts the image of the close in place; a failure counts where none came before."""
    took_all = give_all({number: archive for group in vault.groups for number, archive in group.archives.items()}, room)
    if not took_all and status in (0, 1):
        status = 8
    records = [vault.index.records[name] for name in sorted(vault.index.records)]
    tables, logs = [group.table for group in vault.groups], [group.log for group in vault.groups]
    try:
        replace(desk, Image(image.session, image.rack, tables, records, logs, vault.index.log))
    except End:
        return 6 if is_careful or status in (0, 1) else status
    return status


def work_drill(task, drawn, source):
    """A drill over the two files of the source."""
    _, geometry, hidden, seen, seed = task
    pair = drill.read_pair(read_source(source, drill.LONGEST_SOURCE))
    if pair is None:
        raise End(3, b"bad line 0\n")
    status, text = drill.report(pair, geometry, hidden, seen, seed or drawn)
    raise End(status, text)


def work_audit(task, sink, desk):
    """An audit of the records of a desk; the lines of each are written before the next is looked at, and loose blocks last."""
    image, spots = stands_on(desk), task[1]
    rack, status = image.rack, 0
    if any(group >= rack.groups or column >= rack.columns + rack.parity for group, column in spots):
        raise End(2, b"words refused\n")
    for record in image.records:
        text, is_bare = audit.lines(rack, spots, record)
        try:
            sink.write(text)
        except Failed:
            return 5
        status = 1 if is_bare else status
    loose = audit.loose_lines(rack, spots, image.tables, image.records) if task[2] else b""
    if loose:
        try:
            sink.write(loose)
        except Failed:
            return 5
        status = 1
    return status


def recover(task, sink, room):
    """Recovery from the slots of some archives, each taken, read and given back before the next."""
    _, archives, stripes, blur, way, is_bounded = task
    blocks = []
    for number in range(archives):
        blocks += read_archive(number, stripes, room)
    try:
        objects = recovery.recover(blocks, blur, way, is_bounded)
    except recovery.Wide:
        raise End(11, b"too wide\n")
    status, texts = recovery.listing(objects)
    try:
        for text in texts:
            sink.write(text)
    except Failed:
        return 5
    return status


def read_archive(number, stripes, room):
    """The blocks in the slots of an archive."""
    try:
        archive = room.take(number)
    except Failed:
        raise End(8, b"")
    blocks, is_fine = [], True
    try:
        for slot in range(stripes):
            blocks.append(archive.read(slot))
    except Failed:
        is_fine = False
    try:
        room.give(number, archive)
    except Failed:
        is_fine = False
    if not is_fine:
        raise End(8, b"")
    return [block for block in blocks if block is not None]
