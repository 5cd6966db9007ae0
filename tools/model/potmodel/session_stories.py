"""Stories of sessions as text: each line is printed as it was read, with the outcome of a step below it."""

import re
import sys

from . import field, session
from .devices import Desk, Failed, Fuse, Room, Sink, Source
from .image import Refused, read_image
from .pieces import Shard, block_of, digest, number
from .table import BROKEN, LIVE, LOST, VOID

NUMBER = "(?:0|[1-9][0-9]*)"
HEX = "(?:[0-9a-f]{2})+"
STEPS = re.compile("|".join([
    rf"\$(?: [^ ]+)*", r"drawn [0-9a-f]{2}", rf"(?:fail|stop) (?:source|sink|desk|room|archive {NUMBER}) {NUMBER}", rf"lose {NUMBER} {NUMBER}(?: {NUMBER})?",
    rf"empty(?: {NUMBER})+", rf"alter {NUMBER} {NUMBER} {NUMBER} [0-9a-f]{{2}}", rf"crowd {NUMBER} {NUMBER}", "none", rf"(?:zeros|cut) {NUMBER}",
    rf"(?:set|insert) {NUMBER} {HEX}", rf"copy {NUMBER} {NUMBER} {NUMBER}", rf"flip {NUMBER}", "seal(?: more)?",
    "image|fields|records|slots|stripes|logs|blocks|heard|room|pair", rf"fuse {NUMBER}",
    rf"each (?:(?:stop )?(?:source|sink|desk|room|archive {NUMBER})|fuse|cut) {NUMBER} {NUMBER}",
    rf"each set {NUMBER} {NUMBER}(?: {NUMBER})+",
]))
SCRIPT = re.compile(rf"\|(?:-? .*)?|\+ {NUMBER} {NUMBER}|\* {NUMBER} {NUMBER}")
ALL_LATER = 100
LETTERS = {VOID: ".", LIVE: "L", LOST: "x", BROKEN: "B"}
FILE = re.compile(rb"file [^ ]+ ([0-9]{1,9})")


class NoStep(Exception):
    """A line is no step, or one that can't be taken."""


def short(whole):
    """The first eight hexadecimal digits of a digest."""
    return whole.hex()[:8]


def items_of(data):
    """What was written, by items: each with whether a LF stood behind it. The bytes behind a `file` line are one item."""
    items, at = [], 0
    while at < len(data):
        stop = data.find(b"\n", at)
        stop = len(data) if stop < 0 else stop
        items.append((data[at:stop], stop < len(data)))
        found = FILE.fullmatch(data[at:stop])
        at = stop + 1
        if found and stop < len(data):
            stop = min(at + int(found[1]), len(data))
            items.append((data[at:stop], data[stop:stop + 1] == b"\n"))
            at = stop + items[-1][1]
    return items


def item_text(item):
    """An item as an outcome line."""
    data, is_ended = item
    mark = "" if is_ended else "-"
    if len(data) <= 200 and all(32 <= byte <= 126 for byte in data):
        return f">{mark} {data.decode()}" if data else f">{mark}"
    return f"#{mark} {len(data)} {short(digest(data))}"


def entry_text(entry):
    """An entry of a log in words."""
    fields = []
    for value in entry.fields:
        if isinstance(value, bool):
            value = int(value)
        elif isinstance(value, bytes):
            is_name = entry.kind in ("Reserve", "Taken", "Publish", "Abandon", "Find", "Renew", "Often") and not fields
            value = value.decode() if is_name else short(value)
        fields.append(str(value))
    return " ".join([entry.kind.lower(), str(entry.job)] + fields)


class Scene:
    """The objects of a story."""

    def __init__(self):
        self.room, self.image, self.drawn = Room(), None, bytes([7]) * 32
        self.next_fails = {"source": [], "sink": [], "desk": []}
        self.outcomes, self.waits = [], False

    def step_pair(self):
        """In the next call the first job of a batch waits for the second."""
        self.waits = True

    def call(self, words, script):
        """A call of the program."""
        source, sink = Source(script, self.next_fails["source"]), Sink(self.next_fails["sink"])
        desk = Desk(self.image, self.next_fails["desk"])
        self.next_fails = {"source": [], "sink": [], "desk": []}
        status = session.run(words, self.drawn, source, sink, self.room, desk)
        self.image = desk.image
        told = [f"status {status}"] + [item_text(item) for item in items_of(bytes(sink.written))]
        if self.waits:
            told.append("met" if "--workers 1" not in " ".join(words) else "not met")
        self.waits = False
        return told

    def archive(self, number_of):
        """An archive of the room."""
        return self.room.archive(number_of)

    def outside(self, number_of, change):
        """A change of an archive, which is taken from the room and given back."""
        archive = self.room.take(number_of)
        change(archive)
        self.room.give(number_of, archive)

    def step(self, words):
        """Does a step, and gives its outcome lines."""
        try:
            return getattr(self, "step_" + words[0])(*words[1:]) or []
        except (Failed, LookupError, TypeError):
            raise NoStep()

    def step_drawn(self, text):
        """Another drawn seed."""
        self.drawn = bytes.fromhex(text) * 32

    def step_fail(self, what, *numbers, count=1):
        """Calls that fail, from one on."""
        calls = range(int(numbers[-1]), int(numbers[-1]) + count)
        if what == "archive":
            self.archive(int(numbers[0])).fails.update(calls)
        elif what == "room":
            self.room.fails.update(calls)
        else:
            self.next_fails[what].extend(calls)

    def step_stop(self, what, *numbers):
        """An object of which all calls fail, from one on: more than a story makes of it."""
        self.step_fail(what, *numbers, count=ALL_LATER)

    def step_fuse(self, calls):
        """So many calls of the room and its archives pass, and all later ones fail."""
        self.room.fuse = Fuse(int(calls))

    def step_lose(self, number_of, *rest):
        """A block is lost, at a call or at once."""
        if len(rest) == 2:
            self.archive(int(number_of)).losses.append((int(rest[0]), int(rest[1])))
        else:
            self.outside(int(number_of), lambda archive: archive.lose(int(rest[0])))

    def step_empty(self, *numbers):
        """All blocks of some archives are lost."""
        for number_of in numbers:
            self.outside(int(number_of), lambda archive: archive.blocks.clear())

    def step_alter(self, number_of, slot, place, text):
        """A byte of a block is changed."""
        def change(archive):
            block = bytearray(archive.blocks[int(slot)])
            block[int(place)] ^= int(text, 16)
            archive.write(int(slot), bytes(block))
        self.outside(int(number_of), change)

    def step_crowd(self, number_of, count):
        """Shards of which each at x = 1 is linked to each at x = 2."""
        def change(archive):
            for name in range(int(count)):
                for x in (1, 2):
                    archive.write(2 * name + x - 1, block_of(Shard(x, 2, 2, 63, name, 0, bytes(992))))
        self.outside(int(number_of), change)

    def step_none(self):
        """No image."""
        self.image = None

    def step_zeros(self, count):
        """Zeros for an image."""
        self.image = bytes(int(count))

    def step_cut(self, count):
        """The first bytes of the image."""
        if int(count) > len(self.image):
            raise NoStep()
        self.image = self.image[:int(count)]

    def put_bytes(self, place, data, dropped):
        """Bytes from a place on, in place of so many."""
        at = int(place)
        if at + dropped > len(self.image):
            raise NoStep()
        self.image = self.image[:at] + data + self.image[at + dropped:]

    def step_set(self, place, text):
        """Other bytes from a place on."""
        self.put_bytes(place, bytes.fromhex(text), len(text) // 2)

    def step_insert(self, place, text):
        """More bytes before a place."""
        self.put_bytes(place, bytes.fromhex(text), 0)

    def step_copy(self, first, count, to):
        """Bytes of the image copied to another place of it."""
        if int(first) + int(count) > len(self.image):
            raise NoStep()
        self.put_bytes(to, self.image[int(first):int(first) + int(count)], int(count))

    def step_flip(self, place):
        """The lowest bit of a byte."""
        self.put_bytes(place, bytes([self.image[int(place)] ^ 1]), 1)

    def step_seal(self, more=None):
        """A right trailer, in place of the last 32 bytes or behind all bytes."""
        body = self.image if more else self.image[:-32]
        self.image = body + digest(body)

    def step_image(self):
        """The image's length and digest."""
        return ["no image" if self.image is None else f"image {len(self.image)} {short(digest(self.image))}"]

    def read(self):
        """The image, where it can be read."""
        try:
            return None if self.image is None else read_image(self.image)
        except Refused:
            return None

    def step_fields(self):
        """The image's fields but records, slots and logs."""
        image = self.read()
        if image is None:
            return ["no fields"]
        rack, geometry = image.rack, image.rack.geometry
        lines = [f"session {image.session} groups {rack.groups} columns {rack.columns} parity {rack.parity} stripes {rack.stripes} "
                 "fragments %d need %d shards %d blur %d" % geometry]
        for group, table in enumerate(image.tables):
            homes = [f"{at.home}>{at.to}@{at.upto}" if at.to is not None else str(at.home) for at in table.columns]
            lines.append(f"group {group} cursor %d %d homes {' '.join(homes)}" % table.cursor)
        return lines

    def step_records(self):
        """The records of the image and their splits."""
        image, lines = self.read(), []
        if image is None:
            return ["no fields"]
        for record in image.records:
            lines.append(f"record {record.name.decode()} {record.length} {short(record.digest)}")
            for split in record.splits:
                lines.append("split %d %d %d %d " % split.geometry + " ".join("%d.%d.%d" % place for place in split.places))
        return lines or ["no records"]

    def step_slots(self):
        """The slots of each group up to the cursor's stripe."""
        image, lines = self.read(), []
        if image is None:
            return ["no fields"]
        for group, table in enumerate(image.tables):
            rows = table.slots[:table.cursor[0] + 1]
            lines.append(" ".join([f"group {group}"] + ["".join(LETTERS[state] for state, _ in row) for row in rows]))
        return lines

    def step_stripes(self):
        """What the blocks of each stripe up to the cursor's come to."""
        image = self.read()
        if image is None:
            return ["no fields"]
        words = ["".join(self.stripe_letter(table, stripe) for stripe in range(min(table.cursor[0] + 1, table.stripes))) for table in image.tables]
        return [" ".join(["stripes"] + words)]

    def stripe_letter(self, table, stripe):
        """Whether the data blocks of a stripe and the first parity block sum to zeros; where one of them is missing, whether they tell it."""
        total, missing, is_void = bytes(1024), [], True
        for column in range(table.data + 1):
            state, digest_of = table.slots[stripe][column]
            if state == VOID:
                continue
            is_void = False
            block = self.archive(table.archive_of(stripe, column)).blocks.get(stripe) if state == LIVE else None
            if block is None or digest(block) != digest_of:
                missing.append(("0123456789abcdefg"[column], digest_of))
            else:
                total = field.add(total, block)
        if is_void or len(missing) > 1:
            return "." if is_void else "-"
        if missing:
            return missing[0][0] if digest(total) == missing[0][1] else "!"
        return "!" if any(total) else "="

    def step_logs(self):
        """The entries of all logs."""
        image = self.read()
        if image is None:
            return ["no fields"]
        lines = [f"group {group} {entry_text(entry)}" for group, log in enumerate(image.group_logs) for entry in log]
        return lines + ["index " + entry_text(entry) for entry in image.index_log] or ["no entries"]

    def of_archives(self, word, rows_of):
        """The length and the digest of rows of all archives, each row behind the number and the slot."""
        text = b""
        for number_of, archive in sorted(self.room.archives.items()):
            text += b"".join(number(number_of, 4) + number(slot, 4) + row for slot, row in rows_of(archive))
        return [f"{word} {len(text)} {short(digest(text))}"]

    def step_blocks(self):
        """All blocks."""
        return self.of_archives("blocks", lambda archive: sorted(archive.blocks.items()))

    def step_heard(self):
        """All sums that were heard."""
        return self.of_archives("heard", lambda archive: archive.heard)

    def step_room(self):
        """The archives that hold blocks."""
        held = [f"{number_of}:{len(archive.blocks)}" for number_of, archive in sorted(self.room.archives.items()) if archive.blocks]
        return ["room " + (" ".join(held) or "empty")]


class Story:
    """The lines of a story, the number of the first, and the steps that they come to."""

    def __init__(self, first):
        self.first, self.lines = first, []

    def steps(self):
        """The lines in runs, each with the number of its first line: a call with its script, or a line alone."""
        runs = []
        for line_number, line in enumerate(self.lines, self.first):
            if runs and runs[-1][1][0].startswith("$") and line[:1] in ("|", "+", "*") and SCRIPT.fullmatch(line):
                runs[-1][1].append(line)
            else:
                runs.append((line_number, [line]))
        return runs

    def each_lines(self):
        """The places and the words of the lines that make variants."""
        return [(at, lines[0].split(" ")) for at, (_, lines) in enumerate(self.steps()) if lines[0].startswith("each ")]

    def tell(self, chosen=None, meant=None):
        """The outcome lines of each step, with its lines. The `each` line at place `chosen` means the words `meant`, the others nothing."""
        scene, runs = Scene(), self.steps()
        for words in [lines[0].split(" ") for _, lines in runs] + [meant or [""]]:
            if is_for_whole_story(words):
                scene.step(words)
        for at, (line_number, lines) in enumerate(runs):
            words = meant or [""] if at == chosen else lines[0].split(" ")
            try:
                yield lines, self.outcome(scene, words, lines)
            except NoStep:
                raise NoStep(line_number)

    @staticmethod
    def outcome(scene, words, lines):
        """The outcome lines of a step."""
        if words[0] in ("=", "") or words[0].startswith("#"):
            return []
        if not STEPS.fullmatch(" ".join(words)):
            raise NoStep()
        if words[0] == "each" or is_for_whole_story(words):
            return []
        if words[0] == "$":
            return scene.call(words[1:], b"".join(script_bytes(line) for line in lines[1:]))
        return scene.step(words)

    def told(self):
        """The story as it is printed; variants come before the blank lines and comments at its end."""
        ends = []
        for lines, outcome in self.tell():
            if lines[0] == "" or lines[0].startswith("#"):
                ends += lines
                continue
            yield from ends + lines
            yield from ("  " + line for line in outcome)
            ends = []
        for at, words in self.each_lines():
            yield from self.variants(at, words)
        yield from ends

    def variants(self, at, words):
        """The lines of the variants of an `each` line: those of one outcome in a row share one."""
        rows = []
        for label, name, meant in meanings(words):
            below = [outcome for _, outcome in self.tell(at, meant)][at + 1:]
            outcome = "; ".join(line for lines in below for line in lines)
            if rows and rows[-1][2] == outcome:
                rows[-1][1] = name
            else:
                rows.append([f"{label} {name}", None, outcome])
        return [f"  {first}{' to ' + last if last else ''}: {outcome}" for first, last, outcome in rows]


def is_for_whole_story(words):
    """Whether a step holds from the story's beginning on, wherever it stands."""
    is_one = words[0] in ("fail", "stop") and words[1:2] in (["room"], ["archive"]) or words[0] == "lose" and len(words) == 4
    return is_one and STEPS.fullmatch(" ".join(words)) is not None


def meanings(words):
    """What an `each` line means in each of its variants: the first part of a label, its last word, and the words of a step."""
    if words[1] == "set":
        least, most, archives = int(words[2]), int(words[3]), words[4:]
        for mask in range(2 ** len(archives)):
            chosen = [archive for bit, archive in enumerate(archives) if mask >> bit & 1]
            if least <= len(chosen) <= most:
                yield "set", ".".join(chosen) or "-", ["empty"] + chosen if chosen else None
        return
    for number_of in range(int(words[-2]), int(words[-1]) + 1):
        label = " ".join(words[1:-2])
        meant = words[1:-2] + [str(number_of)]
        yield label, str(number_of), meant if words[1] in ("cut", "fuse", "stop") else ["fail"] + meant


def script_bytes(line):
    """The bytes of a line of a script."""
    if line == "|":
        return b"\n"
    if line.startswith("| "):
        return line[2:].encode() + b"\n"
    if line.startswith("|- "):
        return line[3:].encode()
    words = line.split(" ")
    if words[0] == "+":
        first = int(words[2])
        cycle = bytes((first + 31 * at) % 256 for at in range(256))
        return (cycle * (int(words[1]) // 256 + 1))[:int(words[1])]
    return bytes([int(words[2])]) * int(words[1])


def tell(text):
    """What the stories come to, and the status. The first line that is no step ends them."""
    lines = text.split("\n")
    if lines[-1] == "":
        lines.pop()
    stories, out = [Story(1)], []
    for line_number, line in enumerate(lines, 1):
        if line.startswith("= "):
            stories.append(Story(line_number))
        stories[-1].lines.append(line)
    try:
        for story in stories:
            for line in story.told():
                out.append(line + "\n")
    except NoStep as no_step:
        sys.stderr.write(f"line {no_step.args[0]} is no step\n")
        return "".join(out), 1
    return "".join(out), 0
