"""Stories of one group as text: each line is echoed, and each step has its outcome behind it."""

import re

from .devices import Archive
from .entries import Entry
from .group import Group
from .pieces import BLOCK, digest
from .table import BROKEN, LIVE, LOST, Table

BLIND = bytes([0x5A]) * BLOCK
LETTERS = {"Void": "V", "Live": "L", "Lost": "X", "Broken": "B"}
KEPT = {"kept": True, "unkept": False}
NOTES = {"table", "log", "heard", "blocks", "faults"}
NUMBER = r"(0|[1-9][0-9]*)"
BYTE = r"([0-9a-f]{2})"
KEEP = r"(kept|unkept)"
HAD = [
    f"put {NUMBER} {NUMBER} {NUMBER} {BYTE} {BYTE} {KEEP}",
    f"put2 {NUMBER} {NUMBER} {NUMBER} {BYTE} {BYTE} {BYTE} {KEEP} {KEEP}",
    f"skip {NUMBER} {NUMBER}",
    f"gone {NUMBER} {NUMBER} {NUMBER}",
    f"broke {NUMBER} {NUMBER} {NUMBER}",
]
OUTSIDE = [f"holds {NUMBER} {NUMBER} {BYTE}", f"fail {NUMBER}", f"fail {NUMBER} at {NUMBER}", f"lose {NUMBER} {NUMBER}", f"lose {NUMBER} {NUMBER} at {NUMBER}"]
STEPS = [
    "open", "close", f"put {NUMBER} {BYTE}", f"look {NUMBER} {NUMBER} {NUMBER}", f"sweep {NUMBER} {NUMBER} {NUMBER}", f"count {NUMBER}",
    f"next {NUMBER} {NUMBER} (live|unsound)", f"begin {NUMBER} {NUMBER} {NUMBER}", f"advance {NUMBER} {NUMBER}",
    f"mend {NUMBER} {NUMBER} {NUMBER}", f"move_begin {NUMBER} {NUMBER} {NUMBER}", f"move_step {NUMBER} {NUMBER}",
    f"swap {NUMBER} {NUMBER} {NUMBER}", f"use_of {NUMBER}", f"trace {NUMBER} {NUMBER}", f"expect {BYTE} {BYTE}", "logged",
    "table", "log", f"heard {NUMBER}", f"blocks {NUMBER}", "faults",
]
PLACED = {"look": (1, 2), "begin": (1, 2), "mend": (1, 2), "advance": (1, None), "move_begin": (None, 1), "move_step": (None, 1), "swap": (None, 1)}


def block(byte):
    """The block that repeats a byte of two hexadecimal digits."""
    return bytes([int(byte, 16)]) * BLOCK


def short(whole):
    """The first eight hexadecimal digits of a digest."""
    return whole.hex()[:8]


def byte_of(held):
    """The byte that a block repeats."""
    return "%02x" % held[0] if held == held[:1] * BLOCK else "??"


def in_row(texts):
    """Texts with how often each stands in a row."""
    rows = []
    for text in texts:
        if rows and rows[-1][1] == text:
            rows[-1][0] += 1
        else:
            rows.append([1, text])
    return [text if count == 1 else f"{count} times {text}" for count, text in rows]


def entry_text(entry):
    """An entry of a log in words."""
    words = {"GaveUp": "gave_up", "MoveBegin": "move_begin", "MoveEnd": "move_end"}
    fields = [entry.job]
    for value in entry.fields:
        if isinstance(value, bytes):
            value = short(value)
        elif isinstance(value, bool):
            value = ("copied" if value else "passed") if entry.kind == "Moved" else ("kept" if value else "unkept")
        fields.append(value)
    return " ".join([words.get(entry.kind, entry.kind.lower())] + [str(field) for field in fields])


def matches(patterns, text):
    """Whether a text is of one of these forms."""
    return any(re.fullmatch(pattern, text) for pattern in patterns)


class Scene:
    """A group, the archives around it, and what the last close handed out."""

    def __init__(self, data, parity, stripes):
        self.table = Table(data, parity, stripes, list(range(data + parity)))
        self.had, self.archives, self.group, self.log = [], {}, None, None
        self.outcomes = []

    def archive(self, number):
        """The archive of a number: empty from the first line that needs it."""
        return self.archives.setdefault(number, Archive())

    def outside(self, words):
        """What happens to an archive from outside."""
        archive = self.archive(int(words[1]))
        if words[0] == "holds":
            archive.blocks[int(words[2])] = block(words[3])
        elif words[0] == "fail":
            archive.fails.add(archive.calls + (int(words[3]) if len(words) > 2 else 0))
        elif len(words) > 3:
            archive.losses.append((archive.calls + int(words[4]), int(words[2])))
        else:
            archive.lose(int(words[2]))

    def add_had(self, words):
        """An entry that led to the table."""
        numbers = [int(word) for word in words[2:5 if words[1] != "skip" else 4]]
        rest = [digest(block(word)) if word not in KEPT else KEPT[word] for word in words[2 + len(numbers):]]
        kind = {"put": "Put", "put2": "Put2", "skip": "Skip", "gone": "Gone", "broke": "Broke"}[words[1]]
        self.had.append(Entry(kind, numbers[0], tuple(numbers[1:] + rest)))

    def step(self, words):
        """The outcome of a step."""
        if self.group is None and words[0] not in NOTES | {"open", "repeat"}:
            return "no group"
        if words[0] in PLACED and not self.is_place(words):
            return "no slot"
        return getattr(self, "step_" + words[0])(*words[1:])

    def is_place(self, words):
        """Whether the stripe and the column that a call names are there."""
        stripe, column = ([int(word) for word in words[1:]][at] if at is not None else 0 for at in PLACED[words[0]])
        return stripe < self.table.stripes and column < self.table.width

    def step_open(self):
        """Opens the table over the archives of its columns."""
        if self.group is not None:
            return "open already"
        if not all(self.take_in(entry) for entry in self.had):
            return "no table"
        self.had = []
        if self.table.relays:
            return "relays stand"
        self.group = Group(5, self.table, {number: self.archive(number) for number in self.table.uses()})
        return f"{len(self.group.log)} logged"

    def take_in(self, entry):
        """Applies an entry that led to the table, if it is legal."""
        is_legal = self.table.legal(entry)
        if is_legal:
            self.table.apply(entry)
        return is_legal

    def step_close(self):
        """Ends the group."""
        self.log, self.shown, self.group = self.group.log, self.group.table.copy(), None
        return "closed"

    def told(self, answer):
        """An answer in words, with numbers and digests behind it."""
        words = {
            "LogFull": "log full", "Full": "full", "Faulted": "faulted", "Gone": "gone", "Whole": "whole", "Standing": "standing",
            "TwoGone": "two gone", "Crowded": "crowded", "Hopped": "hopped", "Mended": "mended", "Ended": "ended", "Idle": "idle",
            "Odd": "odd", "Began": "began", "Went": "went", "InUse": "in use", "Copied": "copied", "Passed": "passed",
        }
        fields = [short(value) if isinstance(value, bytes) else str(value) for value in answer.fields]
        return " ".join([words[answer.kind]] + fields)

    def step_put(self, job, byte):
        """A block is put."""
        answer = self.group.put(int(job), block(byte))
        return "placed %d %d" % answer.fields if answer.kind == "Ok" else self.told(answer)

    def step_look(self, job, stripe, column):
        """A slot is read."""
        answer = self.group.look(int(job), int(stripe), int(column))
        return "seen " + byte_of(answer.fields[0]) if answer.kind == "Seen" else self.told(answer)

    def step_sweep(self, job, stripe, column):
        """Several slots are read."""
        seen, gone, reached = self.group.sweep(int(job), int(stripe), int(column))
        behind = {"End": " at the end", "Slot": " to %s", "Faulted": ", faulted %s", "LogFull": ", log full"}[reached.kind]
        fields = " ".join(str(value) for value in reached.fields)
        return f"swept {seen} {gone}" + (behind % fields if "%" in behind else behind)

    def step_count(self, job):
        """The slots are counted."""
        answer = self.group.count(int(job))
        return "live %d lost %d broken %d cursor %d %d" % answer.fields if answer.kind == "Ok" else self.told(answer)

    def step_next(self, stripe, column, kind):
        """The next slot of a kind."""
        place = self.group.next(int(stripe), int(column), (LIVE,) if kind == "live" else (LOST, BROKEN))
        return "none" if place is None else "found %d %d" % place

    def step_begin(self, job, stripe, column):
        """A relay begins."""
        answer = self.group.begin(int(job), int(stripe), int(column), BLIND)
        return "began" if answer.kind == "Ok" else self.told(answer)

    def step_advance(self, job, stripe):
        """A relay goes on."""
        return self.told(self.group.advance(int(job), int(stripe)))

    def step_mend(self, job, stripe, column):
        """A step to mend a place."""
        return self.told(self.group.mend(int(job), int(stripe), int(column), BLIND))

    def step_move_begin(self, job, column, number):
        """A move begins."""
        answer = self.group.move_begin(int(job), int(column), int(number), self.archive(int(number)))
        return "moving" if answer.kind == "Ok" else self.told(answer)

    def step_move_step(self, job, column):
        """A move goes on."""
        return self.told(self.group.move_step(int(job), int(column)))

    def step_swap(self, job, column, number):
        """A home is replaced."""
        answer = self.group.swap(int(job), int(column), int(number), self.archive(int(number)))
        return "swapped %d" % answer.fields if answer.kind == "Ok" else self.told(answer)

    def step_use_of(self, number):
        """What an archive is used as."""
        use = self.group.use_of(int(number))
        words = {"Home": "home of", "Target": "target of", "Retired": "retired from"}
        return "none" if use is None else f"{words[use[1]]} {use[0]}"

    def step_trace(self, first, second):
        """The home of an archive, and whether another is free."""
        home, is_taken = self.group.trace(int(first), int(second))
        text = "no home" if home is None else f"home of {home[0]}" + (f" moving to {home[1]}" if home[1] is not None else "")
        return text + (", taken" if is_taken else ", free")

    def step_expect(self, *_):
        """What is told of a block that comes changes nothing."""
        return "noted"

    def step_logged(self):
        """How many entries there are."""
        return str(len(self.group.log))

    def step_repeat(self, count, *words):
        """A step many times."""
        return ", ".join(in_row(self.step(words) for _ in range(int(count))))

    def step_table(self):
        """The slots and the cursor of the last close."""
        return "no table" if self.log is None else "%s cursor %d %d" % ((self.letters(),) + self.shown.cursor)

    def letters(self):
        """A letter for each slot."""
        return " ".join("".join(LETTERS[state] for state, _ in row) for row in self.shown.slots)

    def step_log(self):
        """The entries of the session that the last close ended."""
        if self.log is None:
            return "no table"
        return "\n".join([f"{len(self.log)} entries"] + ["  " + text for text in in_row(map(entry_text, self.log))])

    def step_heard(self, number):
        """The sums that an archive heard."""
        return ", ".join(f"{slot} {byte_of(total)}" for slot, total in self.archive(int(number)).heard) or "none"

    def step_blocks(self, number):
        """The blocks of an archive."""
        held = self.archive(int(number)).blocks
        return " ".join(byte_of(held[slot]) if slot in held else "--" for slot in range(self.table.stripes))

    def step_faults(self):
        """How often each archive failed."""
        return ", ".join(f"archive {n}: {a.faults}" for n, a in sorted(self.archives.items()) if a.faults) or "none"


class Story:
    """The lines of a story, with their numbers in the text."""

    def __init__(self, title):
        self.lines = [title]

    def tell(self, extra=None, quiet=None):
        """What the lines come to. With `extra`, an archive and a call that fails too, steps are made as a quiet run makes them."""
        scene, out = None, []
        for line in self.lines:
            words = line.split(" ")
            if words[0] == "group":
                scene = Scene(*map(int, words[1:]))
                if extra:
                    scene.archive(extra[0]).fails.add(extra[1])
                out.append(line)
            elif words[0] == "had":
                scene.add_had(words)
                out.append(line)
            elif words[0] in ("holds", "fail", "lose"):
                scene.outside(words)
                out.append(line)
            elif not line or line[0] in "#=" or line == "each call fails":
                out.append(line)
            else:
                outcome = quiet.step(scene, words, line) if quiet else scene.step(words)
                scene.outcomes.append((line, outcome))
                out.append(f"{line} -> {outcome}")
        return scene, out

    def is_each(self):
        """Whether each call fails in turn."""
        return "each call fails" in self.lines

    def told(self):
        """The story as it is printed, with a line for each call that fails in turn."""
        scene, out = self.tell()
        if not self.is_each():
            return out
        ends = []
        while out[-1] == "" or out[-1][0] == "#":
            ends.insert(0, out.pop())
        for number, archive in sorted(scene.archives.items()):
            for call in range(archive.calls):
                out.append("  " + Failing(self, scene, number, call).told())
        return out + ends


class Failing:
    """A quiet run of a story in which one more call fails."""

    def __init__(self, story, printed, number, call):
        self.story, self.printed, self.number, self.call = story, printed, number, call
        self.at, self.different, self.is_same = 0, None, True

    def step(self, scene, words, line):
        """A step, made again where it was answered `faulted`; a parity block that a put left unkept is mended instead."""
        wanted = self.printed.outcomes[self.at][1]
        self.at += 1
        outcome = scene.step(words)
        if words[0] in NOTES or outcome == wanted:
            return outcome
        if self.different is None:
            self.different = (line, outcome)
        elif self.different is not None:
            self.is_same = False
        faulted = re.fullmatch(r"(?:swept \d+ \d+, )?faulted (\d+)", outcome)
        if faulted:
            again = self.again(scene, words, int(faulted[1]), wanted)
            self.is_same = self.is_same and again == wanted
        return outcome

    def again(self, scene, words, column, wanted):
        """The outcome of the step made again, or that of the printed run where an unkept parity block was mended."""
        table = scene.group.table
        unsound = [s for s in range(table.stripes) if table.state(s, column) in (LOST, BROKEN)]
        if words[0] != "put" or column < table.data or not unsound:
            return scene.step(words)
        for _ in range(9):
            if scene.group.mend(int(words[1]), unsound[0], column, BLIND).kind == "Whole":
                break
        return wanted

    def told(self):
        """The line of this run."""
        scene, _ = self.story.tell((self.number, self.call), self)
        told = []
        for entry in scene.log:
            stripe, column = (entry.fields + (None, None))[:2]
            if entry.kind == "Fault":
                told.append(f"fault {stripe} {column}")
            if entry.kind in ("Put", "Put2"):
                kept = [value for value in entry.fields if isinstance(value, bool)]
                told += [f"unkept {stripe} {scene.table.data + at}" for at, is_kept in enumerate(kept) if not is_kept]
        step = " -> ".join(self.different) if self.different else "no step ->"
        first = f"{step};" if self.different else step
        return f"archive {self.number} call {self.call}: {first} {', '.join(told) or 'nothing'}; then {self.ending(scene)}"

    def ending(self, scene):
        """Whether all else went as in the printed run."""
        numbers = set(scene.archives) | set(self.printed.archives)
        same = self.is_same and scene.letters() == self.printed.letters()
        for number in numbers:
            mine, theirs = scene.archive(number), self.printed.archive(number)
            same = same and mine.faults == theirs.faults + (number == self.number)
            same = same and scene.step_blocks(number) == self.printed.step_blocks(number)
        return "as above" if same else "otherwise"


def bad_line(lines):
    """The number and the text of the first line that is no step or stands where it may not, or None."""
    began, opened = None, False
    for number, line in enumerate(lines, 1):
        if line == "" or line.startswith("#"):
            continue
        if line.startswith("= "):
            began, opened = False, False
        elif began is None or not may_stand(line, began, opened):
            return number, line
        elif line.startswith("group "):
            began = True
        opened = opened or line == "open"
    return None


def may_stand(line, began, opened):
    """Whether a line is of a form that may stand here."""
    if not began:
        found = re.fullmatch(f"group {NUMBER} ([12]) {NUMBER}", line)
        return bool(found) and 1 <= int(found[1]) <= 16 and 1 <= int(found[3]) <= 4096
    if line == "each call fails" or line.startswith("had "):
        return not opened and (line == "each call fails" or matches(HAD, line[4:]))
    step, repeated = line, re.fullmatch(f"repeat {NUMBER} (.*)", line)
    if repeated:
        step = repeated[2]
        if not 1 <= int(repeated[1]) <= 1000000:
            return False
    return matches(STEPS, step) and has_job(step) or not repeated and matches(OUTSIDE, line)


def has_job(step):
    """Whether the job that a call names is within its limits."""
    words = step.split(" ")
    jobs = ("put", "look", "sweep", "count", "begin", "advance", "mend", "move_begin", "move_step", "swap")
    return words[0] not in jobs or 1 <= int(words[1]) <= 4294967295


def tell(text):
    """What the stories come to, and the status."""
    lines = text.split("\n")
    if lines[-1] == "":
        lines.pop()
    bad = bad_line(lines)
    if bad:
        return f"line {bad[0]} is no step: {bad[1]}\n", 1
    stories, out = [], []
    for line in lines:
        if line.startswith("= "):
            stories.append(Story(line))
        elif stories:
            stories[-1].lines.append(line)
        else:
            out.append(line)
    for story in stories:
        out += story.told()
    return "".join(line + "\n" for line in out), 0
