"""The script that a session reads, and the replies that it writes."""

import re

from .pieces import Geometry

LONGEST_SCRIPT = 67108864
LONGEST_LINE = 4096
NUMBER = re.compile(rb"0|[1-9][0-9]{0,8}")
NAME = re.compile(rb"[a-z0-9._-]{1,64}")
JOBS = ("store", "fetch", "scrub", "repair", "migrate", "renew")
REFUSALS = ("long", "exists", "full", "absent", "lost", "odd", "fault", "logfull", "noarchive", "inuse", "often")


class BadLine(Exception):
    """A script leaves its grammar at the line of this number."""


def read_number(word, least, most):
    """The number of a word within these bounds, or None."""
    if not NUMBER.fullmatch(word):
        return None
    return int(word) if least <= int(word) <= most else None


def read_numbers(words, bounds):
    """The numbers of words, each within its bounds, or None."""
    if len(words) != len(bounds):
        return None
    numbers = [read_number(word, least, most) for word, (least, most) in zip(words, bounds)]
    return None if None in numbers else numbers


def read_line(words, groups):
    """The command of a line as a word and its fields, or None; a `store` has the length in place of its bytes."""
    word, rest = words[0].decode("latin-1"), words[1:]
    if word in ("list", "status", "quit", "end"):
        return (word,) if not rest else None
    if word in ("store", "fetch", "renew"):
        if not rest or not NAME.fullmatch(rest[0]):
            return None
        bounds = {"store": [(0, LONGEST_SCRIPT)], "fetch": [], "renew": [(2, 8), (1, 16), (1, min(16, groups)), (0, 63)]}[word]
        numbers = read_numbers(rest[1:], bounds)
        if numbers is None or word == "renew" and numbers[1] > numbers[2]:
            return None
        return (word, rest[0], Geometry(*numbers)) if word == "renew" else (word, rest[0], *numbers)
    bounds = {"scrub": [(0, groups - 1)], "repair": [(0, groups - 1)], "replace": [(0, 511)] * 2, "migrate": [(0, 511)] * 2,
              "together": [(1, 1024)]}.get(word)
    numbers = read_numbers(rest, bounds) if bounds else None
    return None if numbers is None else (word, *numbers)


def may_stand(word, left):
    """Whether a line may stand outside a batch (left is None), or in one with so many jobs still to come."""
    if left is None:
        return word != "end"
    return word in JOBS if left else word == "end"


def jobs_left(command, left):
    """How many jobs of a batch are still to come behind a line; None outside a batch."""
    if command[0] == "together":
        return command[1]
    return None if left is None or command[0] == "end" else left - 1


def read_script(data, groups):
    """The commands of a script, in order; else BadLine with the number of the first line that leaves the grammar."""
    if len(data) > LONGEST_SCRIPT:
        raise BadLine(0)
    commands, at, line, left = [], 0, 1, None
    while True:
        stop = data.find(b"\n", at)
        if stop < 0 or stop - at > LONGEST_LINE:
            raise BadLine(line)
        command = read_line(data[at:stop].split(b" "), groups)
        if command is None or not may_stand(command[0], left):
            raise BadLine(line)
        at = stop + 1
        if command[0] == "store":
            at, command = read_stated(data, at, command, line)
        commands.append(command)
        left = jobs_left(command, left)
        line += 1
        if command[0] == "quit":
            break
    if at != len(data):
        raise BadLine(line)
    return commands


def steps_of(commands):
    """The commands before `quit` as steps: lists of what is worked as one, a command alone or the jobs of a batch. A batch of one job gives
    what its line alone does."""
    steps, at = [], 0
    while commands[at][0] != "quit":
        count = commands[at][1] if commands[at][0] == "together" else 0
        steps.append(commands[at + 1:at + 1 + count] if count else commands[at:at + 1])
        at += count + 2 if count else 1
    return steps


def read_stated(data, at, command, line):
    """The stated bytes of a `store` with their LF, and the command with the bytes."""
    word, name, length = command
    if data[at + length:at + length + 1] != b"\n":
        raise BadLine(line)
    return at + length + 1, (word, name, data[at:at + length])


def reply(*fields):
    """A reply as a line: words, numbers and names."""
    return b" ".join(field if isinstance(field, bytes) else str(field).encode() for field in fields) + b"\n"


def is_refusal(text):
    """Whether a reply is a refusal."""
    return text.split(None, 1)[0].decode("latin-1") in REFUSALS
