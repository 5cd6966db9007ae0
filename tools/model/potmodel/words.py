"""The words of a command line, and the one task that they spell."""

import re

from .image import Rack
from .pieces import Geometry

NUMBER = re.compile(r"0|[1-9][0-9]*")


def read_number(text, least, most):
    """A number within these bounds, as decimal digits without a leading zero; else None."""
    if not text.isascii() or not NUMBER.fullmatch(text) or len(text) > 12:
        return None
    return int(text) if least <= int(text) <= most else None


def read_options(words, names):
    """The values of options by name, each given at most once; else None."""
    values, at = {}, 0
    while at < len(words):
        word = words[at]
        at += 1
        if not word.startswith("--"):
            return None
        name, joint, value = word[2:].partition("=")
        if not joint:
            if at == len(words) or words[at].startswith("-"):
                return None
            value = words[at]
            at += 1
        if name not in names or name in values:
            return None
        values[name] = value
    return values


class Reader:
    """The options of a command, and whether each so far is in its form."""

    def __init__(self, words, names):
        self.values = read_options(words, names)
        self.is_fine = self.values is not None

    def want(self, value):
        """A value, which is in its form where it is not None."""
        self.is_fine = self.is_fine and value is not None
        return value

    def number(self, name, least, most, other=None):
        """The number of an option, or what it is where it is left out."""
        if not self.is_fine or least is None or most is None:
            return None
        if name not in self.values:
            return self.want(other)
        return self.want(read_number(self.values[name], least, most))

    def seed(self):
        """The seed, or b"" where it is left out."""
        text = (self.values or {}).get("seed")
        if text is None:
            return b""
        return self.want(bytes.fromhex(text) if re.fullmatch(r"[0-9a-fA-F]{64}", text) else None)

    def geometry(self, most_shards):
        """A geometry."""
        fragments = self.number("fragments", 2, 8)
        shards = self.number("shards", 1, most_shards)
        need = self.number("need", 1, shards)
        return Geometry(fragments, need, shards, self.number("blur", 0, 63))


def read_init(words):
    """`init`: a rack."""
    reader = Reader(words, {"groups", "columns", "parity", "stripes", "fragments", "need", "shards", "blur"})
    geometry = reader.geometry(16)
    groups = reader.number("groups", geometry.shards, 16)
    columns, parity = reader.number("columns", 1, 16), reader.number("parity", 1, 2, 1)
    rack = Rack(groups, columns, parity, reader.number("stripes", 1, 4096), geometry)
    return ("init", rack) if reader.is_fine else None


def read_run(words):
    """`run`: a seed, empty where it is to be drawn, a number of workers, and whether it is careful."""
    reader = Reader(words, {"seed", "workers", "careful"})
    seed, workers, careful = reader.seed(), reader.number("workers", 1, 16, 4), (reader.values or {}).get("careful", "no")
    return ("run", seed, workers, careful == "yes") if reader.is_fine and careful in ("yes", "no") else None


def read_recover(words):
    """`recover`: numbers of archives and stripes, a blur, the way: by rings, by some with wrong shares, or by open chains; and
    whether the work is bounded."""
    reader = Reader(words, {"archives", "stripes", "blur", "robust", "open", "bounded"})
    archives, stripes, blur = reader.number("archives", 1, 512), reader.number("stripes", 1, 4096), reader.number("blur", 0, 63)
    asked = [reader.values.get(name, "no") for name in ("robust", "open")]
    ways = {("no", "no"): "rings", ("yes", "no"): "robust", ("no", "yes"): "open"}
    bounded = reader.values.get("bounded", "no")
    if not reader.is_fine or tuple(asked) not in ways or bounded not in ("yes", "no"):
        return None
    return "recover", archives, stripes, blur, ways[tuple(asked)], bounded == "yes"


def read_drill(words):
    """`drill`: a geometry, the hidden fragment, the points of it that are seen, and a seed."""
    reader = Reader(words, {"fragments", "need", "shards", "blur", "hidden", "seen", "seed"})
    geometry = reader.geometry(16)
    hidden, seed = reader.number("hidden", 1, geometry.fragments), reader.seed()
    if not reader.is_fine:
        return None
    seen = []
    if "seen" in reader.values:
        seen = [read_number(text, 1, geometry.shards) for text in reader.values["seen"].split(",")]
    if None in seen or sorted(set(seen)) != seen:
        return None
    return "drill", geometry, hidden, seen, seed


def read_spot(text):
    """A group and a column, with a dot between them."""
    group, _, column = text.partition(".")
    spot = (read_number(group, 0, 15), read_number(column, 0, 17))
    return None if None in spot else spot


def read_audit(words):
    """`audit`: the columns that are seen, and whether loose blocks are counted."""
    reader = Reader(words, {"seen", "loose"})
    if not reader.is_fine or "seen" not in reader.values or reader.values.get("loose", "no") not in ("yes", "no"):
        return None
    seen = [read_spot(text) for text in reader.values["seen"].split(",")]
    if None in seen or sorted(set(seen)) != seen:
        return None
    return "audit", seen, reader.values.get("loose") == "yes"


def read_generate(words):
    """The number of `generate`."""
    number = read_number(words[0], 1, 1000000) if len(words) == 1 else None
    return ("generate", number) if number is not None else None


READERS = {"init": read_init, "run": read_run, "recover": read_recover, "drill": read_drill, "audit": read_audit,
           "generate": read_generate}


def read_words(words):
    """The task that the words spell and that is worked, or None."""
    if not words or words[0] not in READERS:
        return None
    return READERS[words[0]](words[1:])
