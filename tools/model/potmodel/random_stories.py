"""Stories by chance, for comparing the programs of stories with the model on more than what anyone wrote down."""

from random import Random


class Maker:
    """Draws the lines of stories from a seed."""

    def __init__(self, seed):
        self.random = Random(seed)

    def number(self, most):
        """A number from 0 to the most."""
        return self.random.randint(0, most)

    def byte(self):
        """Two hexadecimal digits, of few bytes, so that blocks meet again."""
        return self.random.choice(["11", "22", "57", "a0", "00"])


class GroupMaker(Maker):
    """Stories of a group."""

    def story(self, title):
        """A group, what happens to it, and what is left."""
        self.data, self.parity, self.stripes = self.random.randint(1, 4), self.random.randint(1, 2), self.random.randint(1, 6)
        self.width = self.data + self.parity
        lines = [f"= {title}", f"group {self.data} {self.parity} {self.stripes}", "open"]
        for _ in range(self.random.randint(10, 60)):
            lines += self.happens()
        lines += ["close", "table", "log", "faults"]
        return lines + [f"{look} {number}" for number in range(self.width + 3) for look in ("heard", "blocks")]

    def place(self):
        """A place of the group."""
        return f"{self.number(self.stripes - 1)} {self.number(self.width - 1)}"

    def happens(self):
        """A few lines: a call, or something that comes from outside."""
        number, job = self.number(self.width + 2), self.random.randint(1, 3)
        ways = {
            "put": (9, lambda: [f"put {job} {self.byte()}"]),
            "look": (5, lambda: [f"look {job} {self.place()}"]),
            "sweep": (3, lambda: [f"sweep {job} {self.place()}"]),
            "mend": (6, lambda: [f"repeat {self.random.randint(1, 8)} mend {job} {self.place()}"]),
            "relay": (2, lambda: [f"begin {job} {self.place()}", f"repeat {self.random.randint(1, 4)} advance {job} {self.number(self.stripes - 1)}"]),
            "move": (2, lambda: [f"move_begin {job} {self.number(self.width - 1)} {number}"]),
            "step": (3, lambda: [f"repeat {self.random.randint(1, self.stripes + 1)} move_step {job} {self.number(self.width - 1)}"]),
            "swap": (1, lambda: [f"swap {job} {self.number(self.width - 1)} {number}"]),
            "ask": (2, lambda: [f"count {job}", f"next {self.place()} unsound", f"use_of {number}", f"trace {number} {self.number(self.width)}"]),
            "lose": (4, lambda: [f"lose {number} {self.number(self.stripes - 1)}"]),
            "alter": (1, lambda: [f"holds {number} {self.number(self.stripes - 1)} {self.byte()}"]),
            "fail": (2, lambda: [f"fail {number} at {self.number(3)}"]),
            "later": (1, lambda: [f"lose {number} {self.number(self.stripes - 1)} at {self.number(3)}"]),
            "again": (1, lambda: ["close", "table", "log", "open"]),
        }
        chosen = self.random.choices(list(ways), [weight for weight, _ in ways.values()])[0]
        return ways[chosen][1]()


class SessionMaker(Maker):
    """Stories of sessions."""

    def story(self, title):
        """An archive, sessions over it with trouble between, and what is left."""
        shards = self.random.randint(1, 4)
        self.groups, self.columns, self.parity = self.random.randint(shards, 4), self.random.randint(1, 2), self.random.randint(1, 2)
        self.archives = self.groups * (self.columns + self.parity)
        self.names = ["a", "b", "c.d", "e_f"]
        need, fragments, stripes = self.random.randint(1, shards), self.random.randint(2, 3), self.random.randint(4, 12)
        geometry = f"--fragments {fragments} --need {need} --shards {shards} --blur {self.random.choice([0, 16, 40])}"
        lines = [f"= {title}", f"$ init --groups {self.groups} --columns {self.columns} --parity {self.parity} --stripes {stripes} {geometry}"]
        for _ in range(self.random.randint(1, 4)):
            lines += self.trouble() + self.session()
            lines += ["image", "fields", "records", "slots", "logs", "blocks", "heard", "room"]
        blur = self.random.choice([0, 16, 40])
        way = self.random.choice(["", " --robust yes", " --open yes"])
        return lines + [f"$ recover --archives {self.archives + 2} --stripes {stripes} --blur {blur}{way}"]

    def trouble(self):
        """What happens before a session."""
        archive, lines = self.number(self.archives + 1), []
        for _ in range(self.number(3)):
            ways = [f"empty {archive}", f"lose {archive} {self.number(3)}", f"fail archive {archive} {self.number(40)}",
                    f"lose {archive} {self.number(40)} {self.number(3)}", f"fail room {self.number(60)}"]
            rare = [f"fail sink {self.number(4)}", f"fail desk {self.number(2)}", f"fail source {self.number(2)}", f"flip {self.number(100)}"]
            lines.append(self.random.choice(ways * 4 + rare))
        return [line for line in lines if not line.startswith(("fail room", "flip")) or self.number(5) == 0]

    def session(self):
        """A session of a few commands."""
        lines = [f"$ run --workers {self.random.randint(1, 16)}"]
        for _ in range(self.random.randint(1, 8)):
            lines += self.command()
        return lines + (["| quit"] if self.number(30) else [])

    def command(self):
        """A command of a script."""
        name, group = self.random.choice(self.names), self.number(self.groups - 1)
        first, second = self.number(self.archives - 1), self.archives + self.number(2)
        length = self.random.choice([0, 5, 864, 865, 1000])
        ways = {
            "store": (6, [f"| store {name} {length}", f"+ {length} {self.number(255)}", "|"]),
            "fetch": (6, [f"| fetch {name}"]),
            "ask": (2, ["| list", "| status"]),
            "scrub": (1, [f"| scrub {group}"]),
            "repair": (2, [f"| repair {group}"]),
            "replace": (2, [f"| replace {first} {second}"]),
            "migrate": (2, [f"| migrate {first} {second}"]),
            "renew": (2, [f"| renew {name} 2 1 {self.random.randint(1, self.groups)} {self.random.choice([0, 16])}"]),
        }
        chosen = self.random.choices(list(ways), [weight for weight, _ in ways.values()])[0]
        return ways[chosen][1]


def stories(kind, seed, count):
    """The text of stories of a kind."""
    maker = {"group": GroupMaker, "session": SessionMaker}[kind]
    lines = []
    for at in range(int(count)):
        lines += maker(f"{seed} {at}").story(f"by chance, {seed} {at}")
    return "".join(line + "\n" for line in lines)
