"""The built program in a folder of its own: sessions over it, what they wrote, and the calls that they made."""

import errno
import os
import pathlib
import shutil
import subprocess
import tempfile

HERE = pathlib.Path(__file__).resolve().parent
TOP = HERE.parent.parent
PROGRAM = TOP / "crates/potshards/out/potshards"
# The program for people, for what it looks at before a session.
POTS = TOP / "crates/pots/out/pots"
# A fault that calls.c feigns, and that is to be found.
PLANT = None

RACK = "--groups 3 --columns 3 --stripes 16 --fragments 2 --need 2 --shards 3 --blur 16".split()
NARROW = "--groups 3 --columns 1 --stripes 8 --fragments 2 --need 3 --shards 3 --blur 16".split()
TWO_PARITY = "--groups 3 --columns 2 --parity 2 --stripes 16 --fragments 2 --need 2 --shards 3 --blur 16".split()
THREE_AND_TWO = "--groups 3 --columns 3 --parity 2 --stripes 16 --fragments 2 --need 2 --shards 3 --blur 16".split()
SEED = "5e" * 32

# What standard error begins with at the statuses that have something to do.
ADVICE = {
    4: "potshards: standard input or the system's random bytes could not be read",
    5: "potshards: standard output could not be written",
    6: "potshards: the desk could not be locked, read or replaced",
    8: "potshards: an archive file could not be opened, read or synced",
    70: "potshards: memory ran out",
}


class Answer:
    """What a call of the program came to."""

    def __init__(self, ran):
        self.status, self.out = ran.returncode, ran.stdout
        self.err = ran.stderr.decode("utf-8", "replace")

    def tells(self):
        """Whether standard error says what the status asks for: its line, or nothing but which archive failed."""
        wanted = ADVICE.get(self.status)
        lines = self.err.splitlines()
        others = [it for it in lines if not it.startswith("potshards: archive-")]
        if self.status == 8:
            # which archive it was
            return len(others) < len(lines) and any(it.startswith(wanted) for it in others)
        return any(it.startswith(wanted) for it in others) if wanted else not others


class Folder:
    """A working folder that is removed at the end."""

    def __init__(self, base=None):
        self.path = pathlib.Path(tempfile.mkdtemp(prefix="hostile-", dir=base))

    def __enter__(self):
        return self

    def __exit__(self, *_):
        shutil.rmtree(self.path, ignore_errors=True)

    def copy_of(self, other):
        """Makes this folder what the other one is."""
        for path in other.path.iterdir():
            copy_with_holes(path, self.path / path.name)
        return self

    def call(self, words, given=b"", program=None, before=None, **hostile):
        """Calls the program, or another one, and before it a function in its process. hostile: fail, how, mute, alloc, rest, log,
        which calls.c reads."""
        env = {"PATH": os.environ.get("PATH", "")}
        hostile["plant"] = PLANT
        chosen = {f"HOSTILE_{key.upper()}": str(value) for key, value in hostile.items() if value is not None}
        if chosen:
            env.update(chosen, LD_PRELOAD=str(library()))
        ran = subprocess.run(
            [str(program or PROGRAM), *words], input=given, cwd=self.path, env=env, capture_output=True, timeout=120, preexec_fn=before
        )
        return Answer(ran)

    def pots(self, *words, **how):
        """Calls the program for people."""
        return self.call(words, program=POTS, **how)

    def run(self, script, **hostile):
        return self.call(["run", "--seed", SEED], script, **hostile)

    def begin(self, rack=RACK):
        answer = self.call(["init", *rack])
        assert (answer.status, answer.out) == (0, b"ready\n"), (answer.status, answer.out, answer.err)
        return self

    def noted(self, words, given):
        """Calls the program with nothing in its way, and gives its answer and the lines that calls.c noted of it."""
        log = self.path.with_suffix(".log")
        answer = self.call(words, given, log=log)
        lines = list(lines_of(log))
        log.unlink()
        return answer, lines


def copy_with_holes(path, to):
    """Copies the parts of a file that it has: a desk is a file of a gibibyte with few of them."""
    with open(path, "rb", 0) as old, open(to, "wb", 0) as new:
        size, at = os.fstat(old.fileno()).st_size, 0
        new.truncate(size)
        while at < size:
            try:
                at = os.lseek(old.fileno(), at, os.SEEK_DATA)
            except OSError as error:
                if error.errno != errno.ENXIO:
                    raise
                return
            end = os.lseek(old.fileno(), at, os.SEEK_HOLE)
            while at < end:
                at += os.pwrite(new.fileno(), os.pread(old.fileno(), min(end - at, 1 << 20), at), at)


def lines_of(path):
    """The lines that calls.c noted, each as its first word, its name, two numbers, and the bytes of a write."""
    with open(path, "rb") as log:
        for line in iter(log.readline, b""):
            call, name, at, count, has_bytes = line.decode().split()
            yield call, name, int(at), int(count), log.read(int(count)) if has_bytes == "1" else b""


def library():
    """The library that stands between the program and the C library, compiled once for each process."""
    made = pathlib.Path(tempfile.gettempdir()) / f"hostile-calls-{os.getuid()}-{int((HERE / 'calls.c').stat().st_mtime)}.so"
    if not made.exists():
        room = made.with_suffix(f".{os.getpid()}")
        subprocess.run(["cc", "-O1", "-shared", "-fPIC", "-o", str(room), str(HERE / "calls.c"), "-ldl"], check=True)
        os.replace(room, made)
    return made


def store(name, contents):
    return b"store %s %d\n%s\n" % (name.encode(), len(contents), contents)


def script(*lines):
    """A script of these lines, given as text or bytes, with its `quit`."""
    parts = [it if isinstance(it, bytes) else it.encode() + b"\n" for it in lines]
    return b"".join(parts) + b"quit\n"


def pattern(count, first=17):
    """Bytes that differ from file to file."""
    return bytes((first + 31 * at) % 256 for at in range(count))


def replies(out):
    """The replies in order, each as (first line, the bytes of its file or None). A reply that is cut short is left out."""
    found, at = [], 0
    while at < len(out):
        end = out.find(b"\n", at)
        if end < 0:
            break
        line, at = out[at:end].decode("latin-1"), end + 1
        if line.startswith("file "):
            length = int(line.split()[2])
            if at + length + 1 > len(out):
                break
            found.append((line, out[at : at + length]))
            at += length + 1
        else:
            found.append((line, None))
    return found


def stored_in(out):
    """The names that a session said it stored."""
    return {line.split()[1] for line, _ in replies(out) if line.startswith("stored ")}


def complaints_at_replies(out, files):
    """A line for each reply that gives other bytes than those of the file."""
    named = [(line.split()[1], got) for line, got in replies(out) if got is not None]
    return [f"{name} came back as other bytes" for name, got in named if files.get(name) != got]


def complaints_afterwards(folder, files, may_miss, groups, spent):
    """What is wrong in a session that fetches each of these files, repairs every group, and asks how they are. Of the files in
    may_miss `absent` is no wrong, and of the groups in spent, whose parity is spent, lost slots."""
    answer = folder.run(script(*[f"fetch {name}" for name in files], *[f"repair {it}" for it in range(groups)], "status"))
    if answer.status not in (0, 1):
        return [f"the next session ends with {answer.status}: {answer.out[:80]!r} {answer.err[:80]!r}"]
    found = replies(answer.out)
    wrong = complaints_at_replies(answer.out, files)
    for name, (line, got) in zip(files, found):
        if got is None and not (name in may_miss and line == f"absent {name}"):
            wrong.append(f"{name} did not come back: {line}")
    states = [line.split() for line, _ in found[len(files) + groups :]]
    wrong += [f"after the repair: {' '.join(it)}" for it in states if it[7] != "0" or (it[5] != "0" and int(it[1]) not in spent)]
    return wrong + ([] if len(states) == groups else ["replies are missing"])
