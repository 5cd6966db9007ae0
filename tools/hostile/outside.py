"""What a world does of itself, with no call that fails by chance: disks that can only be read, an archive of which no read works,
links to somebody's file, pipes and sockets in the place of files, a desk without end, a bound to the length of files, and signals
that cut calls short. Each has to be named on standard error, by number and path, and nothing may be lost or hang.

The rows of `pots` are left out where that program is not there, and those of disks where this user may mount none."""

import contextlib
import os
import resource
import socket
import subprocess

import program
from program import Folder, complaints_at_replies, replies, script, store

FILES = {"a": program.pattern(900), "b": program.pattern(5, 80)}
STORED = script(*[store(name, text) for name, text in FILES.items()])
FETCHED = script(*[f"fetch {name}" for name in FILES])


def begun(folder):
    folder.begin()
    assert folder.run(STORED).status == 0
    return folder


def wrong_after(folder):
    """What is wrong with the files of ended sessions in a session with nothing in its way."""
    answer = folder.run(FETCHED)
    wrong = complaints_at_replies(answer.out, FILES)
    got = {line.split()[1] for line, text in replies(answer.out) if text is not None}
    return wrong + [f"{name} did not come back" for name in FILES if name not in got]


@contextlib.contextmanager
def read_only_disk(folder, numbers):
    """These archives on a disk of their own, which is turned to be read alone."""
    disk = folder.path / "disk"
    disk.mkdir()
    subprocess.run(["mount", "-t", "tmpfs", "-o", "size=8m", "none", str(disk)], check=True)
    try:
        for number in numbers:
            name = f"archive-{number}"
            os.rename(folder.path / name, folder.path / "moved")
            (disk / name).write_bytes((folder.path / "moved").read_bytes())
            (folder.path / "moved").unlink()
            os.symlink(disk / name, folder.path / name)
        subprocess.run(["mount", "-o", "remount,ro", str(disk)], check=True)
        yield disk
    finally:
        subprocess.run(["umount", "-l", str(disk)], check=False)


def may_mount():
    with Folder() as folder:
        ran = subprocess.run(["mount", "-t", "tmpfs", "none", str(folder.path)], capture_output=True, check=False)
        if ran.returncode == 0:
            subprocess.run(["umount", str(folder.path)], check=False)
        return ran.returncode == 0


def names(answer, number, path=""):
    return f"archive-{number} at {path}" in answer.err


def read_only(base):
    """A session fetches from a disk that can only be read, a store is refused by name, and nothing is lost."""
    wrong = []
    with Folder(base) as folder, read_only_disk(begun(folder), range(4)) as disk:
        before = (folder.path / "archive-0").read_bytes()
        answer = folder.run(FETCHED)
        if answer.status != 0 or answer.err:
            wrong.append(f"fetch: status {answer.status}, {answer.err[:90]!r}")
        wrong += complaints_at_replies(answer.out, FILES)
        answer = folder.call(["recover", "--archives", "12", "--stripes", "16", "--blur", "16"])
        if answer.status != 0 or answer.err:
            wrong.append(f"recover: status {answer.status}, {answer.err[:90]!r}")
        answer = folder.run(script(store("c", program.pattern(2000))))
        if answer.status not in (1, 8) or not names(answer, 0, disk) and not names(answer, 3, disk):
            wrong.append(f"store: status {answer.status}, {answer.err[:90]!r}")
        if (folder.path / "archive-0").read_bytes() != before:
            wrong.append("what lies on the disk was changed")
        wrong += wrong_after(folder)
    return 4, wrong


def read_only_desk(base):
    """A folder that can only be read is verified by pots, and a session in it ends with 6."""
    wrong = []
    with Folder(base) as folder:
        disk = folder.path / "vault"
        disk.mkdir()
        subprocess.run(["mount", "-t", "tmpfs", "-o", "size=8m", "none", str(disk)], check=True)
        try:
            inner = object.__new__(Folder)
            inner.path = disk
            begun(inner)
            for is_locked in (True, False):
                if not is_locked:
                    subprocess.run(["mount", "-o", "remount,rw", str(disk)], check=True)
                    (disk / "desk.lock").unlink()
                subprocess.run(["mount", "-o", "remount,ro", str(disk)], check=True)
                answer = inner.pots("verify")
                if answer.status != 0:
                    wrong.append(f"verify: status {answer.status}, {answer.err[:90]!r}")
                answer = inner.run(FETCHED)
                if answer.status != 6:
                    wrong.append(f"run: status {answer.status}, {answer.err[:90]!r}")
                # one archive more than there are: it is an empty one
                answer = inner.call(["recover", "--archives", "13", "--stripes", "16", "--blur", "16"])
                if answer.status != 0 or answer.err or (disk / "archive-12").exists():
                    wrong.append(f"recover: status {answer.status}, {answer.err[:90]!r}")
        finally:
            subprocess.run(["umount", "-l", str(disk)], check=False)
    return 6, wrong


def silent(base):
    """pots begins no session while an archive is there of which no read works, and the desk stays."""
    wrong = []
    with Folder(base) as folder:
        folder.pots("init", "--sites", "3", "--room", "100KB")
        (folder.path / "f").write_bytes(program.pattern(3000))
        answer = folder.pots("store", "f")
        assert answer.status == 0, answer.err
        desk = folder.pots("list").out, (folder.path / "desk.pss").read_bytes()[:4096]
        for words in (["check"], ["fetch", "f", "--to", "out"], ["repair"]):
            answer = folder.pots(*words, mute="archive-2,archive-3")
            told = all(f"archive-{number} is there, and no block of it could be read" in answer.err for number in (2, 3))
            if answer.status != 8 or not told:
                wrong.append(f"{words[0]}: status {answer.status}, {answer.err[:90]!r}")
        if (folder.path / "desk.pss").read_bytes()[:4096] != desk[1]:
            wrong.append("the desk was changed")
        answer = folder.pots("fetch", "f", "--to", "out")
        if answer.status != 0 or answer.err or (folder.path / "out/f").read_bytes() != program.pattern(3000):
            wrong.append(f"afterwards: status {answer.status}, {answer.err[:90]!r}")
        answer = folder.pots("check")
        if answer.status != 0 or b"all blocks are there" not in answer.out:
            wrong.append(f"afterwards: {answer.out[-90:]!r}")
    return 5, wrong


def foreign_link(base):
    """A link that leads to somebody's file is named, and the file stays as it is."""
    wrong, letters = [], [b"Dear Ann,\n" * 3, b"Dear Ann,\n" * 3000, bytes(range(256)) * 40, b"%PDF-1.4 and so on"]
    for text in letters:
        with Folder(base) as folder:
            begun(folder)
            os.unlink(folder.path / "archive-5")
            (folder.path / "letter").write_bytes(text)
            os.symlink("letter", folder.path / "archive-5")
            answer = folder.run(script(store("c", program.pattern(3000))))
            if answer.status != 8 or not names(answer, 5, "letter"):
                wrong.append(f"status {answer.status}, {answer.err[:90]!r}")
            if (folder.path / "letter").read_bytes() != text:
                wrong.append("the file was written over")
    return len(letters), wrong


def made_odd(path, kind):
    """Puts something under a name that is no file."""
    if kind == "pipe":
        os.mkfifo(path)
    elif kind == "socket":
        with socket.socket(socket.AF_UNIX) as it:
            here = os.getcwd()
            os.chdir(path.parent)
            it.bind(path.name)
            os.chdir(here)
    elif kind == "folder":
        path.mkdir()
    else:
        os.symlink(kind, path)


def no_files(base):
    """What is no file is refused at once, in the place of an archive and of each file of a desk."""
    wrong, tries = [], 0
    for name, status in (("archive-5", 8), ("desk.psi", 6), ("desk.pss", 6), ("desk.lock", 6)):
        for kind in ("pipe", "socket", "folder", "/dev/zero", "/dev/null", "/dev/full", "/dev/tty"):
            with Folder(base) as folder:
                begun(folder)
                if name == "desk.psi":
                    (folder.path / "desk.pss").unlink()
                (folder.path / name).unlink(missing_ok=True)
                made_odd(folder.path / name, kind)
                tries += 1
                try:
                    answer = folder.run(FETCHED)
                except subprocess.TimeoutExpired:
                    wrong.append(f"{name} as {kind}: it hangs")
                    continue
                if answer.status != status or not answer.tells():
                    wrong.append(f"{name} as {kind}: status {answer.status}, {answer.err[:90]!r}")
    return tries, wrong


def long_desk(base):
    """A desk of 100 GB, most of it a hole, is refused in little memory."""
    with Folder(base) as folder:
        with open(folder.path / "desk.psi", "wb") as file:
            file.truncate(100 << 30)
        words = [str(program.PROGRAM), "run"]
        streams = {"stdin": subprocess.DEVNULL, "stdout": subprocess.DEVNULL, "stderr": subprocess.PIPE}
        with subprocess.Popen(words, cwd=folder.path, **streams) as ran:
            text = ran.stderr.read().decode()
            _, status, usage = os.wait4(ran.pid, 0)
            ran.returncode = os.waitstatus_to_exitcode(status)
        is_right = ran.returncode == 6 and text.startswith(program.ADVICE[6]) and usage.ru_maxrss < 300_000
    return 1, [] if is_right else [f"status {ran.returncode}, {usage.ru_maxrss} kB, {text[:90]!r}"]


def bounded(base):
    """Where files may not be as long as a desk needs, a session ends with a line, and not by a signal."""
    wrong, bounds = [], [1 << 12, 1 << 20, 1 << 30, (1 << 30) + 4096]
    for most in bounds:
        with Folder(base) as folder:
            begun(folder)
            answer = folder.call(["run"], FETCHED, before=lambda it=most: resource.setrlimit(resource.RLIMIT_FSIZE, (it, it)))
            if answer.status != 6 or "ulimit -f" not in answer.err:
                wrong.append(f"at {most}: status {answer.status}, {answer.err[:90]!r}")
            wrong += wrong_after(folder)
    return len(bounds), wrong


def cut_short(base):
    """A read of standard input, or a write of standard output, that a signal cuts short is made again."""
    wrong, tries = [], 0
    with Folder(base) as prepared:
        begun(prepared)
        with Folder(base) as folder:
            clean, lines = folder.copy_of(prepared).noted(["run"], FETCHED)
        calls = [name for call, name, *_ in lines if call == "begin"]
        for at, name in enumerate(calls, 1):
            if name in ("read:stdin", "write:stdout"):
                with Folder(base) as folder:
                    answer = folder.copy_of(prepared).call(["run"], FETCHED, fail=at, how="eintr")
                tries += 1
                if (answer.status, answer.out, answer.err) != (clean.status, clean.out, ""):
                    wrong.append(f"{name}: status {answer.status}, {answer.err[:90]!r}")
    return tries, wrong if tries else ["no call was found"]


def rows(base):
    """Gives the tasks: a name, and a function that gives the count of tries and the complaints."""
    has_pots, mounts = program.POTS.is_file(), may_mount()
    alone = [("links", foreign_link), ("no-files", no_files), ("long-desk", long_desk)]
    alone += [("bounded", bounded), ("cut-short", cut_short)]
    of_disks = [("read-only", read_only)] * mounts + [("read-only-desk", read_only_desk)] * (mounts and has_pots)
    for name, trial in alone + of_disks + [("silent", silent)] * has_pots:
        yield f"outside {name}", lambda it=trial: it(base)
