"""Each call of a run on an archive, the desk, a stream or the random bytes fails in turn: with EIO, with ENOSPC, by a short
count, by a file of which every later call fails too, and by the end of the program before it. The status and what is written
are those that docs/FORMATS.md has for the object that failed, and the sessions afterwards have every file."""

from program import Folder, complaints_at_replies, stored_in
from sessions import OTHER_RUNS, SESSIONS

HOWS = ("eio", "enospc", "short", "dead", "kill")
KILLED = -9


class Trial:
    """A run, how one of its calls fails, and what it answers where none does."""

    def __init__(self, run, how, clean):
        self.run, self.how, self.clean = run, how, clean

    def statuses(self, call, name, was_written):
        """The statuses that are right where this call on this file fails, to which the run had written or not."""
        if self.how == "kill":
            return {KILLED}
        if self.how == "short":
            return {self.clean.status}
        if name in ("stdin", "random"):
            return {4}
        if not name.startswith("archive-"):
            return {5} if name == "stdout" else {6}
        # an archive to which nothing was written need not be synced
        if call == "fsync" and not was_written:
            return {self.clean.status}
        if call in ("open", "statx", "fsync") or not self.run.is_session:
            return {8}
        # a read or a write of a session that fails is told by its blocks, and so is a file that is dead, unless it has to be synced
        if self.how == "dead":
            return {8} if was_written else {0, 1, 8}
        return {0, 1}

    def is_text(self, answer, call):
        """Whether what was written is right beside the status."""
        whole = self.clean.out
        if self.how == "short":
            return answer.out == whole
        if answer.status == 4:
            return answer.out == b""
        if answer.status in (5, KILLED) or (answer.status == 8 and (call in ("open", "statx") or not self.run.is_session)):
            return whole.startswith(answer.out)
        if answer.status == 6:
            return answer.out in (b"", whole)
        return answer.out == whole if call == "fsync" else True

    def complaints(self, folder, at, call, name, was_written):
        """What is wrong when the call of this number fails, which is this one on this file."""
        answer = folder.call(self.run.words, self.run.given, fail=at, how=self.how)
        wrong = complaints_at_replies(answer.out, self.run.files | self.run.new) if self.run.is_session else []
        if answer.status not in self.statuses(call, name, was_written) or not self.is_text(answer, call):
            wrong.append(f"status {answer.status} with {answer.out[-60:]!r}")
        if not answer.tells():
            wrong.append(f"status {answer.status} and on standard error {answer.err[:80]!r}")
        # what a session said it stored is sure where the session ended
        sure = stored_in(answer.out) if answer.status in (0, 1) else ()
        # a block that could not be read is lost, and beyond the parity it is not mended
        spent = self.run.spent_groups(name) if call == "read" or self.how == "dead" else ()
        return wrong + self.run.complaints_afterwards(folder, self.clean, sure, spent)


def sweep(run, how, base):
    wrong = []
    with Folder(base) as prepared:
        run.prepare(prepared)
        with Folder(base) as folder:
            clean, lines = folder.copy_of(prepared).noted(run.words, run.given)
        assert run.is_clean(clean), (clean.status, clean.out, clean.err)
        calls, written = [], set()
        for call, name, *_ in lines:
            if call == "begin":
                calls.append([*name.split(":", 1), frozenset(written)])
            elif call == "write":
                written.add(name)
        for at, (call, name, before) in enumerate(calls, 1):
            with Folder(base) as folder:
                found = Trial(run, how, clean).complaints(folder.copy_of(prepared), at, call, name, name in before)
            wrong += [f"{run.name}, {call} of {name}, call {at}, fails with {how}: {it}" for it in found]
    return len(calls), wrong


def rows(base):
    """Gives the tasks: a name, and a function that gives the count of tries and the complaints."""
    for run in [*SESSIONS, *OTHER_RUNS]:
        for how in HOWS:
            yield f"devices {run.name} {how}", lambda it=run, by=how: sweep(it, by, base)
