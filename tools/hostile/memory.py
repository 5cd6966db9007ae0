"""Each request for memory is refused in turn, by itself and with all requests behind it: status 70 and some first bytes of what
the run writes, or just what it writes. Afterwards every file of an ended session comes back."""

from program import NARROW, RACK, Folder, script, store
from sessions import OTHER_RUNS, OtherRun, Session

SESSIONS = [
    Session("store-and-fetch", RACK, 3, [], script(store("a", b"hello"), "fetch a"), new={"a": b"hello"}),
    Session("replace-and-mend", NARROW, 3, [],
            script(store("a", b"hello"), store("b", b"world"), "replace 0 6", "fetch a", "status", "repair 0", "scrub 0"),
            new={"a": b"hello", "b": b"world"}),
    Session("every-line", NARROW, 3, [script(store("a", b"hello"))],
            script(store("b", b"world"), store("b", b"again"), "fetch a", "fetch none", "list", "status", "scrub 0", "repair 0",
                   "migrate 2 8", "migrate 4 8", "renew a 2 3 3 16", "replace 0 6", "repair 0", "fetch b"),
            files={"a": b"hello"}, new={"b": b"world"}),
    Session("batch", RACK, 3, [script(store("a", b"hello"))],
            script("together 3", store("b", b"world"), "fetch a", "repair 0", "end", "fetch b"),
            files={"a": b"hello"}, new={"b": b"world"}),
]

# The session of a number over objects in memory, of whose archives one may find no memory.
GENERATED = OtherRun("generate", ["generate", "1"], b"generated 1 76\n")


def asked_for(lines):
    """How many requests for memory the noted run made."""
    return next(count for call, _, _, count, _ in lines if call == "calls")


def complaints(answer, clean):
    """What is wrong with an answer where memory was refused."""
    is_whole = (answer.status, answer.out) == (clean.status, clean.out)
    is_refused = answer.status == 70 and clean.out.startswith(answer.out)
    wrong = [] if is_whole or is_refused else [f"status {answer.status}, {answer.out[-60:]!r}"]
    return wrong + ([] if answer.tells() else [f"status {answer.status} and {answer.err[:60]!r}"])


def sweep(run, rest, base):
    wrong = []
    with Folder(base) as prepared:
        run.prepare(prepared)
        with Folder(base) as folder:
            clean, lines = folder.copy_of(prepared).noted(run.words, run.given)
        assert run.is_clean(clean), (clean.status, clean.out, clean.err)
        for at in range(1, asked_for(lines) + 1):
            with Folder(base) as folder:
                answer = folder.copy_of(prepared).call(run.words, run.given, alloc=at, rest=rest)
                sure = run.new if answer.status in (0, 1) else ()
                found = complaints(answer, clean) + run.complaints_afterwards(folder, clean, sure)
            wrong += [f"{run.name}, request {at} refused: {it}" for it in found]
    return asked_for(lines), wrong


def rows(base):
    for rest, text in ((None, "one"), (1, "all-from")):
        for run in [*SESSIONS, *OTHER_RUNS, GENERATED]:
            yield f"memory {run.name} {text}", lambda it=run, by=rest: sweep(it, by, base)
