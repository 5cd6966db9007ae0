"""A stop at any moment, over real files: a session is noted call by call, and from its calls folders are made as a crash
may leave them: of each file any of the writes since its last sync, whole, torn, as zeros or as other bytes; of the names that
came into the folder since its last sync any. Then the next session has to open, every file of an ended session has to come
back, a file of the stopped one whole or not at all, and a repair leaves no slot lost.

It is harder than the documents ask in that names come in no order, and softer than a disk that says that it synced and did
not: what was synced stays. A stop in the midst of a write is one of the torn writes, one in the midst of a sync a stop before it. With
`twice` the session that mends what the first crash left is crashed as well."""

import random

from program import Folder, script
from sessions import OTHER_RUNS, SESSIONS

IMAGES = 700
# The changes that `leave` can make again. Any other one is told, since its crashes would not be tried.
KNOWN = {"write", "sync", "create"}


def changes_of(lines):
    """The changes of a noted session, in order, each as (call, file, place, bytes)."""
    skipped = {"begin", "calls"}
    ours = [it for it in lines if it[0] not in skipped and it[1] not in ("stdin", "stdout")]
    return [(call, name, at, written) for call, name, at, _, written in ours]


def torn(dice, written):
    """What a write may have left: all of it, nothing, a first or a last part, zeros or other bytes in its place."""
    cut = dice.randrange(len(written) + 1)
    others = [bytes(len(written)), dice.randbytes(len(written))]
    return dice.choice([[], [(0, written)], [(0, written[:cut])], [(cut, written[cut:])], *[[(0, other)] for other in others]])


def last_syncs(changes):
    """By file, the number of its last sync; the folder is the file `.`."""
    return {name: at for at, (call, name, _, _) in enumerate(changes) if call == "sync"}


def leave(folder, changes, dice):
    """Makes of the folder, which is as before the session, what a crash behind these changes may leave."""
    synced = last_syncs(changes)
    unsynced_names = {name for at, (call, name, _, _) in enumerate(changes) if call == "create" and at > synced.get(".", -1)}
    missing = {name for name in sorted(unsynced_names) if dice.randrange(2)}
    for at, (call, name, place, written) in enumerate(changes):
        path = folder.path / name
        if call == "create" and name not in missing:
            path.touch()
        if call == "write" and name not in missing:
            parts = [(0, written)] if at < synced.get(name, -1) else torn(dice, written)
            with open(path, "r+b") as file:
                for offset, part in parts:
                    file.seek(place + offset)
                    file.write(part)


def noted_changes(folder, words, given):
    """The changes of a run over this folder, and its answer."""
    answer, lines = folder.noted(words, given)
    changes = changes_of(lines)
    unknown = {call for call, *_ in changes} - KNOWN
    assert answer.status in (0, 1) and changes and not unknown, (answer.status, answer.out, unknown)
    return changes, answer


def sweep(run, base, images, seed):
    """Crashes of one run."""
    dice, wrong = random.Random(f"{run.name} {seed}"), []
    with Folder(base) as prepared:
        run.prepare(prepared)
        with Folder(base) as folder:
            changes, clean = noted_changes(folder.copy_of(prepared), run.words, run.given)
        for number in range(images):
            upto = dice.randrange(len(changes) + 1)
            with Folder(base) as folder:
                leave(folder.copy_of(prepared), changes[:upto], dice)
                # behind its last change the run ended
                found = run.complaints_afterwards(folder, clean, run.new if upto == len(changes) else ())
            wrong += [f"{run.name}, image {number} behind change {upto} of {len(changes)}: {it}" for it in found]
    return images, wrong


def sweep_twice(session, base, images):
    """Crashes of a session that repairs everything behind a crash of the first one."""
    dice, wrong = random.Random(f"{session.name} twice"), []
    repairs = script(*[f"repair {it}" for it in range(session.groups)])
    with Folder(base) as prepared:
        session.prepare(prepared)
        with Folder(base) as folder:
            changes, clean = noted_changes(folder.copy_of(prepared), session.words, session.given)
        for number in range(images):
            with Folder(base) as folder, Folder(base) as other:
                leave(folder.copy_of(prepared), changes[: dice.randrange(len(changes) + 1)], dice)
                later, _ = noted_changes(other.copy_of(folder), session.words, repairs)
                leave(folder, later[: dice.randrange(len(later) + 1)], dice)
                found = session.complaints_afterwards(folder, clean)
            wrong += [f"{session.name}, image {number} of two crashes: {it}" for it in found]
    return images, wrong


def rows(base):
    for session in SESSIONS:
        for part in range(2):
            yield f"crash {session.name} {part}", lambda it=session, by=part: sweep(it, base, IMAGES // 2, by)
        yield f"crash {session.name} twice", lambda it=session: sweep_twice(it, base, IMAGES // 2)
    yield "crash init", lambda: sweep(OTHER_RUNS[0], base, IMAGES // 2, 0)
