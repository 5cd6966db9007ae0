"""Faults that calls.c feigns at the border of the C library, each for a part that has to tell it: where one is not told, the
tool is wrong. The program itself can't be given them, since its proofs refuse such a body."""

import crash
import devices
import forged
import memory
import program
from program import Folder, script
from sessions import SESSIONS

BY_NAME = {it.name: it for it in SESSIONS}


def fetch_of_forged(base):
    """A session over files of which no one changed anything, as the part `forged` judges it."""
    with Folder(base) as folder:
        return 1, forged.trial(forged.filled(folder), script("fetch a"), base, forged.FILES)[1]


# What is feigned, the part that has to tell it, and how it is tried.
PLANTS = [
    ("calm", "memory", lambda base: memory.sweep(memory.SESSIONS[0], None, base)),
    ("deaf", "devices", lambda base: devices.sweep(BY_NAME["store"], "enospc", base)),
    ("other", "devices", lambda base: devices.sweep(BY_NAME["looks"], "short", base)),
    ("no-sync desk.pss", "crash", lambda base: crash.sweep(BY_NAME["store"], base, 100, 0)),
    ("no-sync archive-", "crash", lambda base: crash.sweep(BY_NAME["store"], base, 300, 0)),
    ("no-sync .", "crash", lambda base: crash.sweep(BY_NAME["first-store"], base, 300, 0)),
    ("other", "forged", fetch_of_forged),
]


def sweep(plant, trial, base):
    program.PLANT = plant
    tries, wrong = trial(base)
    program.PLANT = None
    return (tries, [], f"found: {wrong[0]}") if wrong else (tries, ["the fault was not found"])


def rows(base):
    for plant, part, trial in PLANTS:
        yield f"planted {plant} ({part})", lambda it=plant, by=trial: sweep(it, by, base)
