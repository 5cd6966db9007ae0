"""Hostile use of the built program: python3 tools/hostile PART [--program FILE] [--jobs N]

PART is memory, devices, crash, stops, forged, outside or planted, or all for all of them. A table tells how much was tried and how much
was wrong, and the status is 0 where nothing was. It needs Python 3.9, a C compiler, strace, and the program as the README's
first command leaves it."""

import argparse
import concurrent.futures
import multiprocessing
import os
import pathlib
import resource
import sys
import tempfile
import time

import crash
import devices
import forged
import memory
import outside
import planted
import program
import stops

PARTS = {"memory": memory, "devices": devices, "crash": crash, "stops": stops, "forged": forged, "outside": outside, "planted": planted}


def work(name, at, base):
    """Does one row of a part, and gives its name, the count of tries, what was wrong, what else it tells, and the seconds it took."""
    began = time.time()
    chosen = list(PARTS[name].rows(base))[at]
    try:
        tries, wrong, *notes = chosen[1]()
    except Exception as error:  # a row that breaks off is wrong, and the others go on
        tries, wrong, notes = 0, [f"it broke off: {error!r}"], []
    return chosen[0], tries, wrong, notes, time.time() - began


def told(parts, jobs, base):
    """Works all rows of these parts, tells each as it ends, and gives how many tries were made and how many were wrong."""
    tasks = [(name, at) for name in parts for at in range(len(list(PARTS[name].rows(base))))]
    all_tries = all_wrong = 0
    with concurrent.futures.ProcessPoolExecutor(jobs, multiprocessing.get_context("fork")) as pool:
        for done in concurrent.futures.as_completed([pool.submit(work, name, at, base) for name, at in tasks]):
            name, tries, wrong, notes, seconds = done.result()
            print(f"{name:36} {tries:6} tries {len(wrong):4} wrong {seconds:6.0f} s", flush=True)
            for line in notes + wrong[:5]:
                print(f"    {line}", flush=True)
            all_tries, all_wrong = all_tries + tries, all_wrong + len(wrong)
    return all_tries, all_wrong


def main():
    words = argparse.ArgumentParser(prog="hostile", description=__doc__)
    words.add_argument("part", choices=[*PARTS, "all"])
    words.add_argument("--program", type=pathlib.Path, default=program.PROGRAM)
    words.add_argument("--pots", type=pathlib.Path, default=program.POTS)
    words.add_argument("--jobs", type=int, default=os.cpu_count())
    asked, began = words.parse_args(), time.time()
    program.PROGRAM, program.POTS = asked.program.resolve(), asked.pots.resolve()
    if not program.PROGRAM.is_file():
        sys.exit(f"hostile: {program.PROGRAM} is not there: build it first")
    program.library()
    with tempfile.TemporaryDirectory(prefix="hostile-", dir="/dev/shm" if os.path.isdir("/dev/shm") else None) as base:
        tries, wrong = told(list(PARTS) if asked.part == "all" else [asked.part], asked.jobs, base)
    used = resource.getrusage(resource.RUSAGE_CHILDREN)
    print(f"{tries} tries, {wrong} wrong; {time.time() - began:.0f} s, of processors {used.ru_utime + used.ru_stime:.0f} s")
    return 1 if wrong else 0


if __name__ == "__main__":
    sys.exit(main())
