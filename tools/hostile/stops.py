"""The program stopped at each write and each sync of its desk, by tools/hostile/desk, which needs strace."""

import os
import pathlib
import re
import subprocess
import sys

import program


def sweep(base):
    """Gives how many folders were opened, and what was wrong."""
    desk = pathlib.Path(__file__).with_name("desk")
    command = [sys.executable, str(desk), str(program.PROGRAM)]
    ran = subprocess.run(command, capture_output=True, text=True, env=os.environ | {"TMPDIR": base})
    last = re.search(r"^(\d+) opened, (\d+) wrong$", ran.stdout, re.M)
    if not last or (ran.returncode == 0) != (last[2] == "0"):
        return 0, [f"tools/hostile/desk ends with {ran.returncode}: {ran.stderr[-80:]!r}"]
    return int(last[1]), [line for line in ran.stdout.splitlines() if line.startswith("wrong:")]


def rows(base):
    yield "stops desk", lambda: sweep(base)
