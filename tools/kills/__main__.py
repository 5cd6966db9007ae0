"""Kills stores of the built program `pots`: python3 tools/kills [--program FILE] [--kills N] [--seed N]

In each of four geometries vaults are filled in some sessions, and a store is killed at a write of an archive that chance picks, before
it or in its midst. Behind each kill `pots check` has to find every block, and with any one archive lost every file that was stored before has to
come back. A table tells of each geometry the kills, those that left parity of which the desk does not know, the files that were lost, and the slots
that the next store passed by; the status is 0 where the last two are 0. It needs Python 3.9 and a C compiler, and is no part of the gate."""

import argparse
import hashlib
import os
import pathlib
import random
import shutil
import subprocess
import sys
import tempfile

sys.dont_write_bytecode = True
HERE = pathlib.Path(__file__).resolve().parent
TOP = HERE.parent.parent
sys.path.insert(0, str(TOP / "tools/model"))

import potmodel.files as model_files  # noqa: E402
import potmodel.image as model_image  # noqa: E402

# groups, data columns, parity columns, need, shards
GEOMETRIES = ((3, 3, 1, 2, 3), (3, 3, 1, 2, 2), (4, 3, 2, 2, 3), (3, 16, 1, 2, 3))
STRIPES = 64


class Wrong(Exception):
    """Something went otherwise than it should."""


class Vault:
    """A vault in a folder of its own."""

    def __init__(self, program, library, path):
        self.program, self.library, self.path = program, library, path

    def pots(self, *words, status=(0,), **kill):
        """Calls the program, and gives its status and what it wrote."""
        env = dict(os.environ, LD_PRELOAD=str(self.library), **kill) if kill else None
        ran = subprocess.run([self.program, *words], cwd=self.path, env=env, capture_output=True, text=True)
        if status is not None and ran.returncode not in status:
            raise Wrong(f"pots {' '.join(words)}: status {ran.returncode}: {ran.stdout}{ran.stderr}")
        return ran.returncode, ran.stdout + ran.stderr

    def copy(self, path):
        """The same vault in another folder."""
        subprocess.run(["cp", "-r", "--sparse=always", str(self.path), str(path)], check=True)
        return Vault(self.program, self.library, path)

    def image(self):
        """The image of the desk."""
        return model_image.read_image(model_files.FileDesk(str(self.path)).read())

    def fetched(self, *words):
        """The files that come back, by name."""
        out = self.path / "back"
        self.pots("fetch", "--all", "--to", str(out), *words, status=(0, 1))
        found = {it.name: it.read_bytes() for it in out.iterdir()} if out.is_dir() else {}
        shutil.rmtree(out, ignore_errors=True)
        return found


def is_of(block, digest):
    """Whether there is a block, and it has the digest."""
    return block is not None and hashlib.sha256(block).digest() == digest


def unsound(vault):
    """How many parity slots at the cursors hold no block of the desk's digest. Slot Z has to hold it."""
    count = 0
    for table in vault.image().tables:
        stripe = table.cursor[0]
        if stripe == table.stripes:
            continue
        for column in range(table.data, table.width):
            archive = model_files.FileArchive(str(vault.path / f"archive-{table.archive_of(stripe, column)}"))
            digest = table.digest(stripe, column)
            if table.state(stripe, column) == "Void" or is_of(archive.read(stripe), digest):
                continue
            count += 1
            if not is_of(archive.kept(table.stripes), digest):
                raise Wrong("a parity block is gone that was not kept")
    return count


def passed_by(vault):
    """How many data slots before the cursors have no block, and never get one."""
    tables = vault.image().tables
    return sum(table.state(stripe, column) == "Void" for table in tables for stripe in range(table.cursor[0]) for column in range(table.data))


def make(chance, program, library, path, geometry):
    """A vault of this geometry with some sessions behind it, and its files."""
    path.mkdir()
    vault, files = Vault(program, library, path), {}
    names = ("groups", "columns", "parity", "need", "shards", "stripes", "fragments", "blur")
    words = [word for name, value in zip(names, (*geometry, STRIPES, 2, 16)) for word in (f"--{name}", str(value))]
    vault.pots("init", *words)
    for session in range(chance.randint(1, 3)):
        given = [f"file-{session}-{number}" for number in range(chance.randint(1, 3))]
        for name in given:
            files[name] = chance.randbytes(chance.randrange(1, 3000))
            (path / name).write_bytes(files[name])
        vault.pots("store", *given)
    return vault, files


def kill(chance, vault, before):
    """Kills a store at a write that chance picks. Answers whether the program was killed."""
    (vault.path / "new").write_bytes(chance.randbytes(chance.randrange(1, 4000)))
    trial = vault.copy(before / "trial")
    trial.pots("store", "new", KILLS_COUNT=str(before / "count"))
    shutil.rmtree(trial.path)
    at = chance.randint(1, (before / "count").stat().st_size)
    half = {"KILLS_HALF": "1"} if chance.random() < 0.5 else {}
    return vault.pots("store", "new", status=None, KILLS_AT=str(at), **half)[0] == -9


def look_behind(vault, files):
    """What the next commands find: all blocks are there, also once the same store was given again. Answers the slots that it passed by."""
    passed = passed_by(vault)
    vault.pots("status")
    _, text = vault.pots("check")
    if "all blocks are there" not in text:
        raise Wrong(f"pots check does not find all blocks: {text}")
    vault.pots("store", "new")
    if vault.fetched() != {**files, "new": (vault.path / "new").read_bytes()}:
        raise Wrong("a file did not come back")
    return passed_by(vault) - passed


def lost_with_one(vault, files, archive):
    """How many files do not come back where this archive is lost."""
    path = vault.path / f"archive-{archive}"
    if path.exists():
        path.unlink()
    found = vault.fetched("--without", str(archive))
    return sum(found.get(name) != text for name, text in files.items())


def trial(chance, program, library, top, geometry):
    """One vault and its kill: whether it was killed, whether parity was unsound, the files lost, the slots passed by."""
    vault, files = make(chance, program, library, top / "vault", geometry)
    killed = kill(chance, vault, top)
    left = unsound(vault)
    archive = chance.randrange(geometry[0] * (geometry[1] + geometry[2]))
    lost = lost_with_one(vault.copy(top / "lost"), files, archive)
    return killed, left > 0, lost, look_behind(vault.copy(top / "behind"), files)


def trials(asked, library, base, geometry):
    """The trials of a geometry, in a line of the table. Answers how many were wrong."""
    kills = hurt = lost = passed = wrong = 0
    for number in range(asked.kills):
        chance = random.Random(f"{asked.seed} {geometry} {number}")
        with tempfile.TemporaryDirectory(dir=base) as top:
            try:
                killed, left, gone, by = trial(chance, asked.program, library, pathlib.Path(top), geometry)
            except Wrong as error:
                wrong += 1
                print(f"    trial {number}: {error}", flush=True)
                continue
        kills, hurt, lost, passed = kills + killed, hurt + left, lost + gone, passed + by
    shape = "groups {} columns {} parity {} need {} shards {}".format(*geometry)
    print(f"{shape}: {kills} kills, {hurt} with unsound parity, {lost} files lost, {passed} slots passed by, {wrong} wrong", flush=True)
    return lost + passed + wrong


def main():
    words = argparse.ArgumentParser(prog="kills", description=__doc__)
    words.add_argument("--program", type=pathlib.Path, default=TOP / "crates/pots/out/pots")
    words.add_argument("--kills", type=int, default=50)
    words.add_argument("--seed", default="1")
    asked = words.parse_args()
    asked.program = asked.program.resolve()
    if not asked.program.is_file():
        sys.exit("kills: build the program first: (cd crates/pots; rt run -- --version)")
    with tempfile.TemporaryDirectory(prefix="kills-", dir="/dev/shm" if os.path.isdir("/dev/shm") else None) as base:
        library = pathlib.Path(base) / "kill.so"
        subprocess.run(["cc", "-O1", "-shared", "-fPIC", "-o", str(library), str(HERE / "kill.c"), "-ldl"], check=True)
        return 1 if sum(trials(asked, library, base, geometry) for geometry in GEOMETRIES) else 0


if __name__ == "__main__":
    sys.exit(main())
