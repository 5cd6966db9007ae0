#!/usr/bin/env python3
"""The commands of the model. README.md beside this file tells what each is for."""

import os
import sys

from potmodel import constants, files, generator, group_stories, image, pieces, program, random_stories, recovery, session, session_stories
from potmodel.devices import Sink, Source

USAGE = """pot.py group < stories
pot.py session < stories
pot.py constants
pot.py image FILE
pot.py block FILE SLOT
pot.py recover FOLDER ARCHIVES STRIPES BLUR [robust|open]
pot.py run FOLDER WORDS.. < source
pot.py desk FOLDER FORMAT OUT
pot.py random group|session SEED COUNT
pot.py script NUMBER
pot.py generate NUMBER
"""


def tell_stories(program):
    """Prints what the stories on standard input come to."""
    text, status = program.tell(sys.stdin.read())
    sys.stdout.write(text)
    return status


def print_constants():
    """Prints each constant with its name and the file that has it."""
    for name, place, value in constants.values():
        print(f"{place}: {name}: {value}")
    return 0


def print_image(path):
    """Prints what stands in an image, which stands alone in a file or in a desk's file."""
    scene = session_stories.Scene()
    with open(path, "rb") as file:
        scene.image = file.read() if not path.endswith(".pss") else None
    if scene.image is None:
        desk = files.FileDesk(os.path.dirname(path))
        desk.path = path
        scene.image = desk.read()
    for line in scene.step_image() + scene.step_fields() + scene.step_records() + scene.step_slots() + scene.step_logs():
        print(line)
    return 0


def print_block(path, slot):
    """Prints the fields of the block in a slot of an archive's file."""
    block = files.FileArchive(path).read(int(slot))
    shard = None if block is None else pieces.read_shard(block)
    if shard is None:
        print("no block" if block is None else f"no shard, digest {pieces.digest(block).hex()}")
        return 1
    print(f"x {shard.x} m {shard.m} n {shard.n} blur {shard.blur} name {shard.name:016x} pointer {shard.pointer:016x}")
    print(f"share {shard.share.hex()}")
    print(f"digest {pieces.digest(block).hex()}")
    return 0


def recover(folder, archives, stripes, blur, way="rings"):
    """Prints what the blocks of a folder's archives give."""
    room = files.FileRoom(folder)
    blocks = [block for number in range(int(archives)) for block in session.read_archive(number, int(stripes), room)]
    status, texts = recovery.listing(recovery.recover(blocks, int(blur), way))
    sys.stdout.buffer.write(b"".join(texts))
    return status


def run(folder, *words):
    """Works a command line over the files of a folder, as the program does; the seed is drawn by the system."""
    sink = Sink()
    status = program.run(list(words), os.urandom(32), Source(sys.stdin.buffer.read()), sink, files.FileRoom(folder), files.FileDesk(folder))
    sys.stdout.buffer.write(bytes(sink.written))
    return status


def write_desk(folder, form, out):
    """Writes the image of a folder's desk into the folder OUT: in format 1 as desk.psi, in format 2 as desk.pss."""
    data = image.write_image(image.read_image(files.FileDesk(folder).read()), int(form))
    if form == "2":
        files.FileDesk(out).replace(data)
        return 0
    with open(os.path.join(out, "desk.psi"), "wb") as file:
        file.write(data)
    return 0


def print_random(kind, seed, count):
    """Prints stories by chance."""
    sys.stdout.write(random_stories.stories(kind, seed, count))
    return 0


def print_script(number):
    """Prints the generator's script of a number."""
    sys.stdout.buffer.write(generator.script(int(number)))
    return 0


def generate(number):
    """Prints the summary of the replies to the generator's script of a number."""
    sys.stdout.write(generator.summary(int(number)))
    return 0


def main(words):
    """Works one command and answers its status."""
    commands = {
        "group": lambda: tell_stories(group_stories), "session": lambda: tell_stories(session_stories),
        "constants": print_constants, "image": print_image, "block": print_block, "recover": recover, "run": run,
        "desk": write_desk, "random": print_random,
        "script": print_script, "generate": generate,
    }
    if not words or words[0] not in commands:
        sys.stderr.write(USAGE)
        return 2
    return commands[words[0]](*words[1:])


if __name__ == "__main__":
    sys.exit(main(sys.argv[1:]))
