"""Forged input: images, scripts and archive files with bytes that nobody wrote. A named refusal, or a session that keeps its
promises; never a crash, never another file's bytes.

What is right is told twice. The model in tools/model, a second program that was written from the formats alone, works each
forged folder too, and the program's status, its text and the image that it leaves have to be the model's. And by itself:
whoever writes the desk makes the program believe it, since an image has a digest and no signature, so a record that was forged
under a right trailer may have another name, length or digest, and a fetch of it answers what that record says. So each `file`
reply has to be bytes of the length and the SHA-256 digest that the image's record of this name has, and where nobody changed
the image that is the very file that was stored."""

import hashlib
import os
import random
import re
import sys

from program import NARROW, RACK, SEED, TOP, Folder, pattern, replies, script, store

sys.path.insert(0, str(TOP / "tools/model"))
from potmodel import devices, files, image as images, session  # noqa: E402

FILES = {"a": pattern(900), "b": b"hello", "c": b"world"}
FETCHES = script(*[f"fetch {it}" for it in FILES], "list", "status", "scrub 0")
COMMANDS = [
    store("d", b"first"), "fetch a", "list", "scrub 1", "renew b 3 2 3 20", "repair 0", "status", "fetch d", "replace 0 20", "migrate 2 21",
]


def image_of(folder):
    """The image that stands in a folder's desk, by the model."""
    return files.FileDesk(str(folder.path)).read()


def records_of(image):
    """The records of an image by name, and none of an image that the formats refuse."""
    try:
        return {record.name.decode(): record for record in images.read_image(image).records}
    except images.Refused:
        return {}


def trailed(body):
    """The image of these bytes, with the length that they have stated in it and a right trailer."""
    stated = body[:8] + (len(body) + 32).to_bytes(8, "big") + body[16:]
    return stated + hashlib.sha256(stated).digest()


def with_image(folder, image):
    """Lets the folder's desk be this image, as earlier programs kept it."""
    (folder.path / "desk.pss").unlink(missing_ok=True)
    (folder.path / "desk.psi").write_bytes(image)


def of_the_model(folder, given):
    """What the model answers over this folder, and the image that it leaves."""
    sink, path = devices.Sink(), str(folder.path)
    status = session.run(["run", "--seed", SEED], bytes(32), devices.Source(given), sink, files.FileRoom(path), files.FileDesk(path))
    return status, bytes(sink.written), image_of(folder)


def other_bytes(out, stored, records):
    """A line for each file of a text that is not what was stored under the name, or where that is not known what the record says."""
    wrong = []
    for name, got in [(line.split()[1], got) for line, got in replies(out) if got is not None]:
        record = records.get(name)
        is_recorded = record and (record.length, record.digest) == (len(got), hashlib.sha256(got).digest())
        if got != stored[name] if name in stored else not is_recorded:
            wrong.append(f"other bytes as {name}")
    return wrong


def trial(folder, given, base, stored):
    """Runs a session over this folder, and gives its answer and what is wrong with it."""
    records = records_of(image_of(folder))
    with Folder(base) as other:
        status, text, left = of_the_model(other.copy_of(folder), given)
    answer = folder.run(given)
    wrong = other_bytes(answer.out, stored, records_of(left) | records)
    if (answer.status, answer.out) != (status, text):
        at = len(os.path.commonprefix([answer.out, text]))
        here, there = answer.out[at : at + 60], text[at : at + 60]
        wrong.append(f"status {answer.status}, and the model {status}; from byte {at} {here!r}, and the model {there!r}")
    elif image_of(folder) != left:
        wrong.append("the image that it leaves is not the model's")
    return answer, wrong


def filled(folder):
    """A folder in which the files are stored, with its image as earlier programs kept it."""
    assert folder.begin(RACK).run(script(*[store(name, text) for name, text in FILES.items()])).status == 0
    with_image(folder, image_of(folder))
    return folder


def flips_and_cuts(base):
    """Each bit of an image flipped, and each cut of it: all are refused, as the model says."""
    with Folder(base) as folder:
        image = image_of(folder.begin(NARROW))
        bits = [image[: bit // 8] + bytes([image[bit // 8] ^ 1 << bit % 8]) + image[bit // 8 + 1 :] for bit in range(8 * len(image))]
        changed = [image[:at] for at in range(len(image))] + bits
        wrong = []
        for number, other in enumerate(changed):
            with_image(folder, other)
            answer, found = trial(folder, script("list"), base, {})
            found += [] if answer.status == 7 and answer.out.startswith(b"image refused ") else ["it is not refused"]
            wrong += [f"image {number}: {it}" for it in found]
    return len(changed), wrong


def edited(dice, text, most=4):
    """The bytes with some of them changed, left out, said twice or brought in."""
    now = bytearray(text)
    for _ in range(dice.randint(1, most)):
        at = dice.randrange(len(now) + 1)
        kind = dice.randrange(8)
        if kind < 5 and at < len(now):
            now[at] = dice.choice([0, 1, 2, 255, (now[at] + 1) % 256, now[at] ^ (1 << dice.randrange(8)), dice.randrange(256)])
        elif kind == 5:
            now[at:at] = dice.randbytes(dice.randint(1, 5))
        elif kind == 6:
            del now[at : at + dice.randint(1, 8)]
        else:
            start = dice.randrange(len(now) + 1)
            now[at:at] = now[start : start + dice.randint(1, 64)]
    return bytes(now)


def forge_image(dice, folder):
    with_image(folder, trailed(edited(dice, image_of(folder)[:-32])))
    return FETCHES, {}


def edited_lines(dice, lines):
    """The lines with some of them left out, said twice, in other places, or with another number."""
    now = list(lines)
    for _ in range(dice.randint(1, 4)):
        at = dice.randrange(len(now))
        kind = dice.randrange(4)
        if kind == 0:
            now.insert(dice.randrange(len(now) + 1), now[at])
        elif kind == 1 and len(now) > 1:
            del now[at]
        elif kind == 2:
            now.insert(dice.randrange(len(now)), now.pop(at))
        else:
            now[at] = re.sub(rb" [0-9]+$", b" %d" % dice.choice([0, 1, 2, 3, 20, 21, 511, 512]), now[at], flags=re.M)
    return now


def forge_script(dice, _):
    if dice.randrange(2):
        return edited(dice, script(*COMMANDS), most=2), FILES
    return script(*edited_lines(dice, [it if isinstance(it, bytes) else it.encode() + b"\n" for it in COMMANDS])), FILES


def forge_archives(dice, folder):
    for _ in range(dice.randint(1, 3)):
        path = folder.path / f"archive-{dice.randrange(12)}"
        path.write_bytes(edited(dice, path.read_bytes(), most=2))
    return FETCHES, FILES


def sweep(kind, forge, base, seed, count):
    """So many forged folders and scripts by chance. Gives how many tries there were, what was wrong, and how many were sessions."""
    dice, wrong, sessions = random.Random(f"{kind} {seed}"), [], 0
    with Folder(base) as prepared:
        filled(prepared)
        for number in range(count):
            with Folder(base) as folder:
                folder.copy_of(prepared)
                given, stored = forge(dice, folder)
                answer, found = trial(folder, given, base, stored)
            sessions += answer.status in (0, 1)
            wrong += [f"{kind} {seed}.{number}: {it}" for it in found]
    return count, wrong, f"{sessions} were sessions"


def shape(answer):
    """What tells one answer from others for a mutation: the status, and the refusal or the kinds of its replies in order."""
    if answer.status == 7:
        return 7, re.sub(rb"[0-9a-f]{64}", b"", answer.out)
    return answer.status, tuple(line.split()[0] for line, _ in replies(answer.out))


def mutate(base, seed, count):
    """Mutation that looks at the answers: each try takes an image and a script from a pool, edits one of them, and comes into the
    pool itself where its answer has a shape that is new. Nothing is known of the code that ran: it has no coverage."""
    wrong, shapes = [], set()
    with Folder(base) as prepared:
        pool = [(image_of(filled(prepared))[:-32], FETCHES), (image_of(prepared)[:-32], script(*COMMANDS))]
        for number in range(count):
            dice = random.Random(f"mutate {seed} {number}")
            body, given = dice.choice(pool)
            body, given = (edited(dice, body, 2), given) if dice.randrange(3) else (body, edited(dice, given, 2))
            with Folder(base) as folder:
                folder.copy_of(prepared)
                with_image(folder, trailed(body))
                answer, found = trial(folder, given, base, {})
            wrong += [f"mutate {seed}.{number}: {it}" for it in found]
            if shape(answer) not in shapes:
                shapes.add(shape(answer))
                pool.append((body, given))
    return count, wrong, f"{len(shapes)} shapes of answers"


def rows(base):
    yield "forged flips-and-cuts", lambda: flips_and_cuts(base)
    for part in range(4):
        yield f"forged images {part}", lambda by=part: sweep("images", forge_image, base, by, 2500)
        yield f"forged scripts {part}", lambda by=part: sweep("scripts", forge_script, base, by, 500)
        yield f"forged archives {part}", lambda by=part: sweep("archives", forge_archives, base, by, 500)
        yield f"forged mutations {part}", lambda by=part: mutate(base, by, 500)
