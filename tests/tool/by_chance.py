"""Volumes made by chance in every block size, listed and checked beside the paper's words written in Python; and runs of commands
by chance beside a table of what the files should have in them."""
import random

from desk import Desk
from disk import BAD, EMPTY, HEADING, entry, extents, line, name_bytes, numbers, places, volume

SEED, VOLUMES, RUNS, COMMANDS = 19, 40, 3, 30
GEOMETRIES = [(1024, 40, 1), (1024, 256, 3), (2048, 100, 1), (4096, 60, 1), (2048, 257, 3), (4096, 600, 1)]
NAMES = ["SIGLA.TXT", "SIGLA", "LEMMATA.DAT", "A.B"]
EDGES = (0, 1, 15, 16, 31, 32, 0x3F, 0x7F, 0x80, 0x81, 0xE5, 0xFF)


# ---- the paper's words on a volume


def called(e):
    return bytes(b & 0x7F for b in e[1:12])


def shown(user, name):
    kind = name[8:].decode("latin-1").rstrip(" ")
    text = name[:8].decode("latin-1").rstrip(" ") + ("." + kind if kind else "")
    text = "".join(c if " " <= c <= "~" else f"\\x{ord(c):02X}" for c in text)
    return f"{user}:{text}" if user else text


def group(e, geometry):
    return (32 * e[14] + e[12]) // extents(geometry)


def used(slots):
    return [(j, e) for j, e in enumerate(slots) if e[0] != EMPTY]


def own_fault(e):
    """the first rule that an entry breaks by itself, but for its map"""
    name = called(e)
    rules = [
        (e[0] > 15, "user"),
        (name[0] == 0x20 or any(b < 0x20 or b > 0x7E or b == 0x3F for b in name), "name"),
        (any(e[k] > 0x7F for k in (1, 2, 3, 4, 5, 6, 7, 8, 11)), "top bit"),
        (e[12] > 31, "ex"),
        (e[13] != 0, "s1"),
        (e[14] > 15, "s2"),
        (e[15] > 128, "rc"),
    ]
    return next((BAD[rule] for broken, rule in rules if broken), "")


def shared_fault(slots, i, geometry):
    """the first rule of the map and of lower slots that slot i breaks"""
    _, total, directory = geometry
    e, lower = slots[i], used(slots[:i])
    held = numbers(e, geometry)
    blocks = [(p, b) for p, b in enumerate(held) if b]
    for p, b in blocks:
        if not directory <= b < total:
            return f"place {p} names block {b}, and files have blocks {directory} to {total - 1}"
    for p, b in blocks:
        if b in held[:p]:
            return f"block {b} stands in it twice"
    for p, b in blocks:
        for j, other in lower:
            if b in numbers(other, geometry):
                return f"block {b} at place {p} belongs to slot {j} ({shown(other[0], called(other))}) too"
    for j, other in lower:
        if (e[0], called(e), group(e, geometry)) == (other[0], called(other), group(other, geometry)):
            return f"slot {j} ({shown(other[0], called(other))}) has the same user, name and extents"
    return ""


def slots_of(image, geometry):
    return [bytes(image[at:at + 32]) for at in range(0, geometry[0] * geometry[2], 32)]


def inspected(image, geometry):
    """what check says of a bad disk, or nothing"""
    slots = slots_of(image, geometry)
    for i, e in used(slots):
        why = own_fault(e) or shared_fault(slots, i, geometry)
        if why:
            return f"the disk is not sound (36): slot {i} ({shown(e[0], called(e))}): {why}"
    return ""


def listed(image, geometry):
    """what list prints of a sound disk"""
    files = {}
    for _, e in used(slots_of(image, geometry)):
        files.setdefault((e[0], called(e)), []).append(e)
    text, held = HEADING, 0
    for (user, name), entries in files.items():
        records = max(128 * (32 * e[14] + e[12]) + e[15] for e in entries)
        blocks = sum(b != 0 for e in entries for b in numbers(e, geometry))
        marks = "".join(word for at, word in ((9, " read-only"), (10, " system")) if any(e[at] & 0x80 for e in entries))
        text += line(user, shown(0, name), records, blocks, marks)
        held += blocks
    return text + f"free blocks: {geometry[1] - geometry[2] - held}\n".encode()


# ---- volumes by chance


def some_volume(chance, geometry):
    """few names, so that files have several entries; numbers near their limits; often a spoiled byte"""
    block, total, directory = geometry
    blocks = list(range(directory, total))
    chance.shuffle(blocks)
    slots = block * directory // 32
    entries = {}
    for slot in chance.sample(range(slots), chance.choice((0, 1, 3, 6, 10))):
        held = [blocks.pop() if blocks and chance.random() < 0.2 else 0 for _ in range(places(geometry))]
        laid = bytearray(entry(user=chance.choice((0, 0, 1, 15)), name=chance.choice(NAMES), ex=chance.randrange(32),
                               s2=chance.choice((0, 0, 15)), rc=chance.choice((0, 1, 127, 128)), blocks=held, geometry=geometry))
        laid[9] |= chance.choice((0, 0, 0x80))
        laid[10] |= chance.choice((0, 0, 0x80))
        entries[slot] = laid
    image = volume(geometry, entries)
    if entries and chance.random() < 0.6:
        at = 32 * chance.choice(list(entries)) + chance.randrange(32)
        image[at] = chance.choice((*EDGES, total % 256, chance.randrange(256)))
    return image


def volumes(tally):
    for geometry in GEOMETRIES:
        desk = Desk(tally, f"by chance, {geometry[0]},{geometry[1]},{geometry[2]}", geometry)
        seen = {True: 0, False: 0}
        for number in range(VOLUMES):
            image = some_volume(random.Random(f"{SEED} {geometry} {number}"), geometry)
            desk.write("V.IMG", image)
            why = inspected(image, geometry)
            expected = (1, f"V.IMG: {why}\n".encode()) if why else (0, listed(image, geometry))
            found = desk.run("check" if why else "list", "V.IMG")[:2]
            seen[why == ""] += 1
            if found != expected:
                desk.write(f"kept-{number}.IMG", image)
                desk.same(f"volume {number}, which is kept", found, expected)
        what = f"{VOLUMES} volumes: {seen[True]} listed, {seen[False]} bad"
        desk.add(what, "" if min(seen.values()) > 5 else "too few of a kind")


# ---- runs of commands by chance


def one_command(chance, desk, files, number):
    """a command by chance on the disk and on the table; whether it is done, and what was asked"""
    user, name = chance.choice((0, 1)), chance.choice(NAMES)
    key, typed = (user, name), f"{user}:{name.lower()}"
    kind = chance.choice(("put", "put", "replace", "erase", "rename"))
    if kind in ("put", "replace"):
        content = bytes([number]) * chance.choice((0, 1, 128, 1000, 5000))
        desk.write("in", content)
        fits = kind == "replace" or key not in files
        if fits:
            files[key] = content
        return ["put", *(["--replace"] if kind == "replace" else []), "V.IMG", "in", typed], fits
    there = key in files
    if kind == "erase":
        files.pop(key, None)
        return ["erase", "V.IMG", typed], there
    new = chance.choice(NAMES)
    fits = there and (user, new) not in files
    if fits:
        files[user, new] = files.pop(key)
    return ["rename", "V.IMG", typed, new], fits


def filled(content):
    """whole records"""
    return content.ljust(-(-len(content) // 128) * 128, b"\0")


def differences(desk, geometry, files):
    """what is wrong with the disk, of which the table says what stands on it"""
    image = desk.read("V.IMG")
    if {(e[0], called(e)) for _, e in used(slots_of(image, geometry))} != {(user, name_bytes(name)) for user, name in files}:
        yield "other files are there"
    for (user, name), content in files.items():
        if desk.run("get", "V.IMG", f"{user}:{name}", "-")[1] != filled(content):
            yield f"{user}:{name} has other bytes"
    if inspected(image, geometry):
        yield inspected(image, geometry)


def one_run(desk, geometry, chance):
    """an empty disk, and commands on it; what is wrong"""
    files = {}
    desk.path("V.IMG").unlink(missing_ok=True)
    desk.run("new", "V.IMG")
    for number in range(COMMANDS):
        words, fits = one_command(chance, desk, files, number)
        status = desk.run(*words)[0]
        if status != (0 if fits else 1):
            yield f"{' '.join(words)} ended with {status}"
    yield from differences(desk, geometry, files)


def runs(tally):
    for geometry in GEOMETRIES:
        desk = Desk(tally, f"runs, {geometry[0]},{geometry[1]},{geometry[2]}", geometry)
        for number in range(RUNS):
            wrong = list(one_run(desk, geometry, random.Random(f"{SEED} {geometry} {number}")))
            desk.add(f"run {number} of {COMMANDS} commands", "; ".join(wrong))


def run(tally):
    volumes(tally)
    runs(tally)
