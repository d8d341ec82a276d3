"""A fresh disk from a worn one: the copy by the words of the request beside the one that the tool makes, on disks by hand and by
chance; the old image stays, and what is there already is not replaced."""
import random

from desk import Desk
from disk import EMPTY, FLOPPY, FLOPPY_BYTES, entry, extents, numbers, places, skewed, unskewed, volume, width

GEOMETRIES = [(1024, 40, 1), (1024, 256, 16), (2048, 160, 2), (4096, 256, 2), (2048, 300, 1), (4096, 257, 2)]
LARGEST = (2048, 4096, 16)


def file_of(e):
    """user and name without top bits"""
    return e[0], bytes(b & 0x7F for b in e[1:12])


def in_good_order(worn, geometry):
    """the copy, and its free blocks"""
    block, total, directory = geometry
    slots = [bytes(worn[at:at + 32]) for at in range(0, block * directory, 32)]
    used = [e for e in slots if e[0] != EMPTY]
    lowest = [file_of(e) for e in used]
    ordered = sorted(used, key=lambda e: (lowest.index(file_of(e)), 32 * e[14] + e[12]))
    copy, number = volume(geometry, {}), directory
    for slot, e in enumerate(ordered):
        laid = []
        for old in numbers(e, geometry):
            laid.append(number if old else 0)
            if old:
                copy[number * block:(number + 1) * block] = worn[old * block:(old + 1) * block]
                number += 1
        copy[32 * slot:32 * slot + 32] = e[:16] + b"".join(n.to_bytes(width(geometry), "little") for n in laid)
    return bytes(copy), total - number


def worn_by_chance(r, geometry):
    """a sound disk: some files of several groups, their entries and blocks anywhere, erased entries, old bytes in free blocks"""
    block, total, directory = geometry
    slots = block * directory // 32
    image = bytearray(r.randbytes(block * total))
    free = r.sample(range(directory, total), total - directory)
    groups = [(r.randrange(16), f"F{k}.TXT", group) for k in range(r.randrange(12)) for group in r.sample(range(8), r.randrange(1, 5))]
    groups = list({(user, name, group): None for user, name, group in groups})[:slots]
    at = dict(zip(r.sample(range(slots), len(groups)), groups))
    for slot in range(slots):
        image[32 * slot:32 * slot + 32] = bytes([EMPTY]) + r.randbytes(31)
        if slot in at:
            user, name, group = at[slot]
            blocks = [free.pop() if free and r.random() < 0.4 else 0 for _ in range(places(geometry))]
            e = bytearray(entry(user, name, rc=r.randrange(129), blocks=blocks, geometry=geometry))
            extent = group * extents(geometry) + r.randrange(extents(geometry))
            e[12], e[14] = extent % 32, extent // 32
            e[9] |= 0x80 * (group == 0)
            image[32 * slot:32 * slot + 32] = e
    return image


def copies(desk, what, worn, geometry):
    copy, free = in_good_order(worn, geometry)
    desk.write("A.IMG", worn)
    desk.path("B.IMG").unlink(missing_ok=True)
    desk.done(f"{what}", "fresh", "A.IMG", "B.IMG", out=f"B.IMG: a fresh disk, free blocks: {free}\n".encode())
    desk.same(f"{what}: the copy, and the old image", (desk.read("B.IMG"), desk.read("A.IMG")), (copy, bytes(worn)))
    return copy


def by_hand(desk):
    """the second extent stands before the first, another file between them, an erased one; blocks 1 and 6 are free"""
    geometry = (1024, 40, 1)
    worn = volume(geometry, {0: entry(ex=1, rc=4, blocks=[5]), 1: entry(user=EMPTY, blocks=[1, 6]),
                             2: entry(name="COLLA.TXT", rc=21, blocks=[3, 0, 2]), 3: entry(rc=128, blocks=[7, 0, 4])})
    for b in range(1, 40):
        worn[1024 * b:1024 * b + 1024] = bytes([b]) * 1024
    expected = volume(geometry, {0: entry(rc=128, blocks=[1, 0, 2]), 1: entry(ex=1, rc=4, blocks=[3]),
                                 2: entry(name="COLLA.TXT", rc=21, blocks=[4, 0, 5])})
    for new, old in enumerate([7, 4, 5, 3, 2], 1):
        expected[1024 * new:1024 * new + 1024] = bytes([old]) * 1024
    copy = copies(desk, "a worn disk", worn, geometry)
    desk.same("a worn disk: by hand", copy, bytes(expected))
    desk.done("the copy is sound", "check", "B.IMG", out=b"B.IMG: the disk is sound, free blocks: 34\n")
    desk.done("the copy copied", "fresh", "B.IMG", "C.IMG")
    desk.same("the copy copied: the same bytes", desk.read("C.IMG"), copy)


def refusals(desk):
    desk.refused("onto a file that is there", "fresh", "A.IMG", "B.IMG", said="B.IMG can't be made: File exists")
    desk.refused("onto the image itself", "fresh", "A.IMG", "A.IMG", said="A.IMG can't be made: File exists")
    desk.refused("of what is not there", "fresh", "X.IMG", "D.IMG", said="X.IMG")
    desk.wrong_use("without a second name", "fresh", "A.IMG", said="")
    bad = bytearray(desk.read("A.IMG"))
    bad[32 * 2 + 18] = 5
    desk.write("BAD.IMG", bad)
    said = "BAD.IMG: the disk is not sound (36): slot 2 (COLLA.TXT): block 5 at place 2 belongs to slot 0 (SIGLA.TXT) too"
    desk.refused("of a disk that is not sound", "fresh", "BAD.IMG", "D.IMG", said=said)


def on_floppies(tally, r):
    """as on the unskewed volume; the system tracks and the last six records go along"""
    desk = Desk(tally, "fresh: eight-inch floppy")
    noise = r.randbytes(FLOPPY_BYTES)
    worn = worn_by_chance(r, FLOPPY)
    copy, free = in_good_order(worn, FLOPPY)
    desk.write("A.IMG", skewed(worn, noise))
    desk.done("a copy", "fresh", "A.IMG", "B.IMG", out=f"B.IMG: a fresh disk, free blocks: {free}\n".encode())
    desk.same("a copy: its volume", unskewed(desk.read("B.IMG")), copy)
    desk.same("a copy: all its bytes", desk.read("B.IMG"), bytes(skewed(copy, noise)))


def run(tally):
    desk = Desk(tally, "fresh")
    by_hand(desk)
    refusals(desk)
    r = random.Random(14)
    on_floppies(tally, r)
    for geometry in GEOMETRIES:
        desk = Desk(tally, f"fresh: B {geometry[0]} T {geometry[1]} D {geometry[2]}", geometry)
        for number in range(8):
            copies(desk, f"disk {number}", worn_by_chance(r, geometry), geometry)
    desk = Desk(tally, "fresh: 8 MiB", LARGEST)
    copies(desk, "a disk", worn_by_chance(r, LARGEST), LARGEST)
