"""The command shelf: figures worked out by hand, on every kind of disk; refused images and why; images that can't be read; one image
too many; and what it says while it reads."""
import os
import pty
import re
import resource
import subprocess

from desk import TOOL, Desk
from disk import BAD, EMPTY, FLOPPY, FLOPPY_BYTES, entry, skewed, volume

V = (1024, 40, 1)
LARGE = (4096, 256, 2)
HARD = (2048, 257, 1)
HEADINGS = ("REFUSED", "FILES", "ENTRIES", "RECORDS", "HELD", "FREE", "WASTE")
# V after the paper's writes 0, 20 and 128: 8 + 5 + 1 records in three blocks of eight.
WRITTEN = {0: entry(rc=21, blocks=[1, 0, 2]), 1: entry(ex=1, rc=1, blocks=[3])}


def shown(*figures):
    """the two lines that have these figures"""
    return "".join(" ".join(f"{word:>10}" for word in line) + "\n" for line in (HEADINGS, figures)).encode()


def lay(desk):
    """sound disks of V's geometry, and a bad one"""
    desk.write("EMPTY.IMG", volume(V, {}))
    desk.write("THREE.IMG", volume(V, WRITTEN))
    # Two users have a file of one name; blocks that no record uses.
    desk.write("USERS.IMG", volume(V, {3: entry(user=1), 7: entry(), 9: entry(ex=1, blocks=[38, 39])}))
    desk.write("BAD.IMG", volume(V, {4: entry(user=16)}))
    desk.write("SHORT.IMG", bytes(40959))


def figures(desk):
    one, two = (0, 1, 2, 14, 3, 36, 10), (0, 2, 3, 0, 2, 37, 16)
    desk.done("an empty disk", "shelf", "EMPTY.IMG", out=shown(0, 0, 0, 0, 0, 39, 0))
    desk.done("three writes: gaps are no records", "shelf", "THREE.IMG", out=shown(*one))
    desk.done("files by user and name, blocks without records", "shelf", "USERS.IMG", out=shown(*two))
    both = shown(*(a + b for a, b in zip(one, two)))
    desk.done("two disks: the sums", "shelf", "THREE.IMG", "USERS.IMG", out=both)
    desk.done("in the other order", "shelf", "USERS.IMG", "THREE.IMG", out=both)
    desk.done("one disk twice", "shelf", "THREE.IMG", "THREE.IMG", out=shown(*(2 * a for a in one)))


def other_geometry(desk):
    """extents 0 and 1 of the entry count whole and 2 has 7 records: places 0, 4 and 8 have 32, 32 and 7 of them"""
    laid = volume(LARGE, {9: entry(user=2, ex=2, rc=7, blocks=[2, 0, 0, 0, 3, 0, 0, 0, 4])})
    desk.write("LARGE.IMG", laid)
    expected = shown(0, 1, 1, 71, 3, 251, 25)
    desk.done("4,096 bytes a block, by -g", "shelf", "-g", "4096,256,2", "LARGE.IMG", out=expected)
    environment = {"CHURAWEL_GEOMETRY": "4096,256,2"}
    desk.done("4,096 bytes a block, by the environment", "shelf", "LARGE.IMG", out=expected, environment=environment)
    length = b"LARGE.IMG: the image's length is not that of its geometry (33): 1048576 bytes, 1024,40,1; say its own by -g\n"
    desk.done("a length that is not known", "shelf", "LARGE.IMG", out=shown(1, 0, 0, 0, 0, 0, 0) + length)


def hard_disk(desk):
    """block numbers of two bytes: 16 + 8 records in two of 256 data blocks"""
    desk.write("HARD.IMG", volume(HARD, {5: entry(user=1, rc=40, blocks=[256, 0, 1], geometry=HARD)}))
    desk.done("a hard disk, by -g", "shelf", "-g", "2048,257,1", "HARD.IMG", out=shown(0, 1, 1, 24, 2, 254, 8))
    both = shown(0, 2, 3, 38, 5, 290, 18)
    desk.done("a hard disk beside one of V's length", "shelf", "-g", "2048,257,1", "THREE.IMG", "HARD.IMG", out=both)
    other = b"SHORT.IMG: the image's length is not that of its geometry (33): 40959 bytes, 2048,257,1\n"
    expected = shown(1, 1, 1, 24, 2, 254, 8) + other
    desk.done("a hard disk beside one of no known length", "shelf", "-g", "2048,257,1", "SHORT.IMG", "HARD.IMG", out=expected)
    twenty = b"THREE.IMG: the disk is not sound (36)"
    printed = desk.run("shelf", "-g", "2048,20,1", "THREE.IMG")[1]
    desk.same("-g counts where the length fits it", printed.startswith(shown(1, 0, 0, 0, 0, 0, 0) + twenty), True)


def floppy(desk):
    """known by its length; the entry of slot 4 is in sector 7 of track 2"""
    laid = volume(FLOPPY, {4: entry(rc=9, blocks=[2, 242])})
    desk.write("FLOPPY.IMG", skewed(laid, bytes([EMPTY]) * FLOPPY_BYTES))
    alone, beside = shown(0, 1, 1, 9, 2, 239, 7), shown(0, 2, 3, 23, 5, 275, 17)
    desk.done("an eight-inch floppy", "shelf", "FLOPPY.IMG", out=alone)
    desk.done("an eight-inch floppy, by -f", "shelf", "-f", "eight-inch", "FLOPPY.IMG", out=alone)
    desk.done("an eight-inch floppy beside another kind of disk", "shelf", "THREE.IMG", "FLOPPY.IMG", out=beside)
    desk.done("an eight-inch floppy beside a hard disk", "shelf", "-g", "2048,257,1", "HARD.IMG", "FLOPPY.IMG", out=shown(0, 2, 2, 33, 4, 493, 15))
    environment = {"CHURAWEL_GEOMETRY": "2048,257,1"}
    desk.done("the same by the environment", "shelf", "FLOPPY.IMG", "HARD.IMG", out=shown(0, 2, 2, 33, 4, 493, 15), environment=environment)


def refused_images(desk):
    bad = f"BAD.IMG: the disk is not sound (36): slot 4 (16:SIGLA.TXT): {BAD['user']}\n".encode()
    short = b"SHORT.IMG: the image's length is not that of its geometry (33): 40959 bytes, 1024,40,1; say its own by -g\n"
    lawless = b"SHORT.IMG: no disk has this geometry (32): 40959 bytes, 1000,40,1; B is 1024, 2048 or 4096"
    desk.done("a bad disk, and why", "shelf", "BAD.IMG", out=shown(1, 0, 0, 0, 0, 0, 0) + bad)
    expected = shown(3, 1, 2, 14, 3, 36, 10) + short + bad + short
    desk.done("refused disks in their order", "shelf", "SHORT.IMG", "BAD.IMG", "THREE.IMG", "SHORT.IMG", out=expected)
    printed = desk.run("shelf", "-g", "1000,40,1", "SHORT.IMG")[1]
    desk.same("a geometry that no disk has", printed.startswith(shown(1, 0, 0, 0, 0, 0, 0) + lawless), True)
    desk.wrong_use("no image", "shelf", said="it is: churawel shelf IMAGE ..")


def wrong_geometry(desk):
    """said before any image is looked at, and before any is said to be read"""
    wrong = {"CHURAWEL_GEOMETRY": "1024,40"}
    desk.wrong_use("-g is looked at first", "shelf", "-g", "x", "nowhere", said="-g takes three numbers")
    desk.wrong_use("-f is looked at first", "shelf", "-f", "x", "nowhere", said="-f takes the word eight-inch")
    desk.wrong_use("CHURAWEL_GEOMETRY is looked at first", "shelf", "nowhere", said="CHURAWEL_GEOMETRY takes three numbers", environment=wrong)
    out, said = on_a_terminal(desk, "shelf", "-g", "x", "THREE.IMG")
    desk.same("a wrong -g on a terminal", (out, said.startswith(b"churawel: -g takes three numbers")), (b"", True))


def not_readable(desk):
    """the others are counted, and the status says that not all are"""
    one = shown(0, 1, 2, 14, 3, 36, 10)
    desk.path("folder").mkdir()
    said = "nowhere can't be read: No such file or directory; it is not counted\n"
    desk.leaves("an image that is not there", 1, "shelf", "nowhere", "THREE.IMG", said=said, out=one)
    said = "folder can't be an image: it is not a plain file; it is not counted\n"
    desk.leaves("a folder", 1, "shelf", "THREE.IMG", "folder", said=said, out=one)
    desk.leaves("no image that can be read", 1, "shelf", "nowhere", said="nowhere can't be read", out=shown(0, 0, 0, 0, 0, 0, 0))


def many(desk):
    """thousands one after another with few files open at a time, and one too many"""
    def few_files():
        resource.setrlimit(resource.RLIMIT_NOFILE, (24, 24))

    out = shown(0, 3000, 6000, 42000, 9000, 108000, 30000)
    desk.done("3,000 images", "shelf", *["THREE.IMG"] * 3000, out=out, preexec_fn=few_files)
    desk.write("0", b"")
    why = b"0: the image's length is not that of its geometry (33): 0 bytes, 1024,40,1; say its own by -g\n"
    said = "THREE.IMG: no more than 65535 disks are counted together (47); neither this image nor any behind it is counted\n"
    out = shown(65535, 0, 0, 0, 0, 0, 0) + 65535 * why
    desk.leaves("65,536 images and one more", 1, "shelf", *["0"] * 65535, "THREE.IMG", "0", said=said, out=out)


def on_a_terminal(desk, *words):
    """the command's standard output, and what a terminal gets as its standard error"""
    reads, writes = pty.openpty()
    run = subprocess.Popen([*TOOL, *words], cwd=desk.folder, stdout=subprocess.PIPE, stderr=writes, env=desk.environment)
    out = run.stdout.read()
    run.wait()
    os.close(writes)
    said = b""
    try:
        while piece := os.read(reads, 4096):
            said += piece
    except OSError:
        pass
    return out, said


def progress(desk):
    """one line, written over and wiped at the end and before a message"""
    reading = rb"(?:\rimage \d of %d)+\r {40}\r"
    out, said = on_a_terminal(desk, "shelf", "THREE.IMG", "EMPTY.IMG")
    desk.same("on a terminal: the figures", out, shown(0, 1, 2, 14, 3, 75, 10))
    desk.same("on a terminal: which image is read", re.fullmatch(reading % 2, said) is not None, True)
    out, said = on_a_terminal(desk, "shelf", "THREE.IMG", "EMPTY.IMG", "nowhere")
    message = rb"churawel: nowhere can't be read: No such file or directory; it is not counted\r\n"
    desk.same("on a terminal: a message", re.fullmatch(reading % 3 + message, said) is not None, True)


def run(tally):
    desk = Desk(tally, "shelf")
    lay(desk)
    figures(desk)
    other_geometry(desk)
    hard_disk(desk)
    floppy(desk)
    refused_images(desk)
    wrong_geometry(desk)
    not_readable(desk)
    progress(desk)
    many(desk)
