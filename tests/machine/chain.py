"""The chain that the machine's tests walk: the hex file made a CMD file, a volume with that file beside a collation file, the machine that
runs it, and the files of a volume read back by the paper's description (tests/tool/disk.py). Everything stands in target/machine."""
import re
import subprocess

from desk import NATIVE, ROOT, TOOL
from disk import FLOPPY, file_on, unskewed

FOLDER = ROOT / "target/machine"
MACHINE = [FOLDER / "machine"] if NATIVE else ["qemu-x86_64", FOLDER / "machine"]
SECONDS = 600

COLLATION, PROGRAM = "COLLATIO.TXT", "COLLATE.CMD"
CHAPTER, OLD, NEW = 7, "BE", "B"
TAIL = f"{COLLATION} {CHAPTER} {OLD} {NEW}"
# The name of the file that the program renames, and the one that it has in between.
RENAMED = ("SIGLA.BAK", "SIGLA.$$$")

# What a volume is called, its geometry, its placing at the seam, and the words by which the command makes it.
VOLUMES = [
    ("a straight disk", (1024, 40, 1), 0, ["-g", "1024,40,1"]),
    ("an eight-inch floppy", FLOPPY, 1, ["-f", "eight-inch"]),
    ("the hard disk", (2048, 1024, 4), 0, ["-g", "2048,1024,4"]),
]


def place(*numbers):
    """a place of the contents: chapter, first record, count, zero; 16 bits each"""
    return b"".join(number.to_bytes(2, "little") for number in numbers)


def collation():
    """contents of three chapters, and a reading for each record: every third has the old siglum, and some have the new one already"""
    contents, readings, first = b"", b"", 1
    for chapter, count in ((3, 5), (CHAPTER, 39), (300, 4)):
        contents += place(chapter, first, count, 0)
        for number in range(first, first + count):
            siglum = OLD if number % 3 == 0 else ("A", NEW)[number % 2]
            readings += siglum.ljust(2).encode() + place(number) + f"reading {number} of chapter {chapter}".encode().ljust(124, b".")
        first += count
    return contents.ljust(128, b"\0") + readings


# The files of a volume beside the program.
FILES = {COLLATION: collation(), RENAMED[0]: b"Sigla codicum".ljust(256, b"\x1a"), "NOTES.TXT": bytes(range(256)) * 9}


def tool(*words):
    """the command; what it prints"""
    ran = subprocess.run([*TOOL, *map(str, words)], cwd=FOLDER, capture_output=True, text=True, timeout=SECONDS)
    if ran.returncode != 0:
        raise RuntimeError(f"churawel {' '.join(map(str, words))}: status {ran.returncode}, {ran.stderr}{ran.stdout}")
    return ran.stdout


def make_program():
    """the hex file made the CMD file, by the command; its bytes"""
    tool("gencmd", "--replace", "collate.hex", PROGRAM)
    return (FOLDER / PROGRAM).read_bytes()


def make_volume(image, words):
    """a new volume with the files and the program, by the command; its bytes"""
    (FOLDER / image).unlink(missing_ok=True)
    tool("new", *words, image)
    for name, content in FILES.items():
        (FOLDER / name).write_bytes(content)
        tool("put", *words, image, name)
    tool("put", *words, image, PROGRAM)
    return (FOLDER / image).read_bytes()


def run_machine(image, geometry, placing, out, stores="all", tail=TAIL, program=PROGRAM):
    """what the program prints, how the machine ended, after how many calls, and the image that it leaves"""
    words = [image, *geometry, placing, out, stores, program, tail]
    ran = subprocess.run([*MACHINE, *map(str, words)], cwd=FOLDER, capture_output=True, timeout=SECONDS)
    ended = re.fullmatch(r"(ended|closed) after (\d+) calls\n", ran.stderr.decode())
    if ran.returncode != 0 or not ended:
        raise RuntimeError(f"the machine: status {ran.returncode}, {ran.stderr.decode()}")
    return ran.stdout, ended[1], int(ended[2]), (FOLDER / out).read_bytes()


def files_of(image, geometry, placing):
    """the bytes of each file, by its entries alone; none where it is not there"""
    volume = unskewed(image) if placing else image
    return {name: file_on(volume, geometry, 0, name) for name in (*FILES, PROGRAM, RENAMED[1])}
