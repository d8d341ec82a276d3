"""Holds the memory calls and load at the seam against model.py: random tables, control blocks and CMD files, among them damaged ones,
and the refusals of the file itself, which are worked out by hand below. A number and all lent bytes must be the model's.

    compare.py PROGRAM.. -- SEED CASES      PROGRAM runs seam.c over the archive

The last line is 'N passed, M failed'; a case that fails is shown with what it was lent."""
import random
import struct
import subprocess
import sys
from collections import Counter

import model

LOG_IN, MEMORY_CALL, LOAD = range(3)
DRIVE, VOLUME, CONTROL, TABLE, MEMORY = range(5)
NAMES = ("drive", "volume", "control block", "table", "memory")
BLOCK, RECORD, ENTRY = 1024, 128, 32
FLOPPY_BYTES = 77 * 26 * RECORD
SECTORS = (1, 7, 13, 19, 25, 5, 11, 17, 23, 3, 9, 15, 21, 2, 8, 14, 20, 26, 6, 12, 18, 24, 4, 10, 16, 22)


class Seam:
    def __init__(self, program):
        self.pipe = subprocess.Popen(program, stdin=subprocess.PIPE, stdout=subprocess.PIPE)

    def ask(self, what, function, number, slices, kilobytes=1, directory=1):
        head = struct.pack("<4B6I", what, function, kilobytes, directory, number, *map(len, slices))
        self.pipe.stdin.write(head + b"".join(slices))
        self.pipe.stdin.flush()
        answer, touched = struct.unpack("<II", self.read(8))
        left = [self.read(len(piece)) for piece in slices]
        return answer, touched, left

    def read(self, count):
        data = self.pipe.stdout.read(count)
        if len(data) != count:
            sys.exit("the program under test ended")
        return data


class Bench:
    """the program under test, and what was found"""

    def __init__(self, seam):
        self.seam, self.passed, self.failed, self.seen = seam, 0, 0, Counter()

    def holds(self, label, what, function, number, slices, want):
        """one case: the answer and the five slices that the call must leave"""
        answer, touched, left = self.seam.ask(what, function, number, slices)
        wrong = [] if answer == want[0] else [f"answer {answer & 0xFFFF} with {answer >> 16}, not {want[0] & 0xFFFF} with {want[0] >> 16}"]
        wrong += [f"{NAMES[touched - 1]}: a byte beside it was changed"] if touched else []
        wrong += [f"{name} differs" for name, is_, should in zip(NAMES, left, want[1]) if is_ != should]
        self.seen[label, want[0] & 0xFFFF] += 1
        if not wrong:
            self.passed += 1
            return
        self.failed += 1
        print(f"FAILED {label} {function}: {', '.join(wrong)}")
        print(f"  number {number}, " + ", ".join(f"{name} {piece[:200].hex()}" for name, piece in zip(NAMES, slices)))


# ---- tables


def spans(rng, low, high, count, longest):
    """so many spans, most of them apart, in rising order"""
    found, at = [], low
    for _ in range(count):
        at += rng.choice((0, 0, 1, rng.randrange(0, 40)))
        length = rng.choice((0, 1, rng.randrange(1, longest)))
        if at + length > high:
            break
        found.append((at, length))
        at += length
    return found


def regions_in(rng, pieces, count):
    found = []
    for start, length in rng.sample(pieces, len(pieces)):
        found += spans(rng, start, start + length, rng.randrange(0, 4), max(2, length // 2))
    rng.shuffle(found)
    return found[:count]


def table_of(rng, low, high):
    """the bytes of a table; one in six is against the rules, or has bytes behind its ends"""
    pieces = spans(rng, low, high, rng.randrange(0, 9), max(2, (high - low) // 3))
    rng.shuffle(pieces)
    regions = regions_in(rng, pieces, rng.choice((0, 1, 2, 4, 7, 8)))
    if pieces and rng.randrange(5) == 0:
        regions += [(pieces[0][0], 0)] * (model.PLACES - len(regions) - rng.randrange(2))
    data = bytearray(model.Table(pieces, regions).bytes())
    kind = rng.randrange(12)
    if kind == 0:
        data[rng.randrange(len(data))] = rng.randrange(256)
    elif kind == 1:
        data[rng.randrange(2)] = rng.choice((9, 8, 255))
    elif kind in (2, 3):
        for at in range(2 + 4 * data[0], 34):
            data[at] = rng.randrange(256)
        for at in range(34 + 4 * data[1], 66):
            data[at] = rng.randrange(256)
    elif kind == 4:
        return bytes(data) + b"\0" if rng.randrange(2) else bytes(data[:-1])
    return bytes(data)


def of_interest(rng, table):
    """a base and a length that are near something in the table"""
    read = model.Table.read(table)
    near = [(0, 0)] + (read.pieces + read.regions if read else [])
    start, length = rng.choice(near)
    base = rng.choice((start, start + 1, start + length, start + length // 2, max(0, start + length - 1), 0))
    asked = rng.choice((length, length // 2, 1, 0, max(0, start + length - base), length + 1, 65535))
    return base % 65536, asked % 65536


def memory_case(bench, rng):
    high = rng.choice((64, 300, 2000, 65536))
    low = rng.choice((0, 16, high - 60)) if high < 65536 else 65000
    table = table_of(rng, low, high)
    memory_bytes = rng.choice((16 * high, 16 * high, 16 * high + 15, 16 * high - 1, 2**32 - 1, 0))
    function = rng.choice((53, 54, 55, 56, 57, 57, 58, rng.randrange(256)))
    base, length = of_interest(rng, table)
    mcb = model.two_bytes(base) + model.two_bytes(length) + bytes([rng.choice((0, 0, 255, 1, 254))])
    if rng.randrange(20) == 0:
        mcb = rng.choice((b"", mcb[:4], mcb + b"\0"))
    number, mcb_after, table_after = model.memory_call(function, mcb, table, memory_bytes)
    bench.holds("memory", MEMORY_CALL, function, memory_bytes, [b"", b"", mcb, table, b""], (number, [b"", b"", mcb_after, table_after, b""]))


# ---- files


def control_block(name=b"COLLATE CMD", length=36):
    return (bytes([0]) + name + bytes(range(200, 224)))[:length]


def sector(record):
    """where a logical record of an eight-inch disk begins: the places of 02 (i)"""
    return ((2 + record // 26) * 26 + SECTORS[record % 26] - 1) * RECORD


def entry(ex, rc, blocks, name=b"COLLATE CMD", user=0):
    return bytes([user]) + name + bytes([ex, 0, 0, rc]) + bytes(blocks) + bytes(16 - len(blocks))


def volume_of(rng, records):
    """a volume with the file COLLATE.CMD of these records, its blocks in any order; None for a record that was not written"""
    count = -(-len(records) // 8)
    total = count + 2 + rng.randrange(4)
    free = list(range(1, total))
    rng.shuffle(free)
    data = bytearray(rng.randbytes(total * BLOCK))
    data[:BLOCK] = b"\xE5" * BLOCK
    slots = rng.sample(range(BLOCK // ENTRY), -(-len(records) // 128))
    for ex, slot in enumerate(slots):
        mine = records[128 * ex : 128 * ex + 128]
        blocks = []
        for at in range(0, len(mine), 8):
            if any(record is not None for record in mine[at : at + 8]):
                block = free.pop()
                blocks.append(block)
                for i, record in enumerate(mine[at : at + 8]):
                    if record is not None:
                        data[BLOCK * block + RECORD * i : BLOCK * block + RECORD * (i + 1)] = record
            else:
                blocks.append(0)
        data[ENTRY * slot : ENTRY * (slot + 1)] = entry(ex, len(mine), blocks)
    return total, bytes(data)


def drive_of(bench, total, volume, *sizes, placing=0):
    drive = bytes(64 if total <= 256 else 544)
    answer, _, left = bench.seam.ask(LOG_IN, placing, total, [drive, volume, b"", b"", b""], *sizes)
    if answer & 0xFFFF:
        sys.exit(f"the volume of a case is refused by {answer & 0xFFFF}")
    return left[DRIVE]


def header_of(rng):
    """a header of a few groups; one in five is against a rule"""
    kinds = rng.sample(range(2, 9), rng.choice((0, 0, 1, 1, 2, 4, 7))) + [rng.choice((1, 1, 9))]
    rng.shuffle(kinds)
    odd = rng.randrange(15)
    if odd == 0:
        kinds[rng.randrange(len(kinds))] = rng.choice((0, 10, 15, 1, 2, 9))
    header = b""
    for kind in kinds[:8]:
        length = rng.choice((0, 1, 2, 16, 17, rng.randrange(1, 40)))
        least = rng.choice((0, 1, 16, 20, rng.randrange(0, 60)))
        base = rng.choice((0, 0, 0, rng.randrange(1, 400)))
        most = rng.choice((0, 16, length, 100, 65535))
        if odd != 1 and kind in (1, 2, 9):
            least = max(least, 16)
        header += bytes([16 * rng.randrange(16) + kind]) + b"".join(map(model.two_bytes, (length, base, least, most)))
    return (header + bytes(1) + rng.randbytes(RECORD))[:RECORD] if len(header) < 72 else header + rng.randbytes(RECORD - 72)


def load_case(bench, rng):
    header = header_of(rng)
    wanted = 16 * sum(group.length for group in model.groups_of(header))
    count = max(0, -(-wanted // RECORD) + rng.choice((0, 0, 0, 0, 1, 2, -1)))
    records = [header] + [rng.randbytes(RECORD) for _ in range(count)]
    total, volume = volume_of(rng, records)
    drive = drive_of(bench, total, volume)
    high = rng.choice((64, 200, 400, 5000, 5000))
    memory = rng.randbytes(16 * high + rng.choice((0, 0, 0, 15, -1)))
    table = table_of(rng, rng.choice((0, 1, 16)), high)
    if rng.randrange(3):
        table = model.Table([(rng.randrange(3), high - 4)], []).bytes()
    number, value, table_after, memory_after = model.load(records, table, memory)
    slices = [drive, volume, control_block(), table, memory]
    left = [drive, volume, control_block(), table_after, memory_after]
    bench.holds("load", LOAD, 59, 0, slices, (number | value << 16, left))
    page = memory_after[16 * value : 16 * value + 48]
    bench.seen["third byte of L"] += number == 0 and any(page[2::6])


# ---- the file's own refusals, before 65: each is asked for with a table against the rules, so that a wrong order is seen


def file_refusals(bench, rng):
    code = bytes([1]) + model.two_bytes(16) + bytes(2) + model.two_bytes(16) + bytes(2)
    good = [code + bytes(RECORD - 9)] + [rng.randbytes(RECORD) for _ in range(2)]
    total, volume = volume_of(rng, good)
    drive = drive_of(bench, total, volume)
    bad_table = bytes([9]) + bytes(65)
    memory = rng.randbytes(16 * 40)

    def case(number, label, drive=drive, volume=volume, fcb=control_block(), table=bad_table):
        slices = [drive, volume, fcb, table, memory]
        bench.holds(label, LOAD, 59, 0, slices, (number, slices))

    def changed(data, at, *values):
        return data[:at] + bytes(values) + data[at + len(values) :]

    slot = next(at for at in range(0, BLOCK, ENTRY) if volume[at] != 0xE5)
    case(32, "a closed drive", drive=bytes(64))
    case(32, "a drive of 63 bytes", drive=drive[:63])
    case(32, "a closed drive before the volume", drive=bytes(64), volume=volume[1:])
    case(33, "another length of the volume", volume=volume[1:], fcb=control_block(length=35))
    case(34, "a control block of 35 bytes", fcb=control_block(length=35))
    case(34, "no control block", fcb=b"")
    case(42, "dr 2", fcb=changed(control_block(b"?OLLATE CMD"), 0, 2))
    case(39, "a pattern for a name", fcb=control_block(b"COLL?TE CMD"))
    case(3, "no such file", fcb=control_block(b"COLLATE XMD"))
    case(65, "r bytes, ex, s2 and cr are not looked at", fcb=changed(changed(control_block(), 12, 99, 99, 99), 32, 200, 255, 255, 255))
    case(65, "a name with top bits", fcb=control_block(bytes(byte | 128 for byte in b"COLLATE CMD")))
    case(1, "no record 0", volume=changed(volume, slot + 15, 0))
    case(1, "record 0 is in a gap", volume=changed(volume, slot + 16, 0))
    case(4, "no group of record 0", volume=changed(volume, slot + 12, 1))
    case(41, "the block of record 0 is none of the file's area", volume=changed(volume, slot + 16, 255))
    hole_total, hole = volume_of(rng, good + [None] * 13 + good)
    case(1, "a gap behind record 0", drive=drive_of(bench, hole_total, hole), volume=hole)
    case(65, "66 bytes with nine pieces")
    case(65, "a table of 65 bytes", table=bytes(65))
    case(65, "no table", table=b"")
    case(65, "a piece that leaves the memory", table=model.Table([(0, 41)], []).bytes())
    case(62, "no piece", table=bytes(66))
    case(63, "eight empty regions", table=model.Table([(0, 40)], [(0, 0)] * 8).bytes())


def beyond_the_last_record(bench):
    """an altered volume on which the file has 65,537 records, all of them in one block: record 65,536 is 6"""
    kilobytes, directory, total = 2, 5, 6
    drive = drive_of(bench, total, b"\xE5" * (total * kilobytes * BLOCK), kilobytes, directory)
    entries = b""
    for extent in [*range(1, 512, 2), 512]:
        name = b"COLLATE CMD"
        entries += bytes([0]) + name + bytes([extent % 32, 0, extent // 32, 128 if extent < 512 else 1]) + bytes([directory] * 16)
    code = bytes([1]) + model.two_bytes(16) + bytes(2) + model.two_bytes(16) + bytes(2)
    volume = entries.ljust(directory * kilobytes * BLOCK, b"\xE5") + code.ljust(kilobytes * BLOCK, b"\0")
    slices = [drive, volume, control_block(), bytes(66), bytes(16)]
    bench.holds("65,537 records", LOAD, 59, 0, slices, (6, slices))


def on_other_disks(bench, rng):
    """the same file on a disk of 300 blocks, whose block numbers have two bytes, and on an eight-inch disk: each loads as from V"""
    code = bytes([1]) + model.two_bytes(18) + bytes(2) + model.two_bytes(20) + bytes(2)
    records = [code + bytes(RECORD - 9)] + [rng.randbytes(RECORD) for _ in range(3)]
    memory, table = rng.randbytes(16 * 40), model.Table([(3, 30)], []).bytes()
    number, value, table_after, memory_after = model.load(records, table, memory)

    def case(label, drive, volume):
        slices = [drive, volume, control_block(), table, memory]
        left = [drive, volume, control_block(), table_after, memory_after]
        bench.holds(label, LOAD, 59, 0, slices, (number | value << 16, left))

    wide = bytearray(b"\xE5" * (300 * 2 * BLOCK))
    wide[:ENTRY] = entry(0, len(records), model.two_bytes(290))
    wide[290 * 2 * BLOCK : 290 * 2 * BLOCK + len(records) * RECORD] = b"".join(records)
    case("on a hard disk", drive_of(bench, 300, bytes(wide), 2), bytes(wide))
    floppy = bytearray(b"\xE5" * FLOPPY_BYTES)
    floppy[sector(0) : sector(0) + ENTRY] = entry(0, len(records), [200])
    for n, record in enumerate(records):
        floppy[sector(200 * 8 + n) : sector(200 * 8 + n) + RECORD] = record
    case("on an eight-inch disk", drive_of(bench, 243, bytes(floppy), 1, 2, placing=1), bytes(floppy))


def main():
    cut = sys.argv.index("--")
    seed, cases = map(int, sys.argv[cut + 1 : cut + 3])
    rng = random.Random(seed)
    bench = Bench(Seam(sys.argv[1:cut]))
    file_refusals(bench, rng)
    beyond_the_last_record(bench)
    on_other_disks(bench, rng)
    for _ in range(cases):
        memory_case(bench, rng)
        memory_case(bench, rng)
        load_case(bench, rng)
    print(f"seed {seed}; answers of the memory calls: " + ", ".join(f"{number}: {bench.seen['memory', number]}" for number in (0, 31, 34, 65, 63, 62, 64)))
    print("answers of load: " + ", ".join(f"{number}: {bench.seen['load', number]}" for number in (0, 65, 60, 61, 63, 62)))
    for label, numbers in (("memory", (0, 31, 34, 65, 63, 62, 64)), ("load", (0, 65, 60, 61, 63, 62))):
        for number in numbers:
            bench.failed += cases >= 500 and bench.seen[label, number] == 0
    print(f"loads of a region of more than 64 KiB: {bench.seen['third byte of L']}")
    bench.failed += cases >= 500 and bench.seen["third byte of L"] == 0
    print(f"{bench.passed} passed, {bench.failed} failed")
    return bench.failed != 0


sys.exit(main())
