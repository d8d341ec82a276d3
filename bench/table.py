"""The tables of counted instructions: table.py LABELS MARKS [markdown] reads what count.c printed and the marks of the plugin, and
holds each ratio to its aim. One table is of volumes up to 256 blocks, one of hard disks, one of the eight-inch floppy beside the
straight volume of the same numbers, one of a volume put on a shelf beside its own log-in, one of cuts and a load beside the calls that
they need, which have no aim, and one of a chapter's siglum replaced. The exit status is 1 where an aim is missed. With `markdown` they
are printed as docs/SPEED.md has them."""
import sys

# The pass up to 256 blocks has an aim of its own, and so has a fresh disk.
PASS_AIM = 1.0
AIM = 1.3
FRESH_AIM = 20
FLOPPY_AIM = 1.5
SHELF_AIM = 2.0
NARROW = 256
# What is done through the seam, and the calls beside it; and a replacement by the desk, by calls that test everything first, and by
# calls that read each record once.
BESIDE = ("proved", "calls")
DESK = ("desk", "tested", "once")


def counts(named, marked):
    """work to (blocks, slots) to the instructions of either side"""
    marks = {}
    for line in open(marked):
        words = line.split()
        if len(words) == 3 and words[0] == "MARK":
            marks[words[1]] = int(words[2])
    found = {}
    for line in open(named):
        label, work, *shape, side = line.split()
        # Before there were hard disks a line had no blocks.
        blocks, slots = map(int, shape) if len(shape) == 2 else (NARROW, int(shape[0]))
        found.setdefault(work, {}).setdefault((blocks, slots), {})[side] = marks[label]
    return found


def chapters(found, markdown):
    """a chapter's siglum replaced by the desk, beside each record read once and each match written once, to which the aim is held, and
    beside the reads and writes of a caller who tests everything first; which missed the aim"""
    missed = []
    head, row = ("| records that match | entries | instructions | each read once | aim | tested first |\n|---|---|---|---|---|---|",
                 "| {} | {} | {:,} | {:.2f} | {} | {:.2f} |") if markdown else \
        (f"{'a siglum replaced':<20}{'entries':<20}{'instructions':>16}  each read once    aim  tested first",
         "{:<20}{:<20}{:>16,}{:>16.2f}{:>7.1f}{:>14.2f}")
    print(head)
    for work, by_shape in found.items():
        match, entries = work.replace("-", " ").split(":")
        for sides in by_shape.values():
            ours, tested, once = (sides[side] for side in DESK)
            print(row.format(match, entries, ours, ours / once, AIM, ours / tested))
            if ours > AIM * once:
                missed.append(f"{match}, {entries}")
    print()
    return missed


def aim_of(work, blocks):
    if work.startswith("fresh"):
        return FRESH_AIM
    return PASS_AIM if work == "pass" and blocks <= NARROW else AIM


def show_floppy(found, markdown):
    """the floppy beside the straight volume; what misses its aim: the pass alone has one"""
    missed = []
    head, row = ("| call | straight | floppy | ratio |\n|---|---|---|---|", "| {} | {:,} | {:,} | {:.2f} |") if markdown else \
        (f"{'eight-inch floppy':<20}{'straight':>16}{'floppy':>16} ratio", "{:<20}{:>16,}{:>16,}  {:.2f}")
    print(head)
    for work, by_shape in found.items():
        for sides in by_shape.values():
            if "floppy" in sides:
                print(row.format(work, sides["straight"], sides["floppy"], sides["floppy"] / sides["straight"]))
                if work == "pass" and sides["floppy"] > FLOPPY_AIM * sides["straight"]:
                    missed.append("pass on the floppy")
    print()
    return missed


def show_beside(found, title, heads, aim, markdown):
    """what is done through the seam, by its name and its heading, beside the calls that it needs; what misses its aim, where it has one"""
    missed = []
    if markdown:
        print(f"| blocks | slots | {' | '.join(heads.values())} |\n|---|---|{'---|' * len(heads)}")
    else:
        print(f"{title + ': blocks':<20}{'slots':>8}" + "".join(f"{head:>22}" for head in heads.values()))
    for blocks, slots in found[next(iter(heads))]:
        cells = []
        for work in heads:
            ours, calls = (found[work][blocks, slots][side] for side in BESIDE)
            cells.append((ours, ours / calls))
            if aim and ours > aim * calls:
                missed.append(f"{work} at {blocks:,} blocks and {slots:,} slots")
        if markdown:
            print(f"| {blocks:,} | {slots:,} | {' | '.join(f'{cost:,} ({ratio:.2f})' for cost, ratio in cells)} |")
        else:
            print(f"{blocks:<20,}{slots:>8,}" + "".join(f"{cost:>16,} {ratio:5.2f}" for cost, ratio in cells))
    print()
    return missed


def show_all_beside(found, markdown):
    """a volume put on a shelf beside its own log-in, which has an aim; cuts beside the writes, and a load beside its size and reads"""
    shelved = {"shelf-full": "full", "shelf-empty": "empty", "shelf-long-files": "long files"}
    others = {"cut-write": "cut of a write", "cut-write-block": "of one with a block", "load": "load"}
    return show_beside(found, "a shelf", shelved, SHELF_AIM, markdown) + show_beside(found, "no aim", others, None, markdown)


def compared(found, shapes):
    """the works that plain C does too on volumes of these shapes"""
    return ((work, by_shape) for work, by_shape in found.items() if "plain" in by_shape.get(shapes[0], {}))


def show_markdown(found, shapes):
    """the same table for docs/SPEED.md"""
    heads = [f"{slots:,}" if blocks <= NARROW else f"{slots:,} of {blocks:,} blocks" for blocks, slots in shapes]
    print(f"| call | {' | '.join(heads)} | aim |\n|---|{'---|' * len(shapes)}---|")
    for work, by_shape in compared(found, shapes):
        cells = []
        for shape in shapes:
            ours, plain = by_shape[shape]["proved"], by_shape[shape]["plain"]
            cells.append(f"{ours:,} ({ours / plain:.2f})")
        print(f"| {work} | {' | '.join(cells)} | {aim_of(work, shapes[0][0])} |")
    print()
    return []


def show(found, shapes):
    """a table with a column for each shape; what misses its aim"""
    missed = []
    print(f"{'blocks':<20}" + "".join(f"{blocks:>22,}" for blocks, _ in shapes))
    print(f"{'slots':<20}" + "".join(f"{slots:>22,}" for _, slots in shapes) + "    aim")
    for work, by_shape in compared(found, shapes):
        aim = aim_of(work, shapes[0][0])
        line = f"{work:<20}"
        for blocks, slots in shapes:
            ours, plain = by_shape[blocks, slots]["proved"], by_shape[blocks, slots]["plain"]
            line += f"{ours:>16,} {ours / plain:5.2f}"
            if ours > aim * plain:
                missed.append(f"{work} at {blocks:,} blocks and {slots:,} slots")
        print(f"{line}  {aim:5.1f}")
    print()
    return missed


def main():
    found = counts(sys.argv[1], sys.argv[2])
    desk = {work: found.pop(work) for work in list(found) if DESK[0] in next(iter(found[work].values()))}
    shapes = {shape for work in found.values() for shape, sides in work.items() if "plain" in sides}
    shapes = sorted(shapes, key=lambda shape: (shape[0] > NARROW, shape[1]))
    narrow, wide = ([shape for shape in shapes if (shape[0] > NARROW) == is_wide] for is_wide in (False, True))
    if "markdown" in sys.argv:
        show_markdown(found, narrow)
        show_markdown(found, wide)
        show_floppy(found, True)
        show_all_beside(found, True)
        chapters(desk, True)
        return 0
    print("Instructions of the proved calls, and the ratio to those of plain C (gcc -O2)\n")
    missed = show(found, narrow) + show(found, wide) + show_floppy(found, False) + show_all_beside(found, False) + chapters(desk, False)
    print("All aims are met." if not missed else "MISSED: " + "; ".join(missed))
    return len(missed) > 0


if __name__ == "__main__":
    sys.exit(main())
