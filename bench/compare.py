"""Counts before and after a change: compare.py BEFORE AFTER [MOST]. Each is a folder with the labels and marks of `bench/run count`
(target/bench). A line for each piece of work that both have, by blocks and slots; the exit status is 1 where one has become dearer
by more than MOST of a hundred (10)."""
import sys
from pathlib import Path

from table import counts


def both(before, after):
    """the work, its shape, and the instructions before and after"""
    old, new = (counts(Path(folder) / "labels", Path(folder) / "marks") for folder in (before, after))
    for work, by_shape in new.items():
        for shape, sides in sorted(by_shape.items()):
            if "proved" in sides and "proved" in old.get(work, {}).get(shape, {}):
                yield work, shape, old[work][shape]["proved"], sides["proved"]


def main():
    most = int(sys.argv[3]) if len(sys.argv) > 3 else 10
    dearer = []
    print(f"{'work':<20}{'blocks':>8}{'slots':>8}{'before':>16}{'after':>16}{'more':>9}")
    for work, (blocks, slots), was, now in both(*sys.argv[1:3]):
        print(f"{work:<20}{blocks:>8,}{slots:>8,}{was:>16,}{now:>16,}{100 * (now - was) / was:>+8.1f}%")
        if 100 * (now - was) > most * was:
            dearer.append(f"{work} at {slots:,} slots")
    print(f"Dearer by more than {most} of a hundred: " + ("; ".join(dearer) or "none"))
    return len(dearer) > 0


sys.exit(main())
