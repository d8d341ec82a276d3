# What a shelf of volumes of V's geometry holds, worked out from the paper's words and from nothing else of this repository but the
# inspection of tests/lister, which is written from the paper too.
from image import BLOCK, DIRECTORY, EMPTY, LENGTH, TOTAL
from listing import bad_slot, blocks, extent, name

RECORDS = BLOCK // 128
MOST_VOLUMES = 65535


def slots_of(volume):
    return [bytes(volume[at : at + 32]) for at in range(0, DIRECTORY * BLOCK, 32)]


def count(e, x):
    """ "128 records for each extent of its group below its own E, min(rc, 128) for E, 0 above" """
    return 128 if x < extent(e) else min(e[15], 128) if x == extent(e) else 0


def present(entries, n):
    """ "Record n is present if its group has an entry, n mod 128 is below the count, and the map place is not 0"; X is 1 here"""
    own = [e for e in entries if extent(e) == n // 128]
    return bool(own) and n % 128 < count(own[0], n // 128) and own[0][16 + n % 128 // RECORDS] != 0


def records_of(entries):
    """every n that a read may ask for; of a group without an entry none is present, so they are passed over"""
    groups = {extent(e) for e in entries}
    return sum(present(entries, n) for x in groups if x < 512 for n in range(128 * x, 128 * x + 128))


def holdings(volume):
    """the seven figures of one volume: refused; files, entries, records present, blocks held, blocks free, waste"""
    if len(volume) != LENGTH or bad_slot(slots_of(volume)) is not None:
        return [1, 0, 0, 0, 0, 0, 0]
    files = {}
    for e in slots_of(volume):
        if e[0] != EMPTY:
            files.setdefault((e[0], name(e)), []).append(e)
    records = sum(records_of(entries) for entries in files.values())
    held = len({b for entries in files.values() for e in entries for b in blocks(e)})
    free = len(set(range(DIRECTORY, TOTAL)) - {b for entries in files.values() for e in entries for b in blocks(e)})
    return [0, len(files), sum(map(len, files.values())), records, held, free, held * RECORDS - records]


def added(shelf, one):
    return [a + b for a, b in zip(shelf, one)]


def report(volumes):
    """what the program has to print for these volumes, one after another; the 65,536th is not counted"""
    shelf = [0] * 7
    for volume in volumes[:MOST_VOLUMES]:
        shelf = added(shelf, holdings(volume))
    return "".join(f"{figure}\n" for figure in shelf).encode()


def cut(stream):
    """a run of bytes as volumes: "a short last one is refused" """
    return [stream[at : at + LENGTH] for at in range(0, len(stream), LENGTH)]
