# The listing of a volume of V's geometry, worked out from the paper's words and from nothing else of this repository.
from image import BLOCK, DIRECTORY, EMPTY, LENGTH, TOTAL


def name(e):
    """ "Names compare without top bits" """
    return bytes(b & 0x7F for b in e[1:12])


def extent(e):
    """ "Extent number E = 32 times s2 plus ex"; its group is E div X, and X is 1 here"""
    return 32 * e[14] + e[12]


def blocks(e):
    """ "sixteen block numbers, 0 for none" """
    return [b for b in e[16:32] if b != 0]


def within_rules(e):
    """what the inspection asks of an entry by itself"""
    return (
        e[0] <= 15
        and all(0x20 <= b <= 0x7E and b != 0x3F for b in name(e))
        and name(e)[0] != 0x20
        and all(e[k] < 0x80 for k in (1, 2, 3, 4, 5, 6, 7, 8, 11))
        and (e[12] <= 31 and e[13] == 0 and e[14] <= 15 and e[15] <= 128)
        and all(DIRECTORY <= b < TOTAL for b in blocks(e))
        and len(set(blocks(e))) == len(blocks(e))
    )


def apart(e, lower):
    """no block of a lower slot, and no lower slot has the same user, name and group"""
    return not any(
        set(blocks(e)) & set(blocks(o)) or (e[0], name(e), extent(e)) == (o[0], name(o), extent(o))
        for o in lower
        if o[0] != EMPTY
    )


def bad_slot(slots):
    """the lowest bad slot, or None"""
    for i, e in enumerate(slots):
        if e[0] != EMPTY and not (within_rules(e) and apart(e, slots[:i])):
            return i
    return None


def line(user, called, entries):
    """user, name of eight, full stop, type of three, size, blocks held"""
    size = max(128 * extent(e) + min(e[15], 128) for e in entries)
    held = sum(len(blocks(e)) for e in entries)
    return b"%d %s.%s %d %d\n" % (user, called[:8], called[8:], size, held)


def listing(volume):
    """what the lister has to print for these bytes"""
    if len(volume) != LENGTH:
        return b"REFUSED 33\n"
    slots = [bytes(volume[at : at + 32]) for at in range(0, DIRECTORY * BLOCK, 32)]
    bad = bad_slot(slots)
    if bad is not None:
        return b"REFUSED 36 %d\n" % bad
    files = {}
    for e in slots:
        if e[0] != EMPTY:
            files.setdefault((e[0], name(e)), []).append(e)
    held = sum(len(blocks(e)) for e in slots if e[0] != EMPTY)
    lines = [line(user, called, entries) for (user, called), entries in files.items()]
    return b"USER NAME TYPE RECORDS BLOCKS\n" + b"".join(lines) + b"FREE %d\n" % (TOTAL - DIRECTORY - held)
