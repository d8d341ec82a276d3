# The lister's cases: what each is, the bytes on standard input, and the text that the paper asks for.
from image import EMPTY, LENGTH, SLOTS, entry, example, volume

HEADER = "USER NAME TYPE RECORDS BLOCKS\n"


def name(text):
    """eleven bytes of name and type, from NAME.TYPE"""
    called, kind = text.split(".")
    return f"{called:8}{kind:3}".encode()


def listed(what, entries, lines, free):
    """a volume that is accepted: its entries by slot, the lines of its files, its free blocks"""
    return what, volume(entries), HEADER + "".join(line + "\n" for line in lines) + f"FREE {free}\n"


def refused(what, bad, slot=4):
    """files A to H in slots 0 to 7 with blocks 1 to 8, all good, but for what `bad` puts over them"""
    entries = {i: entry(name=name("ABCDEFGH"[i] + ".TXT"), rc=8, blocks=[1 + i]) for i in range(8)}
    return what, volume({**entries, **bad}), f"REFUSED 36 {slot}\n"


def papers():
    yield "the paper's example", example(), HEADER + "0 SIGLA   .TXT 129 3\nFREE 36\n"
    yield listed("an empty volume", {}, [], 39)


def lengths():
    for n in (0, 1, 32, 128, 1024, LENGTH - 128, LENGTH - 1, LENGTH + 1, LENGTH + 128, 2 * LENGTH, 5000000):
        yield f"length {n:,}", bytes([EMPTY]) * n, "REFUSED 33\n"
    yield "a volume and a byte more", example() + b"\0", "REFUSED 33\n"
    yield "a volume less its last byte", example()[:-1], "REFUSED 33\n"
    yield "a bad slot and a wrong length: 33 comes first", bytes(LENGTH + 1), "REFUSED 33\n"


def bad_entries():
    """for each rule of the inspection an entry that breaks it"""
    for user in (16, 0xE4, 0xE6, 0xFF):
        yield f"user {user}", entry(user=user)
    for byte in (0x00, 0x1F, 0x3F, 0x7F):
        yield f"{byte:02X}H in the name", entry(name=b"SIG" + bytes([byte]) + b"A   TXT")
        yield f"{byte:02X}H in the type", entry(name=b"SIGLA   TX" + bytes([byte]))
    yield "a blank before the name", entry(name=b" SIGLA  TXT")
    for k in (1, 2, 3, 4, 5, 6, 7, 8, 11):
        e = bytearray(entry(name=b"SIGMATA!TXT"))
        e[k] |= 0x80
        yield f"a top bit on byte {k}", bytes(e)
    yield "ex 32", entry(ex=32)
    yield "s1 1", entry(s1=1)
    yield "s2 16", entry(s2=16)
    yield "rc 129", entry(rc=129)
    yield "block 40", entry(blocks=[40])
    yield "block 255 in the last place", entry(blocks=[0] * 15 + [255])
    yield "a block twice in it", entry(blocks=[20, 0, 20])
    yield "a block of slot 1", entry(blocks=[20, 2])
    yield "user, name and group of slot 1", entry(name=name("B.TXT"), rc=5, blocks=[20])
    yield "the same under another attribute", entry(name=b"B       \xd4XT", rc=5, blocks=[20])


def bad_slots():
    for what, e in bad_entries():
        yield refused(f"a bad slot 4: {what}", {4: e})
    bad = entry(user=16)
    yield refused("two bad slots: the lowest", {4: bad, 5: bad})
    yield refused("a bad slot 0", {0: bad}, 0)
    yield refused("a bad slot 31", {31: bad}, 31)
    yield "zeros alone", bytes(LENGTH), "REFUSED 36 0\n"


def full():
    entries = {i: entry(name=name(f"FILE{i}.TXT"), rc=8, blocks=[i + 1]) for i in range(SLOTS)}
    lines = [f"0 FILE{i}".ljust(10) + ".TXT 8 1" for i in range(SLOTS)]
    return listed("a full directory of 32 files", entries, lines, 7)


def longest():
    """the longest listing, as nearly as 39 blocks allow: two digits of user and five of size in every line"""
    entries, lines = {}, []
    for i in range(SLOTS):
        user = 10 + i % 6
        blocks = range(1, 11) if i == 0 else range(i + 10, min(i + 11, 40))
        entries[i] = entry(user, name(f"LONGEST.T{i:02}"), 31, 0, 15, 128, blocks)
        lines.append(f"{user} LONGEST .T{i:02} 65536 {len(blocks)}")
    return listed("32 files of 65,536 records", entries, lines, 0)


def users():
    """the same name for every user, the highest user in the lowest slot"""
    entries = {2 * i: entry(15 - i, name("SAME.TXT"), rc=15 - i) for i in range(16)}
    return listed("all users", entries, [f"{u} SAME    .TXT {u} 0" for u in range(15, -1, -1)], 39)


def attributes():
    entries = {
        0: entry(0, b"READONLY\xd4XT", rc=3, blocks=[1]),
        1: entry(0, b"SYSTEM  T\xd8T", rc=2, blocks=[2]),
        2: entry(0, b"BOTH    \xa0\xa0 ", rc=1, blocks=[3]),
    }
    lines = ["0 READONLY.TXT 3 1", "0 SYSTEM  .TXT 2 1", "0 BOTH    .    1 1"]
    return listed("read-only and system files", entries, lines, 36)


def sizes():
    """the largest 128E + min(rc, 128) over the file's entries; most significant digit first, no leading zero"""
    entries, lines = {}, []
    several = (0, 1, 9, 10, 99, 100, 101, 128, 129, 999, 1000, 4096, 4097, 9999, 10000, 10001, 65535, 65536)
    for i, size in enumerate(several):
        extent = max(0, size - 1) // 128
        entries[i] = entry(0, name(f"S{size}.TXT"), extent % 32, 0, extent // 32, size - 128 * extent)
        lines.append(f"0 S{size}".ljust(10) + f".TXT {size} 0")
    return listed("sizes from 0 to 65,536", entries, lines, 39)


def several_entries():
    """the higher extent in the lower slot; between them another user's file of the same name, and another file"""
    entries = {
        1: entry(0, b"SIGLA   TXT", ex=2, rc=5, blocks=[4]),
        3: entry(1, b"SIGLA   TXT", rc=1, blocks=[5]),
        4: entry(0, b"LEMMATA TXT", rc=128, blocks=[6, 7, 0, 8]),
        6: entry(0, b"SIGLA   \xd4XT", rc=128, blocks=[1, 2, 3]),
    }
    lines = ["0 SIGLA   .TXT 261 4", "1 SIGLA   .TXT 1 1", "0 LEMMATA .TXT 128 3"]
    return listed("several entries of a file", entries, lines, 31)


def deleted():
    """entries of byte E5H are nobody's, whatever else they hold; a block that they name is free"""
    gone = entry(EMPTY, b"\0GONE\xff   ??", 255, 255, 255, 255, [2, 2, 200])
    entries = {0: gone, 1: entry(0, name("HERE.TXT"), rc=4, blocks=[2]), 2: gone}
    return listed("empty slots with old entries", entries, ["0 HERE    .TXT 4 1"], 38)


def free_blocks():
    for free in (0, 1, 9, 10, 38):
        held = [range(1, 40 - free)[at : at + 16] for at in (0, 16, 32)]
        entries = {i: entry(ex=i, rc=128, blocks=held[i]) for i in range(3)}
        yield listed(f"FREE {free}", entries, [f"0 SIGLA   .TXT 384 {39 - free}"], free)


def at_the_limits():
    """the bytes that are just permitted"""
    entries = {
        0: entry(15, b"!~~~~~~~\xfe\xfe~", 31, 0, 15, 128, [39]),
        31: entry(0, b"~ !.,;: > @", 0, 0, 0, 0, [0] * 15 + [1]),
    }
    return listed("the limits of every field", entries, ["15 !~~~~~~~.~~~ 65536 1", "0 ~ !.,;: .> @ 0 1"], 37)


def other_data():
    """blocks behind the directory are not looked at: here they hold entries too"""
    entries = {5: entry(0, name("ONE.TXT"), rc=1, blocks=[1])}
    what, image, text = listed("data that looks like entries", entries, ["0 ONE     .TXT 1 1"], 38)
    for at in range(32 * SLOTS, LENGTH, 32):
        image[at : at + 32] = entry(0, name("TWO.TXT"), rc=1, blocks=[1])
    return what, image, text


def all_cases():
    yield from papers()
    yield from lengths()
    yield from bad_slots()
    yield from (full(), longest(), users(), attributes(), sizes(), several_entries(), deleted())
    yield from free_blocks()
    yield from (at_the_limits(), other_data())
