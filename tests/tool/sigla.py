"""who and replace: which manuscript a siglum means, from lists of this machine and of disks, and a siglum replaced in a chapter."""
from desk import Desk
from disk import FLOPPY, FLOPPY_BYTES, entry, file_on, skewed, volume

V = (1024, 40, 1)
LIST_MOST = 65536 * 128


def line_of(siglum, name):
    return siglum.ljust(2).encode() + name.ljust(30).encode()


OWN = line_of("A", "Codex Ambrosianus A 138 sup.") + line_of("Be", "Bernensis 207") + line_of("Be", "another Bernensis")
HOUSE = line_of("B", "Bruxellensis 5092") + line_of("Be", "the house's Bernensis") + line_of("Z", "")


def place(*numbers):
    """a place of the contents: chapter, first record, count, zero"""
    return b"".join(number.to_bytes(2, "little") for number in numbers)


def collation(sigla):
    """contents of two chapters, 3 and 300, and a reading for each siglum: three of chapter 3, the rest of chapter 300"""
    contents = place(3, 1, 3, 0) + place(300, 4, len(sigla) - 3, 0)
    readings = [siglum.ljust(2).encode() + number.to_bytes(2, "little") + b"." * 124 for number, siglum in enumerate(sigla)]
    return contents.ljust(128, b"\0") + b"".join(readings)


SIGLA = ["A", "B", "A", "A", "Be", "A"]


def disk():
    """the collation and, for user 3, the own list, filled up with zeros"""
    image = volume(V, {0: entry(name="COLLATIO.TXT", rc=7, blocks=[1]), 1: entry(user=3, name="SIGLA.LST", rc=1, blocks=[2])})
    image[1024:1024 + 7 * 128] = collation(SIGLA)
    image[2048:2048 + 128] = OWN.ljust(128, b"\0")
    return bytes(image)


def names(desk):
    desk.write("own.lst", OWN)
    desk.write("house.lst", HOUSE)
    desk.write("E.IMG", disk())
    desk.done("a siglum of the own list", "who", "Be", "own.lst", "house.lst", out=b"Be: Bernensis 207 (own list, own.lst)\n")
    desk.done("a siglum of one letter", "who", "A", "own.lst", out=b"A: Codex Ambrosianus A 138 sup. (own list, own.lst)\n")
    desk.done("the same with its blank", "who", "A ", "own.lst", out=b"A : Codex Ambrosianus A 138 sup. (own list, own.lst)\n")
    desk.done("a siglum of the house list", "who", "B", "own.lst", "house.lst", out=b"B: Bruxellensis 5092 (house list, house.lst)\n")
    desk.done("a name of blanks", "who", "Z", "own.lst", "house.lst", out=b"Z:  (house list, house.lst)\n")
    desk.done("a list on a disk, by user", "who", "A", "E.IMG:3:sigla.lst", out=b"A: Codex Ambrosianus A 138 sup. (own list, E.IMG:3:sigla.lst)\n")
    desk.done("the house list on a disk", "who", "A", "house.lst", "E.IMG:3:SIGLA.LST",
              out=b"A: Codex Ambrosianus A 138 sup. (house list, E.IMG:3:SIGLA.LST)\n")
    desk.write("own:list", OWN)
    desk.done("a file with a colon in its name", "who", "A", "own:list", out=b"A: Codex Ambrosianus A 138 sup. (own list, own:list)\n")
    desk.refused("a siglum in neither list", "who", "b", "own.lst", "house.lst", said="b: no list has this siglum (51)\n")
    desk.refused("a siglum that the only list lacks", "who", "B", "own.lst", said="B: no list has this siglum (51)\n")
    desk.write("short.lst", HOUSE[:-1])
    uneven = "a list is not made of lines of 32 bytes (52)"
    desk.refused("a house list of another length", "who", "A", "own.lst", "short.lst", said=f"churawel: short.lst: {uneven}: 95 bytes\n")
    desk.refused("an own list of another length", "who", "A", "short.lst", "own.lst", said=f"churawel: short.lst: {uneven}: 95 bytes\n")
    desk.write("long.lst", OWN + b"A")
    desk.refused("two lists of other lengths", "who", "A", "long.lst", "short.lst", said=f"churawel: long.lst: {uneven}: 97 bytes\n")
    desk.write("most.lst", bytes(LIST_MOST))
    desk.refused("the longest list", "who", "A", "most.lst", said="A: no list has this siglum (51)\n")
    desk.write("most.lst", bytes(LIST_MOST) + line_of("A", "too far"))
    desk.refused("a list that is too long", "who", "A", "most.lst", said="most.lst has more than 8388608 bytes, and a list has no more\n")
    desk.path("most.lst").unlink()
    desk.refused("a list that is not there", "who", "A", "none.lst", said="none.lst can't be read")
    desk.refused("a list that is not on the disk", "who", "A", "E.IMG:none.lst", said="none.lst: there is no such file (255)")
    desk.refused("a list on a disk that is not there", "who", "A", "N.IMG:3:sigla.lst", said="N.IMG:3:sigla.lst can't be read")
    desk.wrong_use("no siglum", "who", "", "own.lst", said="a siglum is one or two characters")
    desk.wrong_use("a siglum of three", "who", "Ber", "own.lst", said="a siglum is one or two characters, or 0x and four hex digits, and not 'Ber'")
    desk.wrong_use("a siglum that is no letter of the machine", "who", "\u00e4", "own.lst",
                   said="a character that can't be typed here: type the siglum's two bytes, as in 0xFF01")


def in_hex(desk):
    """any two bytes, the first one first: a siglum that the old machine has and a keyboard has not, and others too"""
    desk.write("odd.lst", line_of("A", "Ambrosianus") + b"\x01\xff" + b"other".ljust(30) + b"\xff\x01" + b"Farfensis".ljust(30))
    desk.done("a siglum in hex", "who", "0xFF01", "odd.lst", out=b"0xFF01: Farfensis (own list, odd.lst)\n")
    desk.done("its bytes the other way round", "who", "0x01ff", "odd.lst", out=b"0x01ff: other (own list, odd.lst)\n")
    desk.done("a letter and its blank in hex", "who", "0x4120", "odd.lst", out=b"0x4120: Ambrosianus (own list, odd.lst)\n")
    desk.write("signs.lst", b"S " + b"\x84rger \x1b[1m \x7f~".ljust(30, b"\0"))
    desk.done("a name with bytes that can't be shown", "who", "S", "signs.lst", out=b"S: .rger .[1m .~ (own list, signs.lst)\n")
    desk.refused("0x is a siglum of two characters", "who", "0x", "odd.lst", said="0x: no list has this siglum (51)\n")
    for typed in ("0xFF0", "0xFF011", "0xFG01", "0XFF01", "0xFF01 ", "x0FF01"):
        desk.wrong_use(f"no siglum in hex: '{typed}'", "who", typed, "odd.lst", said=f"or 0x and four hex digits, and not '{typed}'")
    desk.write("E.IMG", disk())
    desk.done("replace by a siglum in hex", "replace", "E.IMG", "collatio.txt", "300", "A", "0xFF01", out=b"COLLATIO.TXT: records with A in chapter 300: 2\n")
    expected = bytearray(disk())
    for record in (4, 6):
        expected[1024 + 128 * record:1024 + 128 * record + 2] = b"\xff\x01"
    desk.same("replace by a siglum in hex: every byte", desk.read("E.IMG"), bytes(expected))
    said = b"COLLATIO.TXT: records with 0xFF01 in chapter 300: 2\n"
    desk.done("replace of a siglum in hex", "replace", "E.IMG", "collatio.txt", "300", "0xFF01", "0x4120", out=said)
    desk.same("replace of a siglum in hex: every byte", desk.read("E.IMG"), disk())


def replacing(desk):
    def on_disk():
        return file_on(desk.read("E.IMG"), V, 0, "COLLATIO.TXT")

    desk.write("E.IMG", disk())
    desk.done("replace in chapter 3", "replace", "E.IMG", "collatio.txt", "3", "A", "Am", out=b"COLLATIO.TXT: records with A in chapter 3: 2\n")
    desk.same("replace: its two records, and no others", on_disk(), collation(["Am", "B", "Am", "A", "Be", "A"]))
    expected = bytearray(disk())
    expected[1024:1024 + 7 * 128] = on_disk()
    desk.same("replace: no other byte of the disk", desk.read("E.IMG"), bytes(expected))
    desk.done("replace in chapter 300", "replace", "E.IMG", "collatio.txt", "300", "Be", "B", out=b"COLLATIO.TXT: records with Be in chapter 300: 1\n")
    desk.same("replace: B is written with its blank", on_disk(), collation(["Am", "B", "Am", "A", "B", "A"]))
    desk.leaves("replace of what no record has", 0, "replace", "E.IMG", "collatio.txt", "3", "X", "Y", out=b"COLLATIO.TXT: records with X in chapter 3: 0\n")
    said = "churawel: collatio.txt: there is no chapter 4; it has 3 and 300 (50)\n"
    desk.refused("replace in a chapter that is not there", "replace", "E.IMG", "collatio.txt", "4", "A", "B", said=said)
    said = "churawel: 3:sigla.lst: its contents, record 0, are not in order (50)\n"
    desk.refused("replace in a file that is no collation", "replace", "E.IMG", "3:sigla.lst", "3", "A", "B", said=said)
    desk.refused("replace in a file that is not there", "replace", "E.IMG", "none.txt", "3", "A", "B", said="none.txt: the user has no such file (3)\n")
    said = "churawel: 3:collatio.txt: the user has no such file (3); another user has one: COLLATIO.TXT\n"
    desk.refused("replace in a file of another user", "replace", "E.IMG", "3:collatio.txt", "3", "A", "B", said=said)
    said = "churawel: sigla.lst: the user has no such file (3); another user has one: 3:SIGLA.LST\n"
    desk.refused("replace in another user's file", "replace", "E.IMG", "sigla.lst", "3", "A", "B", said=said)
    desk.done("attributes before a replacement", "attributes", "E.IMG", "collatio.txt", "+r")
    desk.refused("replace in a read-only file", "replace", "E.IMG", "collatio.txt", "3", "Am", "A", said="collatio.txt: the file is read-only (38)\n")
    for chapter in ("0", "65536", "-1", "x", ""):
        desk.wrong_use(f"replace in chapter '{chapter}'", "replace", "--", "E.IMG", "collatio.txt", chapter, "A", "B", said="a chapter is a number from 1 to 65535")


ABSENT, NO_ENTRY = "the record was never written (1)", "the record was never written, nor any near it (4)"


def contents_refused():
    """what is wrong, the places of the contents of a file that has records 1 to 7, and what replace says of chapter 3"""
    wrong = "its contents, record 0, are not in order"
    yield "no chapter", [], "there is no chapter 3; it has none"
    yield "one chapter, and another", [(4, 1, 7, 0)], "there is no chapter 3; it has 4"
    yield "three others", [(4, 1, 2, 0), (2, 3, 2, 0), (65535, 5, 3, 0)], "there is no chapter 3; it has 4, 2 and 65535"
    numbers = [*range(10, 26)]
    yield "sixteen others", [(n, k + 1, 1, 0) for k, n in enumerate(numbers)], \
        f"there is no chapter 3; it has {', '.join(map(str, numbers[:-1]))} and 25"
    yield "a chapter twice", [(3, 1, 2, 0), (3, 3, 2, 0)], wrong
    yield "a used place behind an unused one", [(0, 0, 0, 0), (3, 1, 2, 0)], wrong
    yield "no record", [(3, 1, 0, 0)], wrong
    yield "a first record that is not the next", [(3, 1, 2, 0), (4, 4, 2, 0)], wrong
    yield "bodies from record 2 on", [(3, 2, 2, 0)], wrong
    yield "a fourth number", [(3, 1, 2, 1)], wrong
    yield "an unused place that is not all zero", [(3, 1, 2, 0), (0, 0, 0, 1)], wrong
    yield "a record of the chapter behind the last", [(3, 1, 8, 0)], f"its contents list record 8: {ABSENT}"
    yield "a record of another chapter behind the last", [(3, 1, 2, 0), (4, 3, 6, 0)], f"its contents list record 8: {ABSENT}"
    yield "a chapter missing, and a record too", [(4, 1, 9, 0)], "there is no chapter 3; it has 4"


def causes(desk):
    """a refusal by 50 says which of its causes it is"""
    for what, places, said in contents_refused():
        image = volume(V, {0: entry(name="COLLATIO.TXT", rc=8, blocks=[1])})
        image[1024:2048] = b"".join(place(*numbers) for numbers in places).ljust(128, b"\0") + b"A " * 448
        desk.write("C.IMG", image)
        desk.refused(f"50: {what}", "replace", "C.IMG", "collatio.txt", "3", "A", "B", said=f"churawel: collatio.txt: {said} (50)\n")
    laid = {0: entry(name="COLLATIO.TXT", rc=128, blocks=range(1, 17)), 1: entry(name="COLLATIO.TXT", ex=2, rc=8, blocks=[17])}
    image = volume(V, laid)
    image[1024:1024 + 128] = place(3, 1, 300, 0).ljust(128, b"\0")
    desk.write("C.IMG", image)
    said = f"churawel: collatio.txt: its contents list record 128: {NO_ENTRY} (50)\n"
    desk.refused("50: an extent that is not there", "replace", "C.IMG", "collatio.txt", "3", "A", "B", said=said)


def elsewhere(desk):
    """the same collation on a hard disk, its block number of two bytes, and on an eight-inch floppy: no other byte is changed"""
    geometry, block = (2048, 300, 1), 258
    image = volume(geometry, {0: entry(name="COLLATIO.TXT", rc=7, blocks=[block], geometry=geometry)})
    image[2048 * block:2048 * block + 7 * 128] = collation(SIGLA)
    desk.write("H.IMG", image)
    said = b"COLLATIO.TXT: records with A in chapter 300: 2\n"
    desk.done("replace on a hard disk", "replace", "-g", "2048,300,1", "H.IMG", "collatio.txt", "300", "A", "Am", out=said)
    image[2048 * block:2048 * block + 7 * 128] = collation(["A", "B", "A", "Am", "Be", "Am"])
    desk.same("replace on a hard disk: every byte", desk.read("H.IMG"), bytes(image))
    laid = volume(FLOPPY, {5: entry(name="COLLATIO.TXT", rc=7, blocks=[242])})
    laid[1024 * 242:1024 * 242 + 7 * 128] = collation(SIGLA)
    noise = bytes((k * 7 + k // 128) % 251 for k in range(FLOPPY_BYTES))
    desk.write("F.IMG", skewed(laid, noise))
    desk.done("replace on a floppy", "replace", "F.IMG", "collatio.txt", "300", "A", "Am", out=said)
    laid[1024 * 242:1024 * 242 + 7 * 128] = collation(["A", "B", "A", "Am", "Be", "Am"])
    desk.same("replace on a floppy: every byte", desk.read("F.IMG"), bytes(skewed(laid, noise)))


def lists_elsewhere(desk):
    """lists on a hard disk, whose block number takes two bytes, and on a floppy, in two blocks; both in one command"""
    geometry, block = (2048, 300, 1), 257
    hard = volume(geometry, {3: entry(user=15, name="SIGLA.LST", rc=1, blocks=[block], geometry=geometry)})
    hard[2048 * block:2048 * block + 128] = OWN.ljust(128, b"\0")
    desk.write("H.IMG", hard)
    laid = volume(FLOPPY, {9: entry(name="HOUSE.LST", rc=9, blocks=[240, 17])})
    lines = b"".join(line_of(f"{k:02}", f"manuscript {k}") for k in range(33)) + HOUSE
    laid[1024 * 240:1024 * 241] = lines[:1024]
    laid[1024 * 17:1024 * 17 + 128] = lines[1024:]
    desk.write("F.IMG", skewed(laid, bytes(FLOPPY_BYTES)))
    own, house = "H.IMG:15:sigla.lst", "F.IMG:house.lst"
    said = f"A: Codex Ambrosianus A 138 sup. (own list, {own})\n".encode()
    desk.done("a list on a hard disk", "who", "-g", "2048,300,1", "A", own, out=said)
    desk.done("a list on a hard disk, and one on a floppy", "who", "-g", "2048,300,1", "B", own, house,
              out=f"B: Bruxellensis 5092 (house list, {house})\n".encode())
    for siglum, name in (("00", "manuscript 0"), ("31", "manuscript 31"), ("32", "manuscript 32"), ("Be", "the house's Bernensis")):
        desk.done(f"{siglum} in a list on a floppy", "who", siglum, house, out=f"{siglum}: {name} (own list, {house})\n".encode())


def run(tally):
    desk = Desk(tally, "sigla")
    names(desk)
    in_hex(desk)
    replacing(desk)
    causes(desk)
    elsewhere(desk)
    lists_elsewhere(desk)
