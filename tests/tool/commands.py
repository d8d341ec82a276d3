"""Every command on every block size: what it prints, what it leaves on the disk, what fills the disk, and names."""
from desk import Desk
from disk import (EMPTY, FLOPPY, FLOPPY_BYTES, HEADING, entries_of, entry, file_on, line, numbers, places, skewed, start, unskewed,
                  volume)

GEOMETRIES = [(1024, 40, 1), (1024, 256, 16), (2048, 160, 2), (4096, 256, 2), (2048, 300, 1), (4096, 257, 2)]
LARGEST = [(2048, 4096, 16), (4096, 2048, 16)]


def text_of(count, word="line"):
    """so many bytes, each of whose lines differs from the others"""
    return b"".join(b"%s %09d\n" % (word.encode(), k) for k in range(count // 10 + 1))[:count]


def blocks_for(count, block):
    return -(-count // block)


def sizes(block):
    """about a record, a block, an extent; for a second entry see `second_entry`"""
    return [0, 1, 127, 128, 129, block - 1, block, block + 1, 5 * block + 77]


def files_in_and_out(desk, geometry):
    block, total, directory = geometry
    free = total - directory
    desk.done("new", "new", "A.IMG", out=f"A.IMG: an empty disk, free blocks: {free}\n".encode())
    desk.same("new: all bytes are E5H", desk.read("A.IMG"), bytes([EMPTY]) * (block * total))
    desk.done("list of the empty disk", "list", "A.IMG", out=HEADING + f"free blocks: {free}\n".encode())
    desk.done("check of the empty disk", "check", "A.IMG", out=f"A.IMG: the disk is sound, free blocks: {free}\n".encode())
    listing = b""
    for number, count in enumerate(sizes(block)):
        name, user, records = f"FILE{number}.TXT", number % 3, -(-count // 128)
        desk.write("in", text_of(count))
        free -= blocks_for(count, block)
        shown = f"{user}:{name}" if user else name
        said = f"{shown}: records written: {records}, free blocks: {free}\n".encode()
        way = ["-t"] if number % 2 else []
        desk.done(f"put {count} bytes {' '.join(way)}", "put", *way, "A.IMG", "in", f"{user}:{name.lower()}", out=said)
        filled = text_of(count).ljust(128 * records, b"\x1a" if way else b"\0")
        desk.same(f"put {count} bytes: what stands on the disk", file_on(desk.read("A.IMG"), geometry, user, name), filled)
        desk.done(f"get {count} bytes", "get", "A.IMG", f"{user}:{name}", "-", out=filled)
        text = text_of(count) if way else filled
        desk.done(f"get {count} bytes as text", "get", "-t", "A.IMG", f"{user}:{name}", "-", out=text)
        listing += line(user, name, records, blocks_for(count, block))
    desk.done("list", "list", "A.IMG", out=HEADING + listing + f"free blocks: {free}\n".encode())
    ones = b"".join(at for at in listing.splitlines(True) if at.startswith(b"   1"))
    desk.done("list of one user", "list", "-u", "1", "A.IMG", out=HEADING + ones + f"free blocks: {free}\n".encode())
    desk.done("list of one user's pattern", "list", "A.IMG", "1:*.txt", out=HEADING + ones + f"free blocks: {free}\n".encode())
    first = listing.splitlines(True)[0]
    desk.done("list of a pattern", "list", "A.IMG", "file?.t*", out=HEADING + listing + f"free blocks: {free}\n".encode())
    desk.done("list of a name", "list", "A.IMG", "file0.txt", out=HEADING + first + f"free blocks: {free}\n".encode())
    desk.done("list of what is not there", "list", "A.IMG", "*.COM", out=HEADING + f"free blocks: {free}\n".encode())


def host_files(desk, geometry):
    """where get and put read and write"""
    desk.done("get to a file", "get", "A.IMG", "1:file1.txt", "out")
    desk.same("get to a file: its bytes", desk.read("out"), b"l".ljust(128, b"\x1a"))
    desk.refused("get to a file that is there", "get", "A.IMG", "file0.txt", "out", said="out is there already")
    desk.path("out").chmod(0o640)
    desk.done("get to a file that is there, with --replace", "get", "--replace", "A.IMG", "file0.txt", "out")
    desk.same("get --replace: its bytes and its mode", (desk.read("out"), desk.path("out").stat().st_mode & 0o777), (b"", 0o640))
    desk.done("get to the file's own name", "get", "-t", "A.IMG", "1:file1.txt")
    desk.same("get to the file's own name: its bytes", desk.read("FILE1.TXT"), b"l")
    desk.done("type", "type", "A.IMG", "1:File1.Txt", out=b"l")
    desk.done("put of standard input", "put", "-t", "A.IMG", "-", "stdin", stdin=b"abc\x1adef")
    desk.done("type ends at the first 1AH", "type", "A.IMG", "STDIN", out=b"abc")
    desk.done("get - has all", "get", "A.IMG", "STDIN", "-", out=b"abc\x1adef".ljust(128, b"\x1a"))
    desk.write("own.txt", b"own")
    desk.done("put under the file's own name", "put", "A.IMG", "./own.txt")
    found = file_on(desk.read("A.IMG"), geometry, 0, "OWN.TXT")
    desk.same("put under its own name: in capitals", found, b"own".ljust(128, b"\0"))


def replacing(desk, geometry):
    said = "OWN.TXT: a file of this name is there already (43); --replace replaces it"
    desk.refused("put of a name that is there", "put", "A.IMG", "own.txt", said=said)
    desk.done("attributes of a file to be replaced", "attributes", "A.IMG", "own.txt", "+s")
    desk.write("own.txt", b"other")
    desk.done("put --replace", "put", "--replace", "A.IMG", "own.txt")
    desk.same("put --replace: its bytes", file_on(desk.read("A.IMG"), geometry, 0, "OWN.TXT"), b"other".ljust(128, b"\0"))
    desk.same("put --replace: still a system file", entries_of(desk.read("A.IMG"), geometry, 0, "OWN.TXT")[0][10] & 0x80, 0x80)
    desk.done("put --replace of a file that is not there", "put", "--replace", "A.IMG", "own.txt", "5:b.txt")
    desk.done("attributes +r", "attributes", "A.IMG", "own.txt", "+r", out=b"OWN.TXT: read-only, system\n")
    said = "OWN.TXT: the file is read-only (38)"
    desk.refused("put --replace of a read-only file", "put", "--replace", "A.IMG", "own.txt", said=said)


def changes(desk, geometry):
    def marks(name):
        e = entries_of(desk.read("A.IMG"), geometry, 0, name)[0]
        return e[9] >> 7, e[10] >> 7

    desk.refused("rename of a read-only file", "rename", "A.IMG", "own.txt", "new.txt", said="(38)")
    said = "*.*: the file is read-only (38); it is OWN.TXT\n"
    desk.refused("erase of a read-only file among others", "erase", "A.IMG", "*.*", said=said)
    desk.refused("erase of a read-only file", "erase", "A.IMG", "own.txt", said="own.txt: the file is read-only (38)\n")
    for signs, expected in [("-s", (1, 0)), ("-r +s", (0, 1)), ("+rs", (1, 1)), ("-rs", (0, 0)), ("+r -r", (0, 0))]:
        said = ", ".join(word if on else f"not {word}" for on, word in zip(expected, ("read-only", "system")))
        out = f"OWN.TXT: {said}\n".encode()
        desk.done(f"attributes {signs}", "attributes", "A.IMG", "own.txt", *signs.split(), out=out)
        desk.same(f"attributes {signs}: the bits", marks("OWN.TXT"), expected)
    desk.done("rename", "rename", "A.IMG", "own.txt", "new.txt", out=b"OWN.TXT: renamed to NEW.TXT\n")
    desk.same("rename: under its new name", file_on(desk.read("A.IMG"), geometry, 0, "NEW.TXT"), b"other".ljust(128, b"\0"))
    desk.same("rename: the old one is gone", entries_of(desk.read("A.IMG"), geometry, 0, "OWN.TXT"), [])
    desk.done("rename of another user's file", "rename", "A.IMG", "5:b.txt", "5:c.txt", out=b"5:B.TXT: renamed to 5:C.TXT\n")
    desk.refused("rename to itself", "rename", "A.IMG", "new.txt", "new.txt", said="(43)")
    desk.refused("rename to a name that is there", "rename", "A.IMG", "new.txt", "stdin", said="stdin: a file of this name is there already (43)\n")
    desk.refused("rename of what is not there", "rename", "A.IMG", "own.txt", "x", said="own.txt: there is no such file (255)\n")
    desk.refused("erase of what is not there", "erase", "A.IMG", "own.txt", said="(255)")
    desk.refused("attributes of what is not there", "attributes", "A.IMG", "own.txt", "+r", said="(255)")
    desk.refused("get of what is not there", "get", "A.IMG", "own.txt", "x", said="(255)")
    said = "c.txt: there is no such file (255); another user has one: 5:C.TXT\n"
    for command, *more in (["type"], ["get", "x"], ["rename", "x"], ["erase"], ["attributes", "+r"]):
        desk.refused(f"{command} of another user's file", command, "A.IMG", "c.txt", *more, said=said)
    free = desk.run("check", "A.IMG")[1].split()[-1]
    desk.done("erase of one file", "erase", "A.IMG", "new.txt", out=f"NEW.TXT: erased\nfree blocks: {int(free) + 1}\n".encode())
    desk.done("erase of a pattern", "erase", "A.IMG", "5:?.*", out=f"5:C.TXT: erased\nfree blocks: {int(free) + 2}\n".encode())
    desk.done("erase of all of user 0", "erase", "A.IMG", "*")
    for user in (1, 2):
        desk.done(f"erase of all of user {user}", "erase", "A.IMG", f"{user}:*.*")
    desk.done("list of the disk erased", "list", "A.IMG", out=HEADING + f"free blocks: {geometry[1] - geometry[2]}\n".encode())


def full_disks(desk, geometry):
    block, total, directory = geometry
    room = (total - directory) * block
    desk.write("all", text_of(room, "full"))
    desk.write("more", text_of(room + 1, "more"))
    desk.refused("put of a byte more than there is room", "put", "A.IMG", "more", said="MORE: the disk is full (2)")
    said = f"ALL: records written: {room // 128}, free blocks: 0\n".encode()
    desk.done("put that fills the disk", "put", "A.IMG", "all", out=said)
    desk.done("get of the file that fills the disk", "get", "A.IMG", "all", "-", out=text_of(room, "full"))
    desk.refused("put on a full disk", "put", "A.IMG", "in", said="IN: the disk is full (2)")
    desk.refused("put --replace that has no room", "put", "--replace", "A.IMG", "more", "all", said="ALL: the disk is full (2)")
    desk.done("put --replace that fills the disk again", "put", "--replace", "A.IMG", "all")
    desk.write("none", b"")
    desk.done("put of an empty file on a full disk", "put", "A.IMG", "none")
    desk.done("erase what fills the disk", "erase", "A.IMG", "all")
    desk.write("long", bytes(128 * 65536 + 1))
    desk.refused("put of more than any file has", "put", "A.IMG", "long", said="LONG: the disk is full (2)")


def full_directories(desk, geometry):
    slots = geometry[0] * geometry[2] // 32
    used = {k: entry(user=k % 16, name=f"E{k}") for k in range(slots - 1)}
    desk.write("B.IMG", volume(geometry, used))
    desk.write("two", bytes(places(geometry) * geometry[0] + 1))
    desk.refused("put that needs two slots where one is left", "put", "B.IMG", "two", said="TWO: the directory is full (5)")
    desk.done("put in the last slot", "put", "B.IMG", "none")
    desk.refused("put in a full directory", "put", "B.IMG", "own.txt", said="OWN.TXT: the directory is full (255)")
    desk.done("put --replace in a full directory", "put", "--replace", "B.IMG", "own.txt", "none")


def gaps(desk):
    """the paper's example: records 0, 20 and 128 were written"""
    image = volume((1024, 40, 1), {0: entry(rc=21, blocks=[1, 0, 2]), 1: entry(ex=1, rc=1, blocks=[3])})
    image[1024:4096] = text_of(3072)
    desk.write("V.IMG", image)
    block = {1: image[1024:2048], 2: image[2048:3072], 3: image[3072:4096]}
    whole = bytes(block[1] + bytes(1024) + block[2][:640] + bytes(107 * 128) + block[3][:128])
    line_of = line(0, "SIGLA.TXT", 129, 3)
    desk.done("list of the paper's example", "list", "V.IMG", out=HEADING + line_of + b"free blocks: 36\n")
    said = "sigla.txt: record 8: the record was never written (1)"
    desk.refused("get of a file with a gap", "get", "V.IMG", "sigla.txt", "x", said=said)
    desk.refused("type of a file with a gap", "type", "V.IMG", "sigla.txt", said=said)
    desk.done("get --gaps zero", "get", "--gaps", "zero", "V.IMG", "sigla.txt", "-", out=whole)
    desk.done("type --gaps zero", "type", "--gaps=zero", "V.IMG", "sigla.txt", out=whole)
    image[1030] = 0x1A
    desk.write("V.IMG", image)
    desk.done("type of a file whose text ends before the gap", "type", "V.IMG", "sigla.txt", out=bytes(image[1024:1030]))
    desk.write("V.IMG", volume((1024, 40, 1), {0: entry(ex=31, s2=15, rc=128, blocks=[0] * 15 + [1])}))
    said = "record 0: the record was never written, nor any near it (4)"
    desk.refused("get of a file whose first extents are missing", "get", "V.IMG", "sigla.txt", "x", said=said)
    status, out, _ = desk.run("get", "--gaps", "zero", "V.IMG", "sigla.txt", "-")
    desk.same("get of the longest file", (status, len(out), out[-1024:]), (0, 65536 * 128, b"\xe5" * 1024))


def names(desk):
    """old files whose names nobody can type at a command line"""
    called = ["sigla.txt", "SIGLA.TXT", "A.B.C", "A B", "A=B", "A*B", "X", "aX"]
    desk.write("N.IMG", volume((1024, 40, 1), {k: entry(name=name, rc=1, blocks=[k + 1]) for k, name in enumerate(called)}))
    image = bytearray(desk.read("N.IMG"))
    for k in range(len(called)):
        image[1024 * (k + 1):1024 * (k + 1) + 128] = bytes([k]) * 128
    desk.write("N.IMG", image)
    for k, name in enumerate(called):
        desk.done(f"get of {name}", "get", "N.IMG", name, "-", out=bytes([k]) * 128)
    desk.done("get of x", "get", "N.IMG", "x", "-", out=bytes([6]) * 128)
    desk.refused("get of ax, for aX is typed as it stands", "get", "N.IMG", "ax", "-", said="(255)")
    for name in ("A=B", "a<b", "A*B.C", "A B", "A.B.C", "[a]"):
        desk.refused(f"put of {name}", "put", "N.IMG", "none", name, said="a new name can't have small letters")
    said = "this can't be a file's name (39)"
    desk.refused("put of a name with ?", "put", "--replace", "N.IMG", "none", "sigla.???", said=said)
    desk.refused("rename to a name with ?", "rename", "N.IMG", "x", "sigla.???", said="sigla.???: this can't be a file's name (39)\n")
    desk.refused("get of a name with ?", "get", "N.IMG", "sigla.???", "x", said="(39)")
    desk.done("rename of A=B", "rename", "N.IMG", "a=b", "ab")
    desk.done("erase of the one as it is typed", "erase", "N.IMG", "sigla.txt", out=b"sigla.txt: erased\nfree blocks: 32\n")
    desk.done("then the one in capitals", "erase", "N.IMG", "sigla.txt", out=b"SIGLA.TXT: erased\nfree blocks: 33\n")


def second_entry(desk, geometry):
    """a file of two entries keeps its attributes in both"""
    blocks = places(geometry) + 2
    count = (blocks - 1) * geometry[0] + 5
    desk.write("long", text_of(count))
    desk.done("put of a file of two entries", "put", "A.IMG", "long", "9:long")
    desk.done("attributes of a file of two entries", "attributes", "A.IMG", "9:long", "+r", "+s")
    found = entries_of(desk.read("A.IMG"), geometry, 9, "LONG")
    desk.same("attributes: both entries have them", [(e[9] >> 7, e[10] >> 7) for e in found], [(1, 1), (1, 1)])
    desk.done("list of it", "list", "-u9", "A.IMG", out=HEADING + line(9, "LONG", -(-count // 128), blocks, " read-only system")
              + f"free blocks: {geometry[1] - geometry[2] - blocks}\n".encode())
    desk.done("get of it", "get", "A.IMG", "9:long", "-", out=text_of(count).ljust(-(-count // 128) * 128, b"\0"))


def hard_disks(tally, geometry):
    """8 MiB: files behind blocks that take two bytes, in the last block too"""
    block, total, directory = geometry
    desk = Desk(tally, f"B {block} T {total} D {directory}", geometry)
    free = total - directory
    desk.done("new", "new", "A.IMG", out=f"A.IMG: an empty disk, free blocks: {free}\n".encode())
    held = [[*range(first, first + 8)] for first in range(directory, total - 9, 8)]
    last = directory + 8 * len(held)
    files = {k: entry(name=f"E{k}", ex=(block // 2048) - 1, rc=128, blocks=blocks, geometry=geometry) for k, blocks in enumerate(held)}
    desk.write("A.IMG", volume(geometry, files))
    free = total - last
    desk.done("check", "check", "A.IMG", out=f"A.IMG: the disk is sound, free blocks: {free}\n".encode())
    content = text_of(free * block)
    desk.write("in", content)
    said = f"3:LAST.TXT: records written: {len(content) // 128}, free blocks: 0\n".encode()
    desk.done("put that fills the disk", "put", "A.IMG", "in", "3:last.txt", out=said)
    image = desk.read("A.IMG")
    desk.same("put: it has the last blocks", image[last * block:], content)
    found = [b for e in entries_of(image, geometry, 3, "LAST.TXT") for b in numbers(e, geometry) if b]
    desk.same("put: their numbers", found, [*range(last, total)])
    desk.done("get", "get", "A.IMG", "3:last.txt", "-", out=content)
    desk.refused("put on a full disk", "put", "A.IMG", "in", said="IN: the disk is full (2)")
    lines = line(3, "LAST.TXT", len(content) // 128, free)
    desk.done("list", "list", "-u3", "A.IMG", out=HEADING + lines + b"free blocks: 0\n")
    desk.done("rename", "rename", "A.IMG", "3:last.txt", "new.txt", out=b"3:LAST.TXT: renamed to 3:NEW.TXT\n")
    desk.done("attributes", "attributes", "A.IMG", "3:new.txt", "+s", out=b"3:NEW.TXT: not read-only, system\n")
    desk.done("type", "type", "A.IMG", "3:new.txt", out=content)
    desk.done("erase", "erase", "A.IMG", "3:*.*", out=f"3:NEW.TXT: erased\nfree blocks: {free}\n".encode())
    shared = volume(geometry, {**files, len(files): entry(name="LAST", blocks=[last, last - 1], geometry=geometry)})
    desk.write("A.IMG", shared)
    said = f"A.IMG: the disk is not sound (36): slot {len(files)} (LAST): block {last - 1} at place 1 belongs to slot " \
           f"{len(files) - 1} (E{len(files) - 1}) too\n"
    desk.refused("check of a block in two files", "check", "A.IMG", said="", out=said.encode())
    beyond = volume(geometry, {0: entry(name="LAST", blocks=[0] * 7 + [total], geometry=geometry)})
    desk.write("A.IMG", beyond)
    said = f"slot 0 (LAST): place 7 names block {total}, and files have blocks {directory} to {total - 1}\n"
    desk.refused("check of a block beyond the last", "check", "A.IMG", said="", out=f"A.IMG: the disk is not sound (36): {said}".encode())


def beside_other_disks(desk, noise):
    """A.IMG is a floppy by its length where another geometry is said, as by whoever works on hard disks too"""
    laid = bytearray(desk.read("A.VOL"))
    listed = desk.run("list", "A.IMG")[1]
    for text in ("2048,4096,16", "1024,40,1", "1024,243,2", "1024,250,2", "4096,63,1", "1000,40,1"):
        desk.done(f"a floppy with CHURAWEL_GEOMETRY {text}", "list", "A.IMG", out=listed, environment={"CHURAWEL_GEOMETRY": text})
        desk.done(f"a floppy with -g {text}", "list", "-g", text, "A.IMG", out=listed)
    desk.done("rename on it", "rename", "A.IMG", "a.txt", "z.txt", environment={"CHURAWEL_GEOMETRY": "2048,4096,16"})
    for at in range(0, FLOPPY[0] * FLOPPY[2], 32):
        if laid[at:at + 12] == b"\0A       TXT":
            laid[at + 1] = ord("Z")
    desk.same("rename on it: every byte", desk.read("A.IMG"), bytes(skewed(laid, noise)))
    desk.wrong_use("a wrong CHURAWEL_GEOMETRY is one beside a floppy too", "list", "A.IMG", said="CHURAWEL_GEOMETRY takes",
                   environment={"CHURAWEL_GEOMETRY": "V"})
    for length in (FLOPPY_BYTES - 128, FLOPPY_BYTES + 128):
        desk.write("NEAR.IMG", bytes(length))
        desk.refused(f"no floppy: {length} bytes", "-g", "2048,257,1", "list", "NEAR.IMG", said=f"(33): {length} bytes, 2048,257,1\n")
    desk.path("NEAR.IMG").unlink()


def floppies(tally):
    """eight-inch floppies: every command does to an image what it does to the unskewed volume, and nothing else"""
    desk = Desk(tally, "eight-inch floppy")
    desk.done("new", "-f", "eight-inch", "new", "N.IMG", out=b"N.IMG: an empty disk, free blocks: 241\n")
    desk.same("new: all bytes are E5H", desk.read("N.IMG"), bytes([EMPTY]) * FLOPPY_BYTES)
    noise = bytes((k * 7 + k // 128) % 251 for k in range(FLOPPY_BYTES))
    laid = volume(FLOPPY, {0: entry(name="A.TXT", rc=8, blocks=[2]), 70 - 8: entry(user=3, name="B.TXT", rc=1, blocks=[242])})
    desk.write("A.IMG", skewed(laid, noise))
    desk.write("A.VOL", laid)
    desk.write("in", text_of(30000))
    straight = ["-g", "1024,243,2"]
    for words in (["check"], ["list"], ["put", "in", "c.txt"], ["put", "--replace", "-t", "in", "a.txt"], ["get", "c.txt", "-"],
                  ["type", "a.txt"], ["rename", "c.txt", "d.txt"], ["attributes", "3:b.txt", "+s"], ["erase", "d.txt"], ["list"]):
        command, options, operands = words[0], [w for w in words[1:] if w.startswith("-") and len(w) > 1], \
            [w for w in words[1:] if not (w.startswith("-") and len(w) > 1)]
        by_length = desk.run(command, *options, "A.IMG", *operands)
        on_volume = desk.run(command, *straight, *options, "A.VOL", *operands)
        expected = (0, on_volume[1].replace(b"A.VOL", b"A.IMG"), b"")
        desk.same(f"{' '.join(words)}: as on the unskewed volume", by_length, expected)
        desk.same(f"{' '.join(words)}: what it leaves", desk.read("A.IMG"), bytes(skewed(desk.read("A.VOL"), noise)))
    desk.same("the volume is read back", unskewed(desk.read("A.IMG")), desk.read("A.VOL"))
    desk.done("-f says it too", "list", "-f", "eight-inch", "A.IMG", out=desk.run("list", "A.IMG")[1])
    beside_other_disks(desk, noise)
    image = bytearray(desk.read("A.IMG"))
    image[start(1)] = 16
    desk.write("A.IMG", image)
    said = b"A.IMG: the disk is not sound (36): slot 4 (16:"
    desk.same("check of a bad slot", desk.run("check", "A.IMG")[1][:len(said)], said)


def run(tally):
    floppies(tally)
    for geometry in LARGEST:
        hard_disks(tally, geometry)
    for geometry in GEOMETRIES:
        desk = Desk(tally, f"B {geometry[0]} T {geometry[1]} D {geometry[2]}", geometry)
        files_in_and_out(desk, geometry)
        host_files(desk, geometry)
        replacing(desk, geometry)
        changes(desk, geometry)
        full_disks(desk, geometry)
        full_directories(desk, geometry)
        second_entry(desk, geometry)
    desk = Desk(tally, "V")
    desk.write("none", b"")
    gaps(desk)
    names(desk)
