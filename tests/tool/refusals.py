"""Wrong use, geometries, bad images, and host files that can't be read or written: what is said, the status, and that nothing
changes."""
import os
import resource
import socket
import subprocess

import sigla
from desk import TOOL, Desk
from disk import BAD, entry, volume

V = (1024, 40, 1)
# More than the words: a command, and operands that are right.
RIGHT = {
    "who": ["A", "V.IMG:a.txt"], "replace": ["V.IMG", "a.txt", "5", "A", "B"],
    "list": ["V.IMG"], "check": ["V.IMG"], "get": ["V.IMG", "a.txt", "-"], "type": ["V.IMG", "a.txt"], "put": ["V.IMG", "in"],
    "rename": ["V.IMG", "a.txt", "b.txt"], "erase": ["V.IMG", "a.txt"], "attributes": ["V.IMG", "a.txt", "+r"], "new": ["N.IMG"],
    "fresh": ["V.IMG", "N.IMG"],
}


def wrong_words(desk):
    desk.wrong_use("no command", said="a command is missing")
    desk.wrong_use("an unknown command", "lists", "V.IMG", said="there is no command 'lists'")
    desk.wrong_use("an unknown option before the command", "-x", "list", "V.IMG", said="there is no option '-x'")
    desk.wrong_use("an unknown option among others", "list", "-xh", "V.IMG", said="there is no option '-x'")
    desk.wrong_use("-g without its value", "list", "V.IMG", "-g", said="it is: -g, --geometry B,T,D")
    desk.wrong_use("--geometry without its value", "list", "V.IMG", "--geometry", said="it is: -g, --geometry B,T,D")
    desk.wrong_use("--text with a value", "get", "V.IMG", "a.txt", "-", "--text=no", said="it is: -t, --text")
    desk.wrong_use("an option of list before the command", "-u", "3", "list", "V.IMG", said="has no option -u, --user USER")
    for command, operands in RIGHT.items():
        desk.wrong_use(f"{command} with no operand", command, said=f"it is: churawel {command} ")
        more = [*operands, *["x"] * (7 - len(operands))] if command != "attributes" else [*operands, *["+r"] * 5]
        desk.wrong_use(f"{command} with too many", command, *more, said=f"it is: churawel {command} ")
        desk.wrong_use(f"{command} with an unknown option", command, "--shelf", *operands, said="there is no option '--shelf'")
    desk.wrong_use("check with an option of get", "check", "--text", "V.IMG", said="check has no option -t, --text")
    desk.wrong_use("check with an option of list", "check", "V.IMG", "-u", "3", said="check has no option -u, --user USER")
    desk.wrong_use("list of user 16", "list", "-u", "16", "V.IMG", said="a user is a number from 0 to 15")
    desk.wrong_use("list of no user", "list", "-u", "", "V.IMG", said="a user is a number from 0 to 15")
    desk.wrong_use("list of two users", "list", "-u", "1", "V.IMG", "2:*.*", said="name two users")
    desk.wrong_use("gaps that are not zero", "get", "--gaps", "one", "V.IMG", "a.txt", said="--gaps takes the word zero")
    desk.wrong_use("attributes without a sign", "attributes", "V.IMG", "a.txt", said="it is: churawel attributes")
    for sign in ("r", "+x", "+", "", "--"):
        desk.wrong_use(f"attributes with the sign '{sign}'", "attributes", "V.IMG", "a.txt", sign, said="attributes are +r or -r")
    desk.wrong_use("rename to another user", "rename", "V.IMG", "a.txt", "3:b.txt", said="rename keeps a file's user")
    desk.wrong_use("standard input without a name", "put", "V.IMG", "-", said="needs a name")


def wrong_names(desk):
    long, none, user, other = "too long", "no name", "0 to 15", "a character"
    for name, said in [("NINELETTR.TXT", long), ("A.TEXT", long), ("", none), (".TXT", none), ("3:", none), ("16:A", user),
                       ("9999:A", user), ("\u00e4.txt", other), ("a\tb", other)]:
        desk.wrong_use(f"type of {name!r}", "type", "V.IMG", name, said=said)
        desk.wrong_use(f"put of {name!r}", "put", "V.IMG", "in", name, said=said)
        desk.wrong_use(f"erase of {name!r}", "erase", "V.IMG", name, said=said)
    desk.write("a-long-name.txt", b"")
    desk.wrong_use("put of a host file with a long name", "put", "V.IMG", "a-long-name.txt", said="too long")
    desk.write("S.IMG", volume(V, {0: entry(name="A/B"), 1: entry(name="-X")}))
    for name in ("a/b", "0:-x"):
        desk.wrong_use(f"get of {name} under its own name", "get", "S.IMG", name, said="no good name on this machine")


def geometries(desk):
    desk.write("odd", bytes(40961))
    said = "odd has 40961 bytes: say its geometry by -g B,T,D; known without it are images of 40960 bytes, 1024,40,1, and of 256256 " \
           "bytes, eight-inch floppies"
    desk.wrong_use("an image of an unknown length", "list", "odd", said=said)
    for text in ("", "1024", "1024,40", "1024,40,1,", "1024,40,x", "1024,,1", "-1,40,1", "1024,40,99999999999"):
        desk.wrong_use(f"-g '{text}'", "-g", text, "list", "V.IMG", said="takes three numbers")
    wrong, other = {"CHURAWEL_GEOMETRY": "V"}, {"CHURAWEL_GEOMETRY": "2048,20,1"}
    desk.wrong_use("a wrong CHURAWEL_GEOMETRY", "list", "V.IMG", said="CHURAWEL_GEOMETRY takes", environment=wrong)
    found = b"odd: the image's length is not that of its geometry (33): 40961 bytes, 2048,20,1\n"
    desk.refused("CHURAWEL_GEOMETRY counts", "check", "odd", said="", out=found, environment=other)
    desk.done("-g counts before CHURAWEL_GEOMETRY", "-g", "1024,40,1", "check", "V.IMG", environment=other)
    desk.done("-g behind the command", "check", "V.IMG", "-g", "1024,40,1", environment=other)
    for text in ("1000,40,1", "512,80,1", "1024,1,1", "1024,257,1", "1024,40,0", "1024,40,17", "1024,40,40", "8192,5,1",
                 "1024,4096,1", "2048,4097,1", "4096,2049,1", "2048,65576,1", "2048,257,17"):
        lawful = "; B is 1024, 2048 or 4096 and T 2 to 256, or B is 2048 or 4096 and T 257 to 4096, at most 8388608 bytes in all; " \
                 "D is 1 to 16, below T; an eight-inch floppy is 1024,243,2\n"
        said = f"no disk has this geometry (32): 40960 bytes, {text}{lawful}"
        desk.refused(f"list with geometry {text}", "-g", text, "list", "V.IMG", said=said)
        desk.refused(f"new with geometry {text}", "-g", text, "new", "N.IMG", said=f"no disk has this geometry (32): {text}{lawful}")
    for bytes_there in (0, 1, 40959, 40961, 9000000):
        desk.write("odd", bytes(bytes_there))
        desk.refused(f"{bytes_there} bytes for V", "-g", "1024,40,1", "list", "odd", said=f"(33): {bytes_there} bytes, 1024,40,1")
    desk.path("odd").unlink()
    for word in ("", "eight", "8-inch", "straight", "EIGHT-INCH"):
        desk.wrong_use(f"-f '{word}'", "-f", word, "list", "V.IMG", said="-f takes the word eight-inch")
    desk.refused("-f on another length", "-f", "eight-inch", "list", "V.IMG", said="(33): 40960 bytes, 1024,243,2 eight-inch\n")
    desk.refused("-f with other numbers", "-f", "eight-inch", "-g", "1024,40,1", "list", "V.IMG", said="(32): 40960 bytes, 1024,40,1 eight-inch")
    desk.refused("-f with other numbers for a new one", "-f", "eight-inch", "-g", "1024,242,2", "new", "N.IMG", said="(32): 1024,242,2 eight-inch")
    desk.refused("-f counts before CHURAWEL_GEOMETRY", "-f", "eight-inch", "list", "V.IMG", said="(33)", environment=other)


def changed(laid, at, byte):
    return laid[:at] + bytes([byte]) + laid[at + 1:]


def bad_slots():
    """what is wrong, the entry in slot 4, and the words; slots 0 to 3 have files A to D, slot 1 of user 3, with blocks 1 to 4"""
    good = entry(name="E.TXT", rc=8, blocks=[5])
    yield "user 16", changed(good, 0, 16), f"slot 4 (16:E.TXT): {BAD['user']}"
    yield "a byte below 20H", changed(good, 2, 0x1F), f"slot 4 (E\\x1F.TXT): {BAD['name']}"
    yield "a question mark", changed(good, 1, 0x3F), f"slot 4 (?.TXT): {BAD['name']}"
    yield "a blank first", changed(good, 1, 0x20), f"slot 4 (.TXT): {BAD['name']}"
    yield "a top bit", changed(good, 1, 0x80 | 0x45), f"slot 4 (E.TXT): {BAD['top bit']}"
    yield "ex 32", changed(good, 12, 32), f"slot 4 (E.TXT): {BAD['ex']}"
    yield "s1 1", changed(good, 13, 1), f"slot 4 (E.TXT): {BAD['s1']}"
    yield "s2 16", changed(good, 14, 16), f"slot 4 (E.TXT): {BAD['s2']}"
    yield "rc 129", changed(good, 15, 129), f"slot 4 (E.TXT): {BAD['rc']}"
    yield "block 40", changed(good, 20, 40), "slot 4 (E.TXT): place 4 names block 40, and files have blocks 1 to 39"
    yield "a block twice", changed(good, 18, 5), "slot 4 (E.TXT): block 5 stands in it twice"
    yield "another's block", changed(good, 17, 2), "slot 4 (E.TXT): block 2 at place 1 belongs to slot 1 (3:B.TXT) too"
    again = entry(user=3, name="B.TXT")
    yield "the same file again", again, "slot 4 (3:B.TXT): slot 1 (3:B.TXT) has the same user, name and extents"
    yield "two rules: the first counts", changed(changed(good, 12, 40), 13, 1), f"slot 4 (E.TXT): {BAD['ex']}"


def bad_images(desk):
    files = {k: entry(user=3 if k == 1 else 0, name="ABCD"[k] + ".TXT", rc=8, blocks=[k + 1]) for k in range(4)}
    for what, laid, words in bad_slots():
        desk.write("V.IMG", volume(V, {**files, 4: laid, 6: bytes(32)}))
        said = f"V.IMG: the disk is not sound (36): {words}\n"
        desk.refused(f"check: {what}", "check", "V.IMG", said="", out=said.encode())
        for command in ("list", "put"):
            desk.refused(f"{command}: {what}", command, *RIGHT[command], said=said)
    for command, operands in RIGHT.items():
        if command not in ("check", "new"):
            desk.refused(f"{command} on a bad disk", command, *operands, said="the disk is not sound (36)")


def host_files(desk):
    """files that are not there, folders, devices, and what may not be read or written; root may read all"""
    desk.path("folder").mkdir()
    os.mkfifo(desk.path("fifo"))
    socket.socket(socket.AF_UNIX).bind(os.path.relpath(desk.path("socket")))
    images = [("nowhere", "No such file"), ("folder", "not a plain file"), ("fifo", "not a plain file"),
              ("in/x", "Not a directory"), ("socket", "can't be read")]
    for image, said in images:
        for command in ("list", "put"):
            desk.refused(f"{command} of {image}", command, image, *RIGHT[command][1:], said=said)
    desk.refused("put of a file that is not there", "put", "V.IMG", "nofile", said="nofile can't be read: No such file")
    desk.refused("put of a folder", "put", "V.IMG", "folder", said="folder can't be read: Is a directory")
    desk.refused("get to a folder", "get", "V.IMG", "a.txt", "folder", said="folder can't be written: Is a directory")
    desk.refused("get into a folder that is not there", "get", "V.IMG", "a.txt", "no/x", said="no/x can't be written")
    desk.refused("get to the image", "get", "--replace", "V.IMG", "a.txt", "./V.IMG", said="is the image itself")
    desk.path("nowhere link").symlink_to("nowhere")
    said = "nowhere link can't be made: File exists"
    desk.refused("get to a link that leads nowhere", "get", "V.IMG", "a.txt", "nowhere link", said=said)
    desk.refused("put of a link that leads nowhere", "put", "V.IMG", "nowhere link", "x", said="nowhere link can't be read")
    desk.refused("get to a full device", "get", "V.IMG", "a.txt", "/dev/full", said="/dev/full can't be written: No space left")
    desk.done("get to a device", "get", "V.IMG", "a.txt", "/dev/null")
    desk.refused("new where a file is", "new", "in", said="in can't be made: File exists")
    desk.refused("new where a folder is", "new", "folder", said="folder can't be made: File exists")
    desk.refused("new in a folder that is not there", "new", "no/x", said="no/x can't be written")
    limited(desk)
    desk.path("V.IMG").chmod(0o444)
    desk.refused("put on a write-protected image", "put", "V.IMG", "in", said="V.IMG can't be changed: the file is write-protected")
    desk.done("list of a write-protected image", "list", "V.IMG")
    desk.path("V.IMG").chmod(0o600)
    desk.write("out", b"kept")
    desk.path("out").chmod(0o400)
    desk.refused("get to a write-protected file", "get", "--replace", "V.IMG", "a.txt", "out", said="write-protected")


def limited(desk):
    """where files may have up to 20,000 bytes, as on a disk of this machine that is full: the image has 40,960"""
    def limit():
        resource.setrlimit(resource.RLIMIT_FSIZE, (20000, 20000))

    desk.write("C.IMG", sigla.disk())
    changing = {**RIGHT, "replace": ["C.IMG", "collatio.txt", "3", "A", "B"]}
    for command, operands in changing.items():
        if command not in ("who", "list", "check", "get", "type"):
            said = "can't be written: File too large"
            desk.refused(f"{command} where files may not be so long", command, *operands, said=said, preexec_fn=limit)


def as_another(desk):
    """as a user who may not; only root can become another"""
    if os.getuid() != 0:
        return
    nobody = {"user": 65534, "group": 65534, "extra_groups": []}
    desk.folder.chmod(0o755)
    desk.path("V.IMG").chmod(0o644)
    if desk.run("check", "V.IMG", **nobody)[0] != 0:
        print("NOTE: another user can't reach the folder of the tests, so what such a user may not do is not tried")
        return
    desk.refused("put on another's image", "put", "V.IMG", "in", said="V.IMG can't be changed: Permission denied", **nobody)
    desk.path("V.IMG").chmod(0o666)
    said = "no file can be made beside it: Permission denied"
    desk.refused("put where no file can be made", "put", "V.IMG", "in", said=said, **nobody)
    desk.path("V.IMG").chmod(0o600)
    desk.refused("list of an image that may not be read", "list", "V.IMG", said="V.IMG can't be read: Permission denied", **nobody)
    desk.folder.chmod(0o700)


def to_full(desk, *words):
    """a command whose standard output is full: its status, and what it says"""
    with open("/dev/full", "wb") as full:
        ran = subprocess.run([*TOOL, *words], cwd=desk.folder, stdout=full, stderr=subprocess.PIPE, env=desk.environment)
    return ran.returncode, ran.stderr.decode()


def standard_files(desk):
    said = "churawel: standard output can't be written"
    desk.same("list to a full device", to_full(desk, "list", "V.IMG"), (1, f"{said}\n"))
    desk.same("type to a full device", to_full(desk, "type", "V.IMG", "a.txt"), (1, f"{said}: No space left on device\n"))
    said = "churawel: it is done, but standard output can't be written\n"
    desk.same("a change that can't be printed is done", to_full(desk, "rename", "V.IMG", "a.txt", "c.txt"), (0, said))
    desk.done("back again", "rename", "V.IMG", "c.txt", "a.txt")
    before = desk.read("V.IMG")
    closed = ["sh", "-c", 'exec "$@" <&- >&- 2>&-', "sh"]
    desk.run("attributes", "V.IMG", "a.txt", "-r", before=closed)
    desk.same("with all standard files closed the image keeps its bytes", desk.read("V.IMG"), before)


def run(tally):
    desk = Desk(tally, "refusals")
    sound = volume(V, {0: entry(name="A.TXT", rc=1, blocks=[1])})
    desk.write("V.IMG", sound)
    desk.write("in", b"in")
    wrong_words(desk)
    wrong_names(desk)
    geometries(desk)
    bad_images(desk)
    desk.write("V.IMG", sound)
    host_files(desk)
    as_another(desk)
    desk.path("V.IMG").chmod(0o644)
    standard_files(desk)
