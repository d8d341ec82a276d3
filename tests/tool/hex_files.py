"""gencmd: a hex file made a CMD file, where it reads and writes, and which line is wrong. (Many texts beside a model: tests/gencmd.)"""
from desk import Desk

END = b":00000001FF\n"
THREE = b":0300050011223392\n"
# The code group alone has 16 paragraphs, for its base page; worked out by hand.
THREE_FILE = bytes.fromhex("01 1000 0000 1000 1000") + bytes(119 + 5) + bytes.fromhex("112233") + bytes(248)
WRONG_SUM = b":0300050011223393\n"
TEXT_MOST = 1 << 24


def where(desk):
    """to a file and to standard output, from a file and from standard input"""
    desk.write("tool.hex", THREE + END)
    desk.done("from a file to a file", "gencmd", "tool.hex", "tool.cmd", out=b"")
    desk.same("its bytes", desk.read("tool.cmd"), THREE_FILE)
    desk.done("from a file to standard output", "gencmd", "tool.hex", "-", out=THREE_FILE)
    desk.done("from standard input", "gencmd", "-", "other.cmd", stdin=THREE + END)
    desk.same("the same bytes", desk.read("other.cmd"), THREE_FILE)
    desk.done("from standard input to standard output", "gencmd", "-", "-", stdin=THREE + END, out=THREE_FILE)
    desk.refused("to a file that is there", "gencmd", "tool.hex", "other.cmd", said="other.cmd is there already; --replace replaces it")
    desk.refused("over the hex file itself", "gencmd", "--replace", "tool.hex", "./tool.hex", said="./tool.hex is the hex file itself")
    desk.refused("from a file that is not there", "gencmd", "none.hex", "x.cmd", said="none.hex can't be read")
    desk.refused("into a folder that is not there", "gencmd", "tool.hex", "none/x.cmd", said="none/x.cmd can't be written")
    desk.path("other.cmd").chmod(0o640)
    desk.write("tool.hex", b":0100000044BB\n" + END)
    desk.done("with --replace", "gencmd", "--replace", "tool.hex", "other.cmd")
    mode = desk.path("other.cmd").stat().st_mode & 0o777
    desk.same("with --replace: its bytes and its mode", (desk.read("other.cmd")[128:131], mode), (b"\x44\0\0", 0o640))


def which_line(desk):
    """the first wrong line, whatever stands behind it; no line where none is wrong"""
    said = "the bytes of the line don't add up with its checksum (71)"
    for what, text, expected in (
        ("the first", WRONG_SUM + b":zz\n" + END, f"line 1: {said}"),
        ("the third, behind an empty one", THREE + b"\r\n" + WRONG_SUM + END, f"line 3: {said}"),
        ("the last, which has no end", THREE + WRONG_SUM[:-1], f"line 2: {said}"),
        ("one among many", 500 * THREE + WRONG_SUM + 300 * THREE + END, f"line 501: {said}"),
        ("a line that is cut off", THREE + END[:-3], "line 2: a character is not 0 to 9 or A to F, or the line is cut off (70)"),
        ("a line that goes on in the next", THREE + b":0300\n050011223392\n" + END, "line 2: a character is not 0 to 9"),
        ("a type", b":020000020000FC\n" + END, "line 1: the line's type is not 00, 01 or 81 to 84 (72)"),
        ("an address", THREE + b":02FFFF001122CD\n" + END, "line 2: the line has bytes beyond address FFFFH (73)"),
        ("no end line", THREE, "bad.hex: there is no line of type 01, which ends a hex file (74)"),
        ("no code", END, "bad.hex: there is no byte of code (75)"),
    ):
        desk.write("bad.hex", text)
        desk.refused(f"which line: {what}", "gencmd", "bad.hex", "bad.cmd", said=expected)
    desk.refused("a text on standard input", "gencmd", "-", "bad.cmd", stdin=WRONG_SUM, said="standard input: line 1: ")


def too_long(desk):
    """never cut: what is longer than its room is refused"""
    text = THREE + END
    desk.write("long.hex", text.ljust(TEXT_MOST))
    desk.done("a hex file of 16,777,216 bytes", "gencmd", "long.hex", "-", out=THREE_FILE)
    desk.write("long.hex", text.ljust(TEXT_MOST + 1))
    desk.refused("a byte more", "gencmd", "long.hex", "-", said="long.hex: a hex file can't have more than 16777216 bytes")
    desk.path("long.hex").unlink()


def wrong_use(desk):
    desk.wrong_use("one operand", "gencmd", "tool.hex", said="it is: churawel gencmd IN OUT")
    desk.wrong_use("a geometry", "gencmd", "-g", "1024,40,1", "tool.hex", "x", said="gencmd has no option -g")


def run(tally):
    desk = Desk(tally, "hex_files")
    where(desk)
    which_line(desk)
    too_long(desk)
    wrong_use(desk)
