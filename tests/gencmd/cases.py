"""Texts whose files and numbers are worked out by hand from 000's chapter 4 and the request's words: what, the text, the room, the
number, the file. Checksums are what the other bytes of a line lack to a multiple of 100H; nothing here is computed by the model."""

LONGEST = 262272
END = b":00000001FF\n"
THREE = b":0300050011223392\n"


def zeros(count):
    return bytes(count)


# A line that is not read, right behind the end line: its sum is FFH, and it gives 44H at 0005H.
BEHIND = b":0100050044B5"

# The code group alone has the base page, so 16 paragraphs: 128 + 256 bytes are 3 records.
THREE_FILE = bytes.fromhex("01 1000 0000 1000 1000") + zeros(119) + zeros(5) + bytes.fromhex("112233") + zeros(248)

# Code 02 04 05 in 1 paragraph, data with a byte at 0100H in 17, extra with one at 0010H in 2, stack with one at 000FH in 1.
FOUR = b":01000081017D\n:020000000203F9\n:01000F834429\n:010010843338\n:01010082225A\n:02000181040573\n" + END
FOUR_FILE = (
    bytes.fromhex("01 0100 0000 0100 0100  02 1100 0000 1100 1100  03 0200 0000 0200 0200  04 0100 0000 0100 0100")
    + zeros(92)
    + bytes.fromhex("020405")
    + zeros(13)
    + zeros(256)
    + b"\x22"
    + zeros(15)
    + zeros(16)
    + b"\x33"
    + zeros(15)
    + zeros(15)
    + b"\x44"
    + zeros(48)
)

# Code reaches to FFFFH: 4,096 paragraphs, 1000H; 128 + 65,536 bytes are 513 records.
LAST_FILE = bytes.fromhex("01 0010 0000 0010 0010") + zeros(119) + zeros(65535) + b"\x11"

# Three bytes FFH: 03 + FF + FF + FF = 300, a sum that wraps around by itself, so the checksum is 00.
SUMS = b":03000000FFFFFF00\n"
SUMS_FILE = bytes.fromhex("01 1000 0000 1000 1000") + zeros(119) + b"\xff\xff\xff" + zeros(253)

# Data alone has the base page: the code group keeps its 1 paragraph; 128 + 16 * 17 = 400 bytes are filled up to 4 records.
SMALL = b":01000081017D\n:01000082225B\n" + END
SMALL_FILE = (
    bytes.fromhex("01 0100 0000 0100 0100  02 1000 0000 1000 1000")
    + zeros(110)
    + b"\x01"
    + zeros(15)
    + b"\x22"
    + zeros(255)
    + zeros(112)
)

# Code with extra and without data has the base page: 16 paragraphs, and 2 for the byte at 0010H; 128 + 16 * 18 = 416 bytes in 4 records.
CODE_EXTRA = b":01000081017D\n:010010843338\n" + END
CODE_EXTRA_FILE = (
    bytes.fromhex("01 1000 0000 1000 1000  03 0200 0000 0200 0200")
    + zeros(110)
    + b"\x01"
    + zeros(255)
    + zeros(16)
    + b"\x33"
    + zeros(15)
    + zeros(96)
)


def cases():
    yield "three bytes of code", THREE + END, LONGEST, 0, THREE_FILE
    yield "four groups, with lines that overlap", FOUR, LONGEST, 0, FOUR_FILE
    yield "code and data", SMALL, LONGEST, 0, SMALL_FILE
    yield "a byte at FFFFH", b":01FFFF0011F0\n" + END, LONGEST, 0, LAST_FILE
    yield "a line whose sum is FFH + FFH + FFH + 03H", SUMS + END, LONGEST, 0, SUMS_FILE
    yield "text before, between and behind", b"SIGLA 00\r\n" + THREE[:-1] + b"FFFF GH" + END[:-1] + BEHIND, LONGEST, 0, THREE_FILE
    yield "code and extra", CODE_EXTRA, LONGEST, 0, CODE_EXTRA_FILE
    yield "lines with nothing between them", THREE[:-1] + END, LONGEST, 0, THREE_FILE
    yield "an end line with a byte beyond FFFFH", THREE + b":02FFFF010000FF", LONGEST, 0, THREE_FILE
    yield "just enough room", THREE + END, 384, 0, THREE_FILE
    yield "a byte too little", THREE + END, 383, 76, b""
    yield "no room at all", THREE + END, 0, 76, b""
    yield "no end and no room", THREE, 0, 74, b""
    yield "no code and no room", END, 0, 75, b""
    for what, text, number in refused():
        yield f"{number} for {what}", text, LONGEST, number, b""


def refused():
    yield "small letters", b":000000ffFF\n" + END, 70
    yield "a G", b":010000001GED\n" + END, 70
    yield "a colon within a line", b":0300" + THREE + END, 70
    yield "a line that the text's end cuts off", THREE[:-2], 70
    yield "a colon and no more", b":", 70
    yield "an end line that is cut off", THREE + END[:-2], 70
    yield "a sum of 1", b":0100000011EF\n" + END, 71
    yield "a sum of FFH", b":0100000011ED\n" + END, 71
    yield "an end line's sum", THREE + b":00000001FE\n", 71
    yield "type 02", b":020000020000FC\n" + END, 72
    yield "type 03", b":00000003FD\n" + END, 72
    yield "type 85", b":02000085000079\n" + END, 72
    yield "two bytes from FFFFH on", b":02FFFF001122CD\n" + END, 73
    yield "type 02 with a wrong sum", b":020000020000FD\n" + END, 71
    yield "type 02 beyond FFFFH", b":02FFFF020000FE\n" + END, 72
    yield "a wrong sum before small letters", b":0100000011F0\n:000000ffFF\n" + END, 71
    yield "an address beyond before a wrong sum", b":02FFFF001122CD\n:0100000011F0\n" + END, 73
    yield "a wrong sum and no end", THREE + b":0100000011F0\n", 71
    yield "no text", b"", 74
    yield "no line", b"SIGLA 00\r\n", 74
    yield "code and no end", THREE, 74
    yield "an end alone", END, 75
    yield "data alone", b":01000082225B\n" + END, 75
    yield "a code line without bytes", b":0000000000\n" + END, 75
