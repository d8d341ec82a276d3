"""srecord, which others wrote, beside the program: Intel hex that it makes of a binary is taken, and the code group is that binary;
a text of ours that it reads is the same bytes for both; and a text with its line of type 04 is refused by 72."""
import random
import subprocess

from programs import ROOT
from texts import END_LINE, data_line

HEADER = 128
ADDRESSES = 0x10000
FOLDER = ROOT / "target/gencmd"
BINARY, HEX = FOLDER / "peer.bin", FOLDER / "peer.hex"
# With addresses of two bytes it writes lines of types 00 and 01 alone.
PLAIN = "-address-length=2"


def install():
    """srec_cat, by apt where it is missing"""
    script = "OUT=target/gencmd; . tests/native.sh; need srec_cat srecord"
    subprocess.run(["bash", "-ec", script], cwd=ROOT, check=True, stdout=subprocess.DEVNULL)


def srec_cat(*words):
    subprocess.run(["srec_cat", *map(str, words)], check=True, capture_output=True)


def hex_of(data, start, *words):
    """the text that srecord makes of a binary that begins at an address"""
    BINARY.write_bytes(data)
    srec_cat(BINARY, "-binary", "-offset", start, "-o", HEX, "-intel", *words)
    return HEX.read_bytes()


def binary_of(text, length):
    """the bytes from 0 on that srecord reads in a text, zeros where it gives none"""
    HEX.write_bytes(text)
    srec_cat(HEX, "-intel", "-fill", 0, 0, length, "-o", BINARY, "-binary")
    return BINARY.read_bytes()


def wrong(run, text, code):
    """what is wrong with a text's file, whose code group begins with these bytes; or nothing"""
    status, file, said = run(text)
    if status or said:
        return f"status {status}, {said!r}"
    paragraphs = max(16, -(-len(code) // 16))
    length = paragraphs.to_bytes(2, "little")
    if file[:HEADER] != (b"\1" + length + b"\0\0" + length + length).ljust(HEADER, b"\0"):
        return f"the header is {file[:HEADER].hex()}"
    return "" if file[HEADER:][: 16 * paragraphs] == code.ljust(16 * paragraphs, b"\0") else "another code group"


def their_texts(run, tally, chance):
    """from one byte to a full group, at both ends, with short and long lines"""
    for length in (1, 15, 16, 17, 255, 256, 257, 1000, 20000, 65535, ADDRESSES):
        data = bytes(chance.randrange(256) for _ in range(length))
        for start in sorted({0, min(256, ADDRESSES - length), ADDRESSES - length}):
            block = chance.choice((1, 7, 16, 32, 255)) if length < 1000 else 32
            text = hex_of(data, start, PLAIN, f"-obs={block}")
            what = f"srecord's text of {length} bytes from {start} on, lines of {block}"
            tally.add(what, wrong(run, text, bytes(start) + data), text)


def our_texts(run, tally, chance, count):
    """lines that don't overlap, in any order: srecord and the program read the same bytes"""
    differs = ""
    for _ in range(count):
        places = chance.sample(range(0, 4096, 256), chance.randrange(1, 9))
        lines = [(place + chance.randrange(20), bytes(chance.randrange(256) for _ in range(chance.randrange(1, 200)))) for place in places]
        text = b"\r\n".join(data_line(0x00, place, data) for place, data in lines) + b"\r\n" + END_LINE + b"\n"
        reach = max(place + len(data) for place, data in lines)
        differs = differs or wrong(run, text, binary_of(text, reach))
    tally.add(f"{count} texts of ours that srecord reads as the program does", differs)


def peer_cases(run, tally):
    install()
    chance = random.Random("srecord")
    their_texts(run, tally, chance)
    our_texts(run, tally, chance, 20)
    status, file, said = run(hex_of(b"\x11", 0))
    tally.add("srecord's text with a line of type 04 is 72", "" if (status, file, said) == (0, b"", b"REFUSED 72\n") else f"{said!r}")
