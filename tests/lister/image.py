#!/usr/bin/env python3
# Images of volume V (B 1,024, T 40, D 1), laid entry by entry after the paper's description. Run with the name of a file
# it writes the paper's example there.
import sys

BLOCK, TOTAL, DIRECTORY = 1024, 40, 1
LENGTH = BLOCK * TOTAL
SLOTS = DIRECTORY * BLOCK // 32
EMPTY = 0xE5


def entry(user=0, name=b"SIGLA   TXT", ex=0, s1=0, s2=0, rc=0, blocks=()):
    """byte 0 user; 1..8 name; 9..11 type; 12 ex; 13 s1; 14 s2; 15 rc; 16..31 sixteen block numbers, 0 for none"""
    assert len(name) == 11 and len(blocks) <= 16
    return bytes([user]) + name + bytes([ex, s1, s2, rc]) + bytes(blocks) + bytes(16 - len(blocks))


def volume(entries):
    """V with these entries, given by slot; all else is E5H"""
    image = bytearray([EMPTY]) * LENGTH
    for slot, e in entries.items():
        assert slot < SLOTS and len(e) == 32
        image[32 * slot : 32 * slot + 32] = e
    return image


def example():
    """V after "Make SIGLA.TXT" and three writes"""
    # "Write 0: block 1, rc 1, bytes at 1,024", "write 20: place 2, block 2, bytes at 2,560, rc 21",
    # "Write 128: slot 1, ex 1, rc 1, block 3"
    image = volume({0: entry(rc=21, blocks=[1, 0, 2]), 1: entry(ex=1, rc=1, blocks=[3])})
    for at, byte in ((1024, 7), (2560, 8), (3 * BLOCK, 9)):
        image[at : at + 128] = bytes([byte]) * 128
    return image


if __name__ == "__main__":
    with open(sys.argv[1], "wb") as f:
        f.write(example())
