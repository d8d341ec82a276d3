"""The hex file of the assembled program on standard output: code in lines of type 81, data in lines of type 82, an 01 line at the end,
as 000's chapter 4 has it. The flat file has the code from 0 and the data from 1000H, which stand in their group from 100H on."""
import sys

DATA_IN_FILE = 0x1000
DATA_IN_GROUP = 0x100
LINE = 16


def line(kind, address, some):
    counted = bytes([len(some), address >> 8, address & 255, kind]) + some
    return ":" + (counted + bytes([-sum(counted) & 255])).hex().upper()


def group(kind, start, some):
    for i in range(0, len(some), LINE):
        yield line(kind, start + i, some[i:i + LINE])


flat = open(sys.argv[1], "rb").read()
for text in group(0x81, 0, flat[:DATA_IN_FILE].rstrip(b"\0")):
    print(text)
for text in group(0x82, DATA_IN_GROUP, flat[DATA_IN_FILE:]):
    print(text)
print(line(1, 0, b""))
