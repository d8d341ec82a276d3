"""Request (i): an eight-inch floppy.

"Logical record q lies on track 2 + q div 26, in the sector given by place q mod 26 of" a table; "sector s of track t starts at
((26t + s - 1) times 128)". Every answer and byte is worked out by hand from these sentences. A RECORD line's number is that of
the image's sector, 26t + s - 1.
"""
from writer import A, B, C, EMPTY, SIGLA, Script, bytes_of, entry, fcb

IMAGE_BYTES = 256256

# All E5H; D 2 and placing 1 are one number of 16 bits in the header.
floppy = Script(1024, 243, 2 + 256, length=IMAGE_BYTES)
call, refused = floppy.call, floppy.refused

call(13, 0, value=241)
# The entry is in logical record 0: track 2, sector 1. Block 2 begins at logical record 16: track 2, sector 20.
call(22, 0, block=fcb(), block_after=fcb())
call(34, 0, block=fcb(), buffer=A, block_after=fcb(rc=1, blocks=[2]), buffer_after=A)
# Record 1 is logical record 17, sector 26; record 10, in block 3, logical record 26: track 3, sector 1.
call(34, 0, block=fcb(r=1), buffer=B, block_after=fcb(rc=2, blocks=[2], cr=1, r=1), buffer_after=B)
call(34, 0, block=fcb(r=10), buffer=C, block_after=fcb(rc=11, blocks=[2, 3], cr=10, r=10), buffer_after=C)
call(33, 0, block=fcb(r=1), buffer=EMPTY, block_after=fcb(rc=11, blocks=[2, 3], cr=1, r=1), buffer_after=B)
# Record 2, logical record 18, is in sector 6 of track 2: something else touches it.
floppy.touch((2 * 26 + 5) * 128, bytes_of(0x31))
call(33, 0, block=fcb(r=2), buffer=EMPTY, block_after=fcb(rc=11, blocks=[2, 3], cr=2, r=2), buffer_after=bytes_of(0x31))
# Slot 4 is in logical record 1: track 2, sector 7. It gets a user that is none, and is emptied again.
floppy.touch((2 * 26 + 6) * 128, b"\x10")
call(37, 36, value=4)
refused(33, 32, fcb(), A)
floppy.touch((2 * 26 + 6) * 128, b"\xe5")
call(13, 0, value=239)

floppy.end({
    2 * 26: entry(SIGLA, 0, 11, [2, 3]) + EMPTY[:96],
    2 * 26 + 5: bytes_of(0x31),
    2 * 26 + 19: A,
    2 * 26 + 25: B,
    3 * 26: C,
})

# Another length, another number, another placing.
wrong = {}
for what, numbers, length, answer in [
    ("an image that is a byte short", (1024, 243, 2 + 256), IMAGE_BYTES - 1, 33),
    ("the unskewed volume's length", (1024, 243, 2 + 256), 243 * 1024, 33),
    ("an image as a straight volume", (1024, 243, 2), IMAGE_BYTES, 33),
    ("an image of 242 blocks", (1024, 242, 2 + 256), IMAGE_BYTES, 32),
    ("a placing that is none", (1024, 243, 2 + 512), IMAGE_BYTES, 32),
]:
    wrong[what] = Script(*numbers, length=length)
    wrong[what].call(13, answer)
    wrong[what].end({})
