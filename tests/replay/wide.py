"""Request (xi): a hard disk of more than 256 blocks.

"Block numbers in entries take two bytes, low first, eight to an entry, and an entry has B/2,048 extents." Every answer and byte
is worked out by hand from this sentence.
"""
from writer import A, B, C, D, EMPTY, SIGLA, Script, entry, fcb

OTHER = b"OTHER      "


def two(*numbers):
    """block numbers of two bytes each"""
    return b"".join(number.to_bytes(2, "little") for number in numbers)


# B 2,048, T 257, D 1: 16 records a block, one extent an entry, 64 slots. OTHER has block 256, the last, in its first place.
wide = Script(2048, 257, 1, first=entry(OTHER, 0, 1, two(256)))
call, refused = wide.call, wide.refused

call(13, 0, value=255)
call(33, 0, block=fcb(OTHER), buffer=A, block_after=fcb(OTHER, rc=1, blocks=two(256)), buffer_after=EMPTY)
# Place 1: none is free above 256, so the lowest.
call(34, 0, block=fcb(OTHER, r=16), buffer=A, block_after=fcb(OTHER, rc=17, blocks=two(256, 1), cr=16, r=16), buffer_after=A)
# Place 7, the eighth, is the last of the entry; record 128 is of the next.
call(34, 0, block=fcb(OTHER, r=127), buffer=B,
     block_after=fcb(OTHER, rc=128, blocks=two(256, 1, 0, 0, 0, 0, 0, 2), cr=127, r=127), buffer_after=B)
call(34, 0, block=fcb(OTHER, r=128), buffer=C, block_after=fcb(OTHER, ex=1, rc=1, blocks=two(3), r=128), buffer_after=C)
call(35, 0, block=fcb(OTHER), block_after=fcb(OTHER, r=129))
refused(33, 1, fcb(OTHER, r=32), D)
refused(33, 4, fcb(OTHER, r=256), D)
# SIGLA in slot 2, at the border of its entries, by one call of two records.
call(22, 2, block=fcb(), block_after=fcb())
call(221, 0, parameter=2, value=2, block=fcb(cr=127), buffer=C + D, block_after=fcb(ex=1, rc=1, blocks=two(5), cr=1), buffer_after=C + D)
call(15, 2, block=fcb(), block_after=fcb(rc=128, blocks=two(0, 0, 0, 0, 0, 0, 0, 4)))
# Something else writes block 257, which is none, over block 5 of SIGLA's second entry, in slot 3.
wide.touch(3 * 32 + 16, two(257))
refused(33, 41, fcb(r=128), A)
call(37, 36, value=3)
wide.touch(3 * 32 + 16, two(256))
call(13, 36, value=3)
wide.touch(3 * 32 + 16, two(5))
call(13, 0, value=250)
call(19, 0, block=fcb(OTHER), block_after=fcb(OTHER))
call(37, 0, value=254)

# Block b begins at record 16b.
gone = bytes([0xE5])
wide.end({
    0: gone + entry(OTHER, 0, 128, two(256, 1, 0, 0, 0, 0, 0, 2))[1:] + gone + entry(OTHER, 1, 1, two(3))[1:]
    + entry(SIGLA, 0, 128, two(0, 0, 0, 0, 0, 0, 0, 4)) + entry(SIGLA, 1, 1, two(5)),
    16: A,
    47: B,
    48: C,
    79: C,
    80: D,
})

# The longest volume that a script can have, 3 MiB.
largest = Script(2048, 1536, 16)
largest.call(13, 0, value=1520)
largest.end({})
