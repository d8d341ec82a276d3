"""Request (ix): which block a write takes.

"A block is now the lowest free one above the block in the nearest lower used place of the same entry, and the lowest free one
where that place or such a block doesn't exist." Every answer and byte is worked out by hand from this sentence.
"""
from writer import A, B, C, D, EMPTY, SIGLA, Script, entry, fcb

OTHER = b"OTHER      "

# B 1,024, T 8, D 1: seven blocks.
together = Script(1024, 8, 1)
call, refused = together.call, together.refused

call(13, 0, value=7)
# A first place gets the lowest free block: OTHER has 1, SIGLA 2, OTHER's second entry 3.
call(22, 0, block=fcb(OTHER), block_after=fcb(OTHER))
call(34, 0, block=fcb(OTHER), buffer=A, block_after=fcb(OTHER, rc=1, blocks=[1]), buffer_after=A)
call(22, 1, block=fcb(), block_after=fcb())
call(34, 0, block=fcb(), buffer=A, block_after=fcb(rc=1, blocks=[2]), buffer_after=A)
call(34, 0, block=fcb(OTHER, r=128), buffer=B, block_after=fcb(OTHER, ex=1, rc=1, blocks=[3], r=128), buffer_after=B)
# With OTHER gone 1 and 3 are free.
call(19, 0, block=fcb(OTHER), block_after=fcb(OTHER))
# A gap below: above block 2 of place 0 the lowest free one is 3, and 1 is passed over.
call(34, 0, block=fcb(r=24), buffer=C, block_after=fcb(rc=25, blocks=[2, 0, 0, 3], cr=24, r=24), buffer_after=C)
# Places used out of order: place 1 is above block 2, place 2, by a sequential write, above block 4 of place 1.
call(34, 0, block=fcb(r=8), buffer=B, block_after=fcb(rc=25, blocks=[2, 4, 0, 3], cr=8, r=8), buffer_after=B)
call(21, 0, block=fcb(cr=16), buffer=D, block_after=fcb(rc=25, blocks=[2, 4, 5, 3], cr=17), buffer_after=D)
# Above block 3 of place 3 the lowest free one is 6, and above that 7.
call(34, 0, block=fcb(r=32), buffer=A, block_after=fcb(rc=33, blocks=[2, 4, 5, 3, 6], cr=32, r=32), buffer_after=A)
call(34, 0, block=fcb(r=40), buffer=B, block_after=fcb(rc=41, blocks=[2, 4, 5, 3, 6, 7], cr=40, r=40), buffer_after=B)
# None is above 7: the lowest free one, 1. Then none is left.
call(34, 0, block=fcb(r=48), buffer=C, block_after=fcb(rc=49, blocks=[2, 4, 5, 3, 6, 7, 1], cr=48, r=48), buffer_after=C)
refused(34, 2, fcb(r=56), D)
call(37, 0, value=0)

# OTHER's first entry stood in slot 0 and its second in slot 2. Block b begins at record 8b; records 9 to 15 and so on are as
# they were.
gone = bytes([0xE5])
together.end({
    0: gone + entry(OTHER, 0, 1, [1])[1:] + entry(SIGLA, 0, 49, [2, 4, 5, 3, 6, 7, 1])
    + gone + entry(OTHER, 1, 1, [3])[1:] + EMPTY[:32],
    8: C,
    16: A,
    24: C,
    32: B,
    40: D,
    48: A,
    56: B,
})
