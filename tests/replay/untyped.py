"""Names the typist can't type: on V an old file called a=b is opened, read, written, renamed away and deleted, and no call
gives that name to a file.

Every answer, control block, buffer and record is worked out by hand from the paper and the request.
"""
from writer import A, B, EMPTY, SIGLA, ZERO, Script, entry, fcb, renaming

OLD, OTHER = b"a=b        ", b"c d      e "

# Volume V with a=b in slot 0 (record 0 in block 1), and in slot 1 another that can't be typed (block 2): two blocks held.
untyped = Script(1024, 40, 1, entry(OLD, 0, 1, [1]) + entry(OTHER, 0, 8, [2]))
call, refused = untyped.call, untyped.refused
call(13, 0, value=37)
# Opened, read (the old bytes of block 1), written.
call(15, 0, block=fcb(OLD), block_after=fcb(OLD, rc=1, blocks=[1]))
call(33, 0, block=fcb(OLD), buffer=ZERO, block_after=fcb(OLD, rc=1, blocks=[1]), buffer_after=EMPTY)
call(34, 0, block=fcb(OLD, r=1), buffer=A, block_after=fcb(OLD, rc=2, blocks=[1], cr=1, r=1), buffer_after=A)
call(35, 0, block=fcb(OLD), block_after=fcb(OLD, r=2))
call(16, 0, block=fcb(OLD), block_after=fcb(OLD))
# Neither is made again, nor renamed to itself or to the other: 45, before 43. 39 comes first.
for name in (OLD, OTHER):
    refused(22, 45, fcb(name))
    refused(23, 45, renaming(name, OLD))
    refused(23, 45, renaming(name, OTHER))
refused(22, 39, fcb(b"a=?        "))
refused(23, 39, renaming(b"A?         ", OLD))
refused(22, 45, fcb(OLD, ex=1))
# Renamed away, and not back.
call(23, 0, block=renaming(OLD, SIGLA), block_after=renaming(OLD, SIGLA))
refused(23, 45, renaming(SIGLA, OLD))
# Deleted, the other: its block 2 is the lowest free one, and it is not made again.
call(19, 0, block=fcb(OTHER), block_after=fcb(OTHER))
refused(22, 45, fcb(OTHER))
call(34, 0, block=fcb(r=8), buffer=B, block_after=fcb(rc=9, blocks=[1, 2], cr=8, r=8), buffer_after=B)
# Each forbidden character, a small letter, a blank before a later non-blank in name and in type; with a top bit too.
for byte in b"<>.,;:=*[]az":
    refused(22, 45, fcb(b"A" + bytes([byte]) + b"B     TXT"))
    refused(23, 45, renaming(SIGLA, b"AB      TX" + bytes([byte | 0x80])))
for name in (b"A B        ", b"AB   C     ", b"A       T T", b"A        TX", b"A\xA0B     TXT"):
    refused(22, 45, fcb(name))
    refused(23, 45, renaming(SIGLA, name))
# A blank at the end and an empty type are allowed; so are the neighbours of the small letters. Slot 1 is free.
call(22, 1, block=fcb(b"`{|}~      "), block_after=fcb(b"`{|}~      "))
call(23, 0, block=renaming(b"`{|}~      ", b"AB      T  "), block_after=renaming(b"`{|}~      ", b"AB      T  "))

# Bytes at 1,152 are record 9, at 2,048 record 16.
untyped.end({
    0: entry(SIGLA, 0, 9, [1, 2]) + entry(b"AB      T  ", 0, 0, []) + EMPTY[:64],
    9: A,
    16: B,
})
