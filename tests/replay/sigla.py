"""The paper's starred example on V, and one call of each kind.

Every answer, control block, buffer and record is worked out by hand from the paper's sentences; nothing here does a call.
"""
from writer import A, B, C, D, EMPTY, SIGLA, ZERO, Script, entry, fcb

# Volume V: B 1,024, T 40, D 1, all E5H.
sigla = Script(1024, 40, 1)
call, refused, touch = sigla.call, sigla.refused, sigla.touch

# Before the first log-in the state is closed.
refused(15, 32, fcb())
# Log-in of V: 39 free. Bytes that a call is not lent are read and ignored.
call(13, 0, value=39, block=b"not lent", buffer=b"neither")
# Make SIGLA.TXT: code 0, bytes 12..31 become 0, cr and r0 r1 r2 stay. Again: 43. Rename to itself: 43.
call(22, 0, block=fcb(s1=4, s2=5, rc=9, blocks=[9] * 16, cr=7, r=0x030201), block_after=fcb(cr=7, r=0x030201))
refused(22, 43, fcb())
refused(23, 43, fcb()[:17] + SIGLA + bytes(8))
# Write 0: block 1, rc 1. Then write 20: place 2, block 2, rc 21.
call(34, 0, block=fcb(), buffer=A, block_after=fcb(rc=1, blocks=[1]), buffer_after=A)
call(34, 0, block=fcb(r=20), buffer=B, block_after=fcb(rc=21, blocks=[1, 0, 2], cr=20, r=20), buffer_after=B)
# Read 8: 1. Read 21: 1. Read 16: present, old bytes of block 2.
refused(33, 1, fcb(r=8), ZERO)
refused(33, 1, fcb(r=21), ZERO)
call(33, 0, block=fcb(r=16), buffer=ZERO, block_after=fcb(rc=21, blocks=[1, 0, 2], cr=16, r=16), buffer_after=EMPTY)
# Read 128: 4. Write 128: slot 1, ex 1, rc 1, block 3. Size 129.
refused(33, 4, fcb(r=128), ZERO)
call(34, 0, block=fcb(r=128), buffer=C, block_after=fcb(ex=1, rc=1, blocks=[3], r=128), buffer_after=C)
call(35, 0, block=fcb(), block_after=fcb(r=129))
# Something else alters the first byte of block 3, and the last byte of the volume; the byte behind it is ignored. Fewer
# than three bytes lay nothing.
touch(3 * 1024, b"Z")
touch(40959, b"YX")
call(0, 0, block=b"\x00\x04")
call(33, 0, block=fcb(r=128), buffer=ZERO, block_after=fcb(ex=1, rc=1, blocks=[3], r=128), buffer_after=b"Z" + C[1:])
# Open: s1 and s2 become 0, rc is the count of extent 0; cr stays.
call(15, 0, block=fcb(s1=1, s2=2, cr=5), block_after=fcb(rc=21, blocks=[1, 0, 2], cr=5))
# Sequential reads 0 and 1; record 1 has the old bytes of block 1.
call(20, 0, block=fcb(), buffer=ZERO, block_after=fcb(rc=21, blocks=[1, 0, 2], cr=1), buffer_after=A)
call(20, 0, block=fcb(cr=1), buffer=ZERO, block_after=fcb(rc=21, blocks=[1, 0, 2], cr=2), buffer_after=EMPTY)
# Sequential write with cr 128: record 128. 129 is 40.
call(21, 0, block=fcb(cr=128), buffer=D, block_after=fcb(ex=1, rc=1, blocks=[3], cr=1), buffer_after=D)
refused(21, 40, fcb(cr=129), D)
# Function 40 writes record 129 in block 3, which was given before: its other records stay.
refused(40, 35, fcb(r=129), B[:127])
call(40, 0, block=fcb(r=129), buffer=B, block_after=fcb(ex=1, rc=2, blocks=[3], cr=1, r=129), buffer_after=B)
# It writes record 138, for which block 4 is given: the block's other records become zeros. Read 137: present.
call(40, 0, block=fcb(r=138), buffer=A, block_after=fcb(ex=1, rc=11, blocks=[3, 4], cr=10, r=138), buffer_after=A)
call(33, 0, block=fcb(r=137), buffer=D, block_after=fcb(ex=1, rc=11, blocks=[3, 4], cr=9, r=137), buffer_after=ZERO)
# Set random record: 128 + 2. Close of extent 1: slot 1.
call(36, 0, block=fcb(ex=1, cr=2), block_after=fcb(ex=1, cr=2, r=130))
call(16, 1, block=fcb(ex=1), block_after=fcb(ex=1))
# Search: both entries stand in directory record 0, next is lent no control block, and then there is none.
directory = entry(SIGLA, 0, 21, [1, 0, 2]) + entry(SIGLA, 1, 11, [3, 4]) + bytes([0xE5]) * 64
pattern = fcb(name=b"????????TXT", ex=0x3F)
call(17, 0, block=pattern, buffer=ZERO, block_after=pattern, buffer_after=directory)
call(18, 1, buffer=ZERO, buffer_after=directory)
call(18, 255, buffer=ZERO, buffer_after=ZERO)
# User 5 has no file. 255 answers the current code, 16 is 44.
call(32, 0, parameter=5)
call(32, 5, parameter=255)
refused(15, 255, fcb())
call(32, 44, parameter=16)
call(32, 0, parameter=0)
# A read-only file: writes and a pattern delete answer 38.
locked = b"SIGLA   \xD4XT"
call(30, 0, block=fcb(name=locked), block_after=fcb(name=locked))
refused(34, 38, fcb(), A)
refused(19, 38, fcb(name=b"???????????"))
# Protected until the next log-in, which finds four blocks held.
call(28, 0)
refused(22, 37, fcb(name=b"LEMMATA TXT"))
call(37, 0, value=35)
# Lengths, drive code, name.
refused(15, 34, fcb()[:35])
refused(33, 35, fcb(), ZERO[:127])
refused(15, 42, fcb(dr=2))
refused(15, 39, fcb(name=b" IGLA   TXT"))
# Nothing lent at all.
call(15, 34, block_after=b"")

# What the run has changed. Bytes at 1,024 are record 8, at 2,560 record 20, block 3 is record 24 and those behind it, block
# 4 records 32 to 39.
changed = {
    0: entry(locked, 0, 21, [1, 0, 2]) + entry(locked, 1, 11, [3, 4]) + bytes([0xE5]) * 64,
    8: A,
    20: B,
    24: D,
    25: B,
    32: ZERO,
    33: ZERO,
    34: A,
    **{number: ZERO for number in range(35, 40)},
    319: EMPTY[:127] + b"Y",
}
sigla.end(changed)
