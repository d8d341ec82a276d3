"""Several records a call: 220 reads and 221 writes k records, k being the parameter, as k single calls would, up to the first
that is refused. The second field is the number that stopped it, 0 if none, and the third how many were done.

Every answer and byte is worked out by hand from the papers, on a volume with two free blocks of eight records each.
"""
from writer import A, B, C, D, ZERO, Script, bytes_of, entry, fcb, SIGLA

READ, WRITE = 220, 221
several = Script(1024, 3, 1)
call, refused = several.call, several.refused

# A closed state is refused first, whatever is lent.
refused(READ, 32, b"", b"", parameter=0)
call(13, 0, value=2)
call(22, 0, block=fcb(), block_after=fcb())
# Records 0 to 2 written by one call: block 1, rc 3, cr 3; and read back, each into its own piece.
written = fcb(rc=3, blocks=[1], cr=3)
call(WRITE, 0, parameter=3, value=3, block=fcb(), buffer=A + B + C, block_after=written, buffer_after=A + B + C)
call(READ, 0, parameter=3, value=3, block=fcb(), buffer=ZERO * 3, block_after=written, buffer_after=A + B + C)
# From record 1 on two of four are there: 1, and the pieces from the stop on keep their bytes.
call(READ, 1, parameter=4, value=2, block=fcb(cr=1), buffer=D * 4, block_after=written, buffer_after=B + C + D + D)
# None is there: nothing changes.
refused(READ, 1, written, D * 2, parameter=2)
# Thirteen of sixteen have room, records 3 to 15 in blocks 1 and 2: 2, and what was done stays done.
pieces = [bytes_of(100 + i) for i in range(16)]
full = fcb(rc=16, blocks=[1, 2], cr=16)
call(WRITE, 2, parameter=16, value=13, block=written, buffer=b"".join(pieces), block_after=full, buffer_after=b"".join(pieces))
call(
    READ, 0, parameter=16, value=16, block=fcb(), buffer=ZERO * 16, block_after=full,
    buffer_after=A + B + C + b"".join(pieces[:13]),
)
# 34, then 46 for k outside 1..16, then 35 for a buffer that is not k records long, then what the single call tests.
refused(READ, 34, fcb()[:35], b"", parameter=0)
for function in (READ, WRITE):
    for k in (0, 17, 255):
        refused(function, 46, fcb(dr=2), ZERO[:5], parameter=k)
    refused(function, 46, fcb(), ZERO * 17, parameter=17)
    refused(function, 35, fcb(dr=2), ZERO, parameter=2)
    refused(function, 35, fcb(dr=2), ZERO + b"x", parameter=1)
    refused(function, 35, fcb(dr=2), b"", parameter=16)
    refused(function, 42, fcb(dr=2), ZERO * 2, parameter=2)
    refused(function, 40, fcb(cr=129), ZERO * 2, parameter=2)
    refused(function, 3, fcb(name=b"LEMMATA TXT"), ZERO * 2, parameter=2)
# Protected: 37 for the write, while the read goes on.
call(28, 0)
refused(WRITE, 37, fcb(), A, parameter=1)
call(READ, 0, parameter=1, value=1, block=fcb(cr=2), buffer=ZERO, block_after=fcb(rc=16, blocks=[1, 2], cr=3), buffer_after=C)

# Block 1 is records 8 to 15 of the volume, block 2 those behind them.
changed = {0: entry(SIGLA, 0, 16, [1, 2]) + bytes([0xE5]) * 96, 8: A, 9: B, 10: C}
changed.update({11 + i: piece for i, piece in enumerate(pieces[:13])})
several.end(changed)
