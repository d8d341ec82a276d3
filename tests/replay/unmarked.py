"""The paper's examples that are not starred: `rt ci` replays this script, which stands in crates/replay/stdin, and compares.

"T 2, D 1: the second block asked for: 2. cr 128 is taken, 129 is 40. Pattern delete with one read-only match: 38, nothing
gone." Every answer and byte is worked out by hand from the paper. Run as a program, this writes the crate's two files.
"""
from pathlib import Path

from writer import A, B, C, EMPTY, ZERO, Script, entry, fcb

CRATE = Path(__file__).resolve().parents[2] / "crates/replay"
FIRST, SECOND, LOCKED = b"FIRST      ", b"SECOND     ", b"SECOND  \xA0  "

unmarked = Script(1024, 2, 1)
call, refused = unmarked.call, unmarked.refused

# Log-in of a fresh volume with T 2, D 1: one block is free.
call(13, 0, value=1)
# The first block asked for is block 1; there is no second one.
call(22, 0, block=fcb(FIRST), block_after=fcb(FIRST))
call(34, 0, block=fcb(FIRST), buffer=A, block_after=fcb(FIRST, rc=1, blocks=[1]), buffer_after=A)
refused(34, 2, fcb(FIRST, r=8), B)
# The block is free again once the file is gone.
call(19, 0, block=fcb(FIRST), block_after=fcb(FIRST))
# cr 128 is taken: it is record 128, in a new entry of extent 1 with block 1. 129 is 40.
call(22, 0, block=fcb(SECOND), block_after=fcb(SECOND))
call(21, 0, block=fcb(SECOND, cr=128), buffer=C, block_after=fcb(SECOND, ex=1, rc=1, blocks=[1], cr=1), buffer_after=C)
refused(21, 40, fcb(SECOND, cr=129), C)
refused(20, 40, fcb(SECOND, cr=129), ZERO)
# A second file beside one that is read-only: a pattern that matches both deletes neither.
call(22, 2, block=fcb(FIRST), block_after=fcb(FIRST))
call(30, 0, block=fcb(LOCKED), block_after=fcb(LOCKED))
refused(19, 38, fcb(b"???????????"))
call(15, 2, block=fcb(FIRST), block_after=fcb(FIRST))
call(15, 0, block=fcb(SECOND), block_after=fcb(LOCKED))
call(35, 0, block=fcb(SECOND), block_after=fcb(SECOND, r=129))

unmarked.end({
    0: entry(LOCKED, 0, 0, []) + entry(LOCKED, 1, 1, [1]) + entry(FIRST, 0, 0, []) + EMPTY[:32],
    8: C,
})

if __name__ == "__main__":
    (CRATE / "stdin").write_bytes(unmarked.bytes)
    (CRATE / "stdout").write_bytes(unmarked.transcript())
