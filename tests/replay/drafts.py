"""Renaming by way of a third name, on V: three runs that begin alike, with the records that each leaves worked out by hand.

The file has two entries and the system bit, which stay; a second user has a file of the same name.
"""
from writer import A, B, C, EMPTY, SIGLA, Script, entry, fcb, renaming

TEMPORARY = b"SIGLA   $$$"
ARCHIVED = b"LESARTENBAK"


def run(name, *renames):
    """SIGLA.TXT renamed step by step, every call answered by 0; at the end it has this name, and the data never move."""
    script = Script(1024, 40, 1)
    system = SIGLA[:9] + bytes([SIGLA[9] | 0x80]) + SIGLA[10:]
    script.call(13, 0, value=39)
    script.call(22, 0, block=fcb(), block_after=fcb())
    script.call(34, 0, block=fcb(), buffer=A, block_after=fcb(rc=1, blocks=[1]), buffer_after=A)
    script.call(34, 0, block=fcb(r=128), buffer=B, block_after=fcb(ex=1, rc=1, blocks=[2], r=128), buffer_after=B)
    script.call(30, 0, block=fcb(name=system), block_after=fcb(name=system))
    script.call(32, 0, parameter=3)
    script.call(22, 2, block=fcb(), block_after=fcb())
    script.call(34, 0, block=fcb(), buffer=C, block_after=fcb(rc=1, blocks=[3]), buffer_after=C)
    script.call(32, 0, parameter=0)
    for block in renames:
        script.call(23, 0, block=block, block_after=block)
    named = name[:9] + bytes([name[9] | 0x80]) + name[10:]
    of_user_3 = bytes([3]) + entry(SIGLA, 0, 1, [3])[1:]
    script.end({
        0: entry(named, 0, 1, [1]) + entry(named, 1, 1, [2]) + of_user_3 + EMPTY[:32],
        8: A,
        16: B,
        24: C,
    })
    return script


drafts = {
    "renamed by way of a third name": run(ARCHIVED, renaming(SIGLA, TEMPORARY), renaming(TEMPORARY, ARCHIVED)),
    "renamed at once": run(ARCHIVED, renaming(SIGLA, ARCHIVED)),
    "renamed there and back": run(SIGLA, renaming(SIGLA, TEMPORARY), renaming(TEMPORARY, SIGLA)),
}
