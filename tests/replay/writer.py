"""A script for replay and its transcript, written side by side: each call with what it is lent, and the line that it must get."""

RECORD = 128
SIGLA = b"SIGLA   TXT"


def bytes_of(value):
    """128 times a byte."""
    return bytes([value]) * RECORD


EMPTY = bytes_of(0xE5)
ZERO = bytes_of(0)
A, B, C, D = (bytes_of(ord(letter)) for letter in "ABCD")


def fcb(name=SIGLA, dr=0, ex=0, s1=0, s2=0, rc=0, blocks=(), cr=0, r=0):
    """A control block of 36 bytes: dr, name and type, ex, s1, s2, rc, map, cr, r0 r1 r2."""
    places = bytes(blocks) + bytes(16 - len(blocks))
    return bytes([dr]) + name + bytes([ex, s1, s2, rc]) + places + bytes([cr]) + r.to_bytes(3, "little")


def renaming(old, new):
    """A control block of a rename: old name in 1..11, new in 17..27."""
    return fcb(name=old)[:17] + new + bytes(8)


def entry(name, ex, rc, blocks):
    """A directory entry of user 0."""
    return bytes([0]) + name + bytes([ex, 0, 0, rc]) + bytes(blocks) + bytes(16 - len(blocks))


def shown(lent):
    return "-" if lent is None else "=" + lent.hex().upper()


class Script:
    """What replay reads, and what it must print."""

    def __init__(self, block_bytes, blocks, directory_blocks, first=b"", length=None):
        """A volume of this geometry, all E5H but for the bytes that stand first. The placing is the high byte of the last number."""
        self.bytes = bytearray()
        for number in (block_bytes, blocks, directory_blocks):
            self.bytes += number.to_bytes(2, "little")
        length = block_bytes * blocks if length is None else length
        self.bytes += length.to_bytes(4, "little") + first + bytes([0xE5]) * (length - len(first))
        self.lines = []

    def call(self, function, answer, *, parameter=0, value=0, block=b"", buffer=b"", block_after=None, buffer_after=None):
        """A call as lent, and its line: what is afterwards in control block and buffer, None where the call is lent none."""
        self.bytes += bytes([function, parameter, len(block)]) + block + len(buffer).to_bytes(2, "little") + buffer
        self.lines.append(f"{function} {answer} {value} {shown(block_after)} {shown(buffer_after)}")

    def refused(self, function, answer, block=None, buffer=None, parameter=0):
        """A call that is refused: what it is lent stays as it is."""
        self.call(
            function, answer, parameter=parameter, block=block or b"", buffer=buffer or b"", block_after=block, buffer_after=buffer
        )

    def touch(self, offset, laid):
        """Something else touches the volume."""
        self.call(0, 0, block=offset.to_bytes(3, "little") + laid)

    def end(self, changed, bad=False):
        """The records that the run has changed, by their numbers, and the number of calls."""
        calls = len(self.lines)
        if bad:
            self.lines.append(f"BAD SCRIPT {calls}")
        self.lines += [f"RECORD {number} {record.hex().upper()}" for number, record in changed.items()]
        self.lines.append(f"END {calls}")

    def transcript(self):
        return "".join(line + "\n" for line in self.lines).encode("ascii")
