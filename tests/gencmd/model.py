"""An independent model of request (xiii), from the paper's words and 000's chapter 4 alone: what becomes of a hex text."""

DIGITS = b"0123456789ABCDEF"
RECORD = HEADER = 128
PARAGRAPH = 16
PAGE_PARAGRAPHS = 16
ADDRESSES = 0x10000
END = 0x01
# 000, tables 2 and 3: a line's type, and the type of the group's descriptor
GROUPS = {0x00: 1, 0x81: 1, 0x82: 2, 0x83: 4, 0x84: 3}
CODE, DATA = 1, 2


class Refused(Exception):
    """a text that is refused, by its number"""

    def __init__(self, number):
        super().__init__(number)
        self.number = number


def line_at(text, at):
    """the bytes of the line behind the colon before `at`: count, address, type, data, checksum"""
    first = text[at : at + 2]
    if len(first) < 2 or any(digit not in DIGITS for digit in first):
        raise Refused(70)
    digits = text[at : at + 2 * (int(first, 16) + 5)]
    if len(digits) < 2 * (int(first, 16) + 5) or any(digit not in DIGITS for digit in digits):
        raise Refused(70)
    if sum(bytes.fromhex(digits.decode())) % 256:
        raise Refused(71)
    return bytes.fromhex(digits.decode())


def refusal_of(kind, address, count):
    """of a line that is not the end: 72 for its type, then 73 for its address, or nothing"""
    if kind not in GROUPS:
        return 72
    return 73 if address + count > ADDRESSES else 0


def give(group, place, byte):
    """where lines overlap, the later one counts"""
    group[place] = byte


def groups_of(text):
    """the bytes that the lines give, by group and address"""
    groups = {}
    at = text.find(b":")
    while at >= 0:
        line = line_at(text, at + 1)
        address, kind, data = int.from_bytes(line[1:3], "big"), line[3], line[4:-1]
        if kind == END:
            return groups
        number = refusal_of(kind, address, len(data))
        if number:
            raise Refused(number)
        for place, byte in enumerate(data, address):
            give(groups.setdefault(GROUPS[kind], {}), place, byte)
        at = text.find(b":", at + 1 + 2 * len(line))
    raise Refused(74)


def image_of(bytes_given, least):
    """a group from 0 to its highest byte, in whole paragraphs, at least so many"""
    paragraphs = max(least, -(-(max(bytes_given) + 1) // PARAGRAPH))
    image = bytearray(paragraphs * PARAGRAPH)
    for place, byte in bytes_given.items():
        image[place] = byte
    return image


def cmd_file(text, room):
    """the CMD file of a text, where the output buffer has so many bytes"""
    groups = groups_of(text)
    if CODE not in groups:
        raise Refused(75)
    page = DATA if DATA in groups else CODE
    header, image = bytearray(), bytearray()
    for group in sorted(groups):
        part = image_of(groups[group], PAGE_PARAGRAPHS if group == page else 0)
        length = (len(part) // PARAGRAPH).to_bytes(2, "little")
        header += bytes([group]) + length + b"\0\0" + length + length
        image += part
    file = header.ljust(HEADER, b"\0") + image
    file += bytes(-len(file) % RECORD)
    if len(file) > room:
        raise Refused(76)
    return bytes(file)
