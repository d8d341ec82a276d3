"""Hex texts: lines spelled from their bytes, texts made by chance, and ways to damage one."""

SEPARATORS = [b"\n", b"\r\n", b"\n", b"\r\n", b"", b" ", b"\n\n", b"\x1a", b" ;0123ABC\n", b"FF\n"]


def spelled(count, address, kind, data, sum_off=0):
    """a line: colon, count, address, type, data and a checksum, which may be off"""
    line = bytes([count]) + address.to_bytes(2, "big") + bytes([kind]) + data
    return b":" + (line + bytes([(sum_off - sum(line)) % 256])).hex().upper().encode()


def data_line(kind, address, data):
    return spelled(len(data), address, kind, data)


END_LINE = spelled(0, 0, 0x01, b"")


def an_address(chance, length):
    """addresses near 0 mostly, some at borders of paragraphs and some at the end"""
    way = chance.randrange(8)
    if way == 0:
        return min(0xFFFF, 0x10000 - length - chance.randrange(3))
    if way == 1:
        return chance.randrange(0x10000 - length)
    if way == 2:
        return 16 * chance.randrange(40) + chance.choice((0, 1, 15))
    return chance.randrange(300)


def some_lines(chance):
    """lines that are not refused; several often overlap"""
    kinds = chance.choice(([0x00], [0x81], [0x00, 0x81], [0x81, 0x82], [0x00, 0x82, 0x83, 0x84], [0x82, 0x83], [0x81, 0x84]))
    lines = []
    for _ in range(chance.choice((0, 1, 1, 2, 3, 5, 8, 20))):
        length = chance.choice((0, 1, 1, 2, 3, 15, 16, 17, 32, 255))
        data = bytes(chance.randrange(256) for _ in range(length))
        lines.append(data_line(chance.choice(kinds), an_address(chance, length), data))
    return lines


def wrong_line(chance):
    """a line that is refused by one number, or by several"""
    data = bytes(chance.randrange(256) for _ in range(chance.randrange(5)))
    return chance.choice(
        (
            lambda: spelled(len(data), 0, 0x00, data, chance.randrange(1, 256)),
            lambda: spelled(len(data), 0, chance.choice((0x02, 0x03, 0x05, 0x7F, 0x80, 0x85, 0x88, 0xFF)), data),
            lambda: spelled(3, 0xFFFF - chance.randrange(2), 0x81, b"\1\2\3"),
            lambda: spelled(len(data) + 1, 0, 0x00, data),
            lambda: spelled(len(data), 0, 0x00, data).lower(),
            lambda: spelled(3, 0xFFFF, 0x02, b"\1\2\3", chance.randrange(2)),
            lambda: spelled(0, 0, 0x01, b"", chance.randrange(1, 256)),
        )
    )()


def damaged(chance, text):
    """one or two bytes altered, taken out or put in, or the text's end cut off"""
    for _ in range(chance.choice((1, 1, 2))):
        at = chance.randrange(len(text)) if text else 0
        byte = chance.choice((chance.choice(b"0123456789ABCDEF"), chance.choice(b":Gg a@/`\r\n\0\xff"), chance.randrange(256)))
        text = chance.choice(
            (
                text[:at] + bytes([byte]) + text[at + 1 :],
                text[:at] + text[at + 1 :],
                text[:at] + bytes([byte]) + text[at:],
                text[:at],
            )
        )
    return text


def a_text(chance):
    """lines with something between them, mostly with an end line; four of ten have a wrong line or are damaged"""
    lines = some_lines(chance)
    way = chance.randrange(10)
    if way < 2:
        lines.insert(chance.randrange(len(lines) + 1), wrong_line(chance))
    if chance.randrange(12):
        lines.append(END_LINE if chance.randrange(8) else spelled(2, 0xFFFF, 0x01, b"\1\2"))
    if not chance.randrange(4):
        lines += some_lines(chance) + [chance.choice((b":", END_LINE, wrong_line(chance)))]
    text = b"".join(line + chance.choice(SEPARATORS) for line in lines)
    return damaged(chance, text) if way in (2, 3) else text
