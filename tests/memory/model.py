"""The memory calls 53 to 58 and load (59), written from 02 (vi), its readings and 000 alone: what the seam must answer and leave.

Everything goes paragraph by paragraph and byte by byte, with no thought of speed. A table is two lists of (start, length)."""

PLACES = 8
TABLE_BYTES = 2 + 2 * PLACES * 4
MCB_BYTES = 5
NOT_SERVED, MCB_LENGTH, RULES, NO_PLACE, NO_ROOM, BAD_FREE, HEADER, IMAGE = 31, 34, 65, 63, 62, 64, 60, 61


def word(data, at):
    return data[at] + 256 * data[at + 1]


def two_bytes(number):
    return bytes([number % 256, number // 256])


class Table:
    def __init__(self, pieces, regions):
        self.pieces, self.regions = list(pieces), list(regions)

    @staticmethod
    def read(data):
        """the table in 66 bytes; None where its length or a number is wrong"""
        if len(data) != TABLE_BYTES or data[0] > PLACES or data[1] > PLACES:
            return None
        spans = [(word(data, at), word(data, at + 2)) for at in range(2, TABLE_BYTES, 4)]
        return Table(spans[: data[0]], spans[PLACES : PLACES + data[1]])

    def bytes(self):
        def spans(used):
            filled = list(used) + [(0, 0)] * (PLACES - len(used))
            return b"".join(two_bytes(start) + two_bytes(length) for start, length in filled)

        return bytes([len(self.pieces), len(self.regions)]) + spans(self.pieces) + spans(self.regions)

    def within_rules(self, memory_bytes):
        """not 65: pieces apart and in the memory, regions apart and each in one piece; empty ones go by their ends"""
        for start, length in self.pieces:
            if start + length > 65536 or 16 * (start + length) > memory_bytes:
                return False
        for spans in (self.pieces, self.regions):
            seen = set()
            for start, length in spans:
                paragraphs = set(range(start, start + length))
                if paragraphs & seen:
                    return False
                seen |= paragraphs
        return all(
            any(p <= start and start + length <= p + n for p, n in self.pieces) for start, length in self.regions
        )

    def room(self, start):
        """how many paragraphs from start on are free within one piece"""
        taken = {p for s, n in self.regions for p in range(s, s + n)}
        most = 0
        for s, n in self.pieces:
            at = start
            while s <= at < s + n and at not in taken:
                at += 1
            most = max(most, at - start)
        return most

    def rooms(self):
        """the room at every start"""
        taken = {p for s, n in self.regions for p in range(s, s + n)}
        rooms = {}
        for s, n in self.pieces:
            length = 0
            for at in range(s + n - 1, s - 1, -1):
                length = 0 if at in taken else length + 1
                rooms[at] = max(rooms.get(at, 0), length)
        return rooms

    def lowest(self, need):
        """the lowest start with room, None where there is none; 0 paragraphs have no room"""
        if need == 0:
            return None
        return min((at for at, room in self.rooms().items() if room >= need), default=None)


def memory_call(function, mcb, table_bytes, memory_bytes):
    """(answer, mcb, table) of a memory call"""
    same = bytes(mcb), bytes(table_bytes)
    if function not in range(53, 59):
        return NOT_SERVED, *same
    if function != 58 and len(mcb) != MCB_BYTES:
        return MCB_LENGTH, *same
    table = Table.read(table_bytes)
    if table is None or not table.within_rules(memory_bytes):
        return RULES, *same
    if function == 58:
        table.regions = []
        return 0, bytes(mcb), table.bytes()
    base, length, ext = word(mcb, 0), word(mcb, 2), mcb[4]

    def done(base, length, changed):
        return 0, two_bytes(base) + two_bytes(length) + b"\0", table.bytes() if changed else bytes(table_bytes)

    if function == 53:
        rooms = table.rooms()
        longest = max(rooms.values(), default=0)
        if length == 0 or longest == 0:
            return NO_ROOM, *same
        return done(min(at for at, room in rooms.items() if room == longest), min(longest, length), False)
    if function == 54:
        return done(base, length, False) if length and table.room(base) >= length else (NO_ROOM, *same)
    if function in (55, 56):
        if len(table.regions) == PLACES:
            return NO_PLACE, *same
        if function == 55:
            start = table.lowest(length)
        else:
            start = base if length and table.room(base) >= length else None
        if start is None:
            return NO_ROOM, *same
        table.regions.append((start, length))
        return done(start, length, True)
    if ext == 0xFF:
        table.regions = []
        return done(base, length, True)
    for place, (start, size) in enumerate(table.regions):
        inside = start <= base and base + length <= start + size
        if length and inside and (base == start or base + length == start + size):
            if length == size:
                rest = []
            elif base == start:
                rest = [(base + length, size - length)]
            else:
                rest = [(start, size - length)]
            table.regions[place : place + 1] = rest
            return done(base, length, True)
    return BAD_FREE, *same


class Group:
    def __init__(self, descriptor):
        self.form = descriptor[0]
        self.length, self.base, self.least, self.most = (word(descriptor, at) for at in (1, 3, 5, 7))
        low = self.form % 16
        self.type = 1 if low == 9 else low
        self.need = max(self.length, self.least)


def groups_of(header):
    groups = []
    for at in range(0, 72, 9):
        if header[at] == 0:
            break
        groups.append(Group(header[at : at + 9]))
    return groups


def good_header(groups):
    types = [group.type for group in groups]
    if any(not 1 <= kind <= 8 for kind in types) or len(set(types)) != len(types) or 1 not in types:
        return False
    page = groups[types.index(2 if 2 in types else 1)]
    return page.need >= 16


def granted(table, groups):
    """what the groups are granted in header order; None where one has no room"""
    work = Table(table.pieces, table.regions)
    spans = []
    for group in groups:
        start = group.base if group.base else work.lowest(group.need)
        if start is None or group.need == 0 or work.room(start) < group.need:
            return None
        length = min(max(group.most, group.need), work.room(start))
        spans.append((start, length))
        work.regions.append((start, length))
    return spans


def base_page(groups, spans):
    """offsets 0 to 2FH of 000's 3.7"""
    by_type = {group.type: span for group, span in zip(groups, spans)}
    alone = len(groups) == 1
    if alone:
        by_type[2] = by_type[1]
    page = b""
    for kind in range(1, 9):
        if kind in by_type:
            start, length = by_type[kind]
            last = 16 * length - 1
            page += bytes([last % 256, last // 256 % 256, last // 65536]) + two_bytes(start)
        else:
            page += bytes(5)
        page += bytes([1 if alone and kind == 1 else 0])
    return page


def load(records, table_bytes, memory):
    """(answer, value, table, memory) of a load whose records can all be read; records[0] is the header"""
    same = 0, bytes(table_bytes), bytes(memory)
    table = Table.read(table_bytes)
    if table is None or not table.within_rules(len(memory)):
        return RULES, *same
    groups = groups_of(records[0])
    if not good_header(groups):
        return HEADER, *same
    image = b"".join(records[1:])
    if len(image) < 16 * sum(group.length for group in groups):
        return IMAGE, *same
    if len(table.regions) + len(groups) > PLACES:
        return NO_PLACE, *same
    spans = granted(table, groups)
    if spans is None:
        return NO_ROOM, *same
    after = bytearray(memory)
    at = 0
    for group, (start, _) in zip(groups, spans):
        size = 16 * group.length
        after[16 * start : 16 * start + size] = image[at : at + size]
        at += size
    types = [group.type for group in groups]
    page = spans[types.index(2 if 2 in types else 1)][0]
    after[16 * page : 16 * page + 48] = base_page(groups, spans)
    return 0, page, Table(table.pieces, table.regions + spans).bytes(), bytes(after)
