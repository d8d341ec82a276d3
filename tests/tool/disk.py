"""Disks laid and read by the paper's description, beside the tool: entries, volumes, and a file's bytes by its entries."""

EMPTY = 0xE5
HEADING = b"USER NAME         RECORDS   BYTES BLOCKS ATTRIBUTES\n"

# What check says of an entry that breaks a rule by itself.
BAD = {
    "user": "its user is not 0 to 15",
    "name": "its name has a byte that no name has",
    "top bit": "a byte of its name has a top bit that is neither read-only nor system",
    "ex": "its extent (ex) is above 31",
    "s1": "its byte s1 is not 0",
    "s2": "its extent (s2) is above 15",
    "rc": "its count of records (rc) is above 128",
}


def name_bytes(text):
    """eleven bytes of NAME.TYP"""
    called, _, kind = text.rpartition(".") if "." in text else (text, "", "")
    return f"{called:8}{kind:3}".encode()


def width(geometry):
    """bytes of a block number in an entry: two where there are more than 256 blocks"""
    return 2 if geometry[1] > 256 else 1


def places(geometry):
    """block numbers of an entry"""
    return 16 // width(geometry)


def extents(geometry):
    """extents of an entry"""
    return geometry[0] // (1024 * width(geometry))


def numbers(e, geometry):
    """the block numbers of an entry"""
    step = width(geometry)
    return [int.from_bytes(e[at:at + step], "little") for at in range(16, 32, step)]


def entry(user=0, name="SIGLA.TXT", ex=0, s1=0, s2=0, rc=0, blocks=(), geometry=(1024, 40, 1)):
    laid = b"".join(number.to_bytes(width(geometry), "little") for number in blocks)
    return bytes([user]) + name_bytes(name) + bytes([ex, s1, s2, rc]) + laid.ljust(16, b"\0")


# An eight-inch floppy: its geometry, its image's length, and the sectors of a track in the order of its logical records.
FLOPPY, FLOPPY_BYTES = (1024, 243, 2), 77 * 26 * 128
SECTORS = [1, 7, 13, 19, 25, 5, 11, 17, 23, 3, 9, 15, 21, 2, 8, 14, 20, 26, 6, 12, 18, 24, 4, 10, 16, 22]


def start(q):
    """where logical record q of a floppy begins"""
    return ((2 + q // 26) * 26 + SECTORS[q % 26] - 1) * 128


def unskewed(image):
    """the volume of a floppy's image"""
    return b"".join(bytes(image[start(q):start(q) + 128]) for q in range(243 * 8))


def skewed(laid, image):
    """the image with this volume; all else as it was"""
    image = bytearray(image)
    for q in range(243 * 8):
        image[start(q):start(q) + 128] = laid[128 * q:128 * q + 128]
    return image


def volume(geometry, entries):
    """entries by slot; all else is E5H"""
    block, total, _ = geometry
    image = bytearray([EMPTY]) * (block * total)
    for slot, laid in entries.items():
        image[32 * slot:32 * slot + 32] = laid
    return image


def entries_of(image, geometry, user, name):
    """the entries of a file, by rising extent"""
    block, _, directory = geometry
    slots = [image[at:at + 32] for at in range(0, block * directory, 32)]
    found = [e for e in slots if e[0] == user and bytes(b & 0x7F for b in e[1:12]) == name_bytes(name)]
    return sorted(found, key=lambda e: (e[14], e[12]))


def file_on(image, geometry, user, name):
    """the bytes of a file without gaps"""
    block = geometry[0]
    content = b""
    for e in entries_of(image, geometry, user, name):
        laid = b"".join(bytes(image[b * block:(b + 1) * block]) for b in numbers(e, geometry) if b)
        content += laid[:128 * (128 * (e[12] % extents(geometry)) + e[15])]
    return content


def line(user, name, records, blocks, attributes=""):
    """a line of the listing"""
    return f"{user:4} {name:12} {records:7} {128 * records:7} {blocks:6}{attributes}\n".encode()
