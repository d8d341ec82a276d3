# Volumes made by chance: few names, so that files have several entries; numbers near their limits; often a spoiled byte.
from image import BLOCK, DIRECTORY, SLOTS, TOTAL, entry, volume

NAMES = (b"SIGLA   TXT", b"SIGLA   \xd4XT", b"SIGLA   T\xd8T", b"LEMMATA TXT", b"A          ")
EDGES = (0, 1, 15, 16, 31, 32, 39, 40, 0x3F, 0x7E, 0x7F, 0x80, 0x81, 0xA0, 0xE4, 0xE5, 0xE6, 0xFF)


def some_entry(chance, blocks):
    """an entry within the rules, with some of these blocks, which it takes away"""
    places = [blocks.pop() if blocks and chance.random() < 0.2 else 0 for _ in range(16)]
    return entry(
        user=chance.choice((0, 0, 1, 9, 10, 15)),
        name=chance.choice(NAMES),
        ex=chance.choice((0, 1, 2, 30, 31, chance.randrange(32))),
        s2=chance.choice((0, 0, 0, 1, 14, 15)),
        rc=chance.choice((0, 1, 9, 10, 127, 128, chance.randrange(129))),
        blocks=places,
    )


def random_volume(chance):
    blocks = list(range(DIRECTORY, TOTAL))
    chance.shuffle(blocks)
    slots = chance.sample(range(SLOTS), chance.choice((0, 1, 3, 6, 10, 20, SLOTS)))
    image = volume({slot: some_entry(chance, blocks) for slot in slots})
    if chance.random() < 0.5:
        image[chance.randrange(DIRECTORY * BLOCK)] = chance.choice((*EDGES, chance.randrange(256)))
    return image
