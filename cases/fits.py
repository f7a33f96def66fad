"""Cards, headers and files, built of texts.

The cards of a header are one text, END among them, separated by `|`; a character up to 255 is a byte. An HDU is its
cards and how many blocks of data it has; a file is its HDUs and the text after the last."""

CARD_LEN = 80
BLOCK_LEN = 2880

# The cards of a primary header without data, and of one that has nothing else.
MANDATORY = "SIMPLE  =                    T|BITPIX  =                    8|NAXIS   =                    0"
P0 = f"{MANDATORY}|END"

# An image extension of one pixel of 16 bits.
PIXEL = (
    "XTENSION= 'IMAGE   '|BITPIX  =                   16|NAXIS   =                    1|"
    "NAXIS1  =                    1|PCOUNT  =                    0|GCOUNT  =                    1|END"
)

# A primary array of three pixels of 16 bits.
THREE_PIXELS = (
    "SIMPLE  =                    T|BITPIX  =                   16|"
    "NAXIS   =                    1|NAXIS1  =                    3|END"
)

# Thirty-two cards.
COMMENTS = "|".join(["COMMENT"] * 32)


def cards(text):
    """Cards, each with spaces to its end. A text of one space is a card of spaces."""
    return b"".join(card + b" " * (-len(card) % CARD_LEN) for card in text.encode("latin-1").split(b"|"))


def header(*texts):
    """The cards of these texts, and spaces to the end of a block."""
    front = b"".join(map(cards, texts))
    return front + b" " * (-len(front) % BLOCK_LEN)


def data(blocks):
    """Blocks of data, in which no byte is as the one before."""
    return bytes(place % 251 for place in range(BLOCK_LEN)) * blocks


def zeros(blocks):
    """Blocks of zeros."""
    return bytes(BLOCK_LEN * blocks)


def changed(what, places):
    """Bytes with others at some places, which count from 1."""
    return bytes(places.get(place, byte) for place, byte in enumerate(what, 1))


def pixels(width, numbers, last):
    """Pixels of so many bytes, and zeros to the end of a block, but for its last byte."""
    front = b"".join((number % 256**width).to_bytes(width, "big") for number in numbers)
    fill = bytes(-len(front) % BLOCK_LEN)
    return front + (fill[1:] + bytes([last]) if fill else b"")


def file(text, data_of=data):
    """The bytes of a file."""
    hdus, tail = text
    return b"".join(header(texts) + data_of(blocks) for texts, blocks in hdus) + tail.encode("latin-1")


def pixel_file(text):
    """The bytes of a file whose HDUs have pixels in place of blocks."""
    hdus, tail = text
    return b"".join(header(texts) + pixels(*of) for texts, of in hdus) + tail.encode("latin-1")
