"""Headers of files that are made, a card at a time."""

BLOCK = 2880

# What a primary HDU and an image extension begin with.
PRIMARY = "SIMPLE  =                    T"
EXTENSION = "XTENSION= 'IMAGE   '"


def filled(written, fill=b"\0"):
    """Bytes, filled up to a whole block."""
    return written + fill * (-len(written) % BLOCK)


def header(texts):
    """The cards with these texts, and END."""
    return filled("".join(f"{text:<80}" for text in [*texts, "END"]).encode(), b" ")


def value(name, number):
    """A card with a number."""
    return f"{name:<8}= {number:>20}"


def shape(bits, axes):
    """The cards of pixels or bytes along these axes."""
    numbered = [(f"NAXIS{number}", axis) for number, axis in enumerate(axes, 1)]
    return [value(*it) for it in [("BITPIX", bits), ("NAXIS", len(axes)), *numbered]]


def extension_shape(bits, axes):
    """Those of an extension."""
    return [*shape(bits, axes), value("PCOUNT", 0), value("GCOUNT", 1)]


def details(cards, noise):
    """So many cards of five kinds, with digits of noise. All but the fifth have a keyword, KEY and the number of the card."""
    return [detail(number, noise.within(100_000, 999_999)) for number in range(1, cards + 1)]


def detail(number, digits):
    name = f"{f'KEY{number}':<8}="
    return [
        f"HISTORY step {number} took {digits} ms",
        f"{name}               {digits} / a count",
        f"{name}         1.{digits}E+03 / a measured value",
        f"{name} 'setting {digits}'     / a text",
        f"{name}                    T / flag {digits}",
    ][number % 5]
