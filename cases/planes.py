"""Data units beside plain loops: their statistics and sums, and rectangles that are filled, written and read."""
import itertools
import math
import struct

from fits import BLOCK_LEN, header
from program import differences

BITPIX = {1: 8, 2: 16, 4: 32, 8: 64}
LEAST = -(2**63)
GREATEST = 2**63 - 1

# A pixel's bytes, how many pixels, the number of every 97th, what the others and the fill are, and BLANK.
KINDS = [
    (1, 0, 0, 0, 0),
    (1, 1, 255, 0, 0),
    (1, 2881, 128, 1, 128),
    (1, 8639, 7, 0, None),
    (2, 1440, -32768, 0, 0),
    (2, 2881, 32767, 1, 32767),
    (4, 1, -1, 0, None),
    (4, 2159, LEAST >> 32, 0, 0),
    (8, 361, LEAST, 0, 0),
    (8, 1080, GREATEST, 1, None),
]

# Pixels of so many bytes, axes, and the corners of a rectangle.
RECTANGLES = [
    (8, [400], [1], [1]),
    (8, [400], [400], [400]),
    (8, [400], [360], [361]),
    (1, [2882], [2880], [2882]),
    (8, [60, 10], [1, 1], [60, 10]),
    (8, [60, 10], [60, 10], [60, 10]),
    (8, [60, 10], [1, 6], [1, 7]),
    (2, [60, 10], [30, 1], [30, 10]),
    (8, [7, 5, 12], [7, 5, 12], [7, 5, 12]),
    (8, [7, 5, 12], [2, 2, 4], [6, 4, 11]),
    (4, [7, 5, 12], [1, 5, 1], [7, 5, 12]),
    (8, [3, 4, 5, 7], [1, 1, 1, 1], [3, 4, 5, 7]),
    (8, [3, 4, 5, 7], [3, 1, 1, 1], [3, 1, 1, 7]),
    # more than 4,096 blocks
    (8, [1500, 1000], [1499, 999], [1500, 1000]),
    (4, [3, 4, 5, 7], [2, 3, 1, 2], [3, 4, 5, 6]),
]


def cases():
    for kind in KINDS:
        yield kind, scanned, *kind
    for rectangle in RECTANGLES:
        yield rectangle, drawn, *rectangle


def scanned(program, width, count, number, fill, blank):
    """Where a data unit has other statistics or another sum than plain loops find, or its fill is judged otherwise."""
    unit = bytearray([fill]) * (-(-count * width // BLOCK_LEN) * BLOCK_LEN)
    for place in range(0, count, 97):
        unit[place * width : (place + 1) * width] = stored(number, width)
    pixels = [number_of(unit[at : at + width]) for at in range(0, count * width, width)]
    ran = program.edit(header(*cards(width, [count], blank)) + unit, b"stat 1\nsum 1\nrep")
    is_filled = fill == 0 or len(unit) == count * width
    report = "errors 0 warnings 0\n" if is_filled else "E22 1 0 bad data fill\nerrors 1 warnings 0\n"
    wanted = f"{statistics(pixels, blank)}datasum {datasum(unit)} verdicts 0 0\n{report}"
    yield from differences(ran, status=0, printed=wanted.encode("latin-1"), reported=b"")


def drawn(program, width, axes, low, high):
    """Where a rectangle that is written, or filled, isn't that of plain loops."""
    count = math.prod(axes)
    pixels = [number_of(bytes([1]) * width)] * count
    unit_len = -(-count * width // BLOCK_LEN) * BLOCK_LEN
    before = header(*cards(width, axes, None)) + (bytes([1]) * count * width).ljust(unit_len, b"\0")
    places = itertools.product(*(range(1, axis + 1) for axis in reversed(axes)))
    inside = [
        place
        for place, corner in enumerate(places)
        if all(least <= at <= most for least, at, most in zip(low, reversed(corner), high))
    ]
    written = [k % 120 for k in range(len(inside))]
    rectangle = ",".join(f"{least}:{most}" for least, most in zip(low, high))
    script = f"write 1 {rectangle} {' '.join(map(str, written))}\nrect 1 {rectangle}\nstat 1\nsum 1\n"
    answers = " ".join(map(str, written)) + "\n"
    for numbers in (written, [7] * len(inside)):
        for place, number in zip(inside, numbers):
            pixels[place] = number
        unit = b"".join(stored(number, width) for number in pixels).ljust(unit_len, b"\0")
        answers += f"{statistics(pixels, None)}datasum {datasum(unit)} verdicts 0 0\n"
    script += f"fill 1 {rectangle} 7\nstat 1\nsum 1"
    ran = program.edit(before, script.encode("latin-1"))
    after = before[: len(before) - unit_len] + unit
    yield from differences(ran, status=0, printed=answers.encode("latin-1"), reported=b"", saved=after)


def cards(width, axes, blank):
    """The cards of a primary array."""
    yield f"SIMPLE  = {'T':>20}|BITPIX  = {BITPIX[width]:>20}|NAXIS   = {len(axes):>20}"
    yield from (f"{f'NAXIS{k}':8}= {axis:>20}" for k, axis in enumerate(axes, 1))
    yield "END" if blank is None else f"BLANK   = {blank:>20}|END"


def stored(number, width):
    """The bytes of a number."""
    return (number % 256**width).to_bytes(width, "big")


def number_of(pixel):
    """The number of a pixel's bytes: those of one byte have no sign."""
    return int.from_bytes(pixel, "big", signed=len(pixel) > 1)


def statistics(pixels, blank):
    """What `stat` prints."""
    defined = [number for number in pixels if number != blank]
    ends = f"min {min(defined)} max {max(defined)}" if defined else "min - max -"
    return f"defined {len(defined)} blank {len(pixels) - len(defined)} {ends} sum {sum(defined)}\n"


def datasum(unit):
    """The sum of a data unit's words of 32 bits, with end-around carry."""
    total = sum(struct.unpack(f">{len(unit) // 4}I", unit))
    while total >> 32:
        total = (total & 0xFFFFFFFF) + (total >> 32)
    return total
