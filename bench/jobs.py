"""The jobs that the program does over files: what these are, and the commands of each.

A job yields rounds. A round has files, each with its bytes, and commands, which run one after another in the folder of these
files. The bytes are noise of a seed: they are the same for the same words, wherever and whenever they are made.
"""
import dataclasses
import itertools

from headers import EXTENSION, PRIMARY, details, extension_shape, filled, header, shape, value
from noise import Noise


@dataclasses.dataclass
class Command:
    """The words of a run, the status that it ends with, the file that it reads as its standard input, and the one that it saves."""

    words: list
    status: int = 0
    stdin: str = None
    saved: str = None


@dataclasses.dataclass
class Round:
    files: dict
    commands: list


IN, OUT, SCRIPT = "in.fits", "out.fits", "script"


def edit(status=0):
    return Command(["edit", IN, OUT], status, SCRIPT, OUT)


# -- folders: small files, each listed, summed, verified, asked for statistics and for some of its cards

# Images of 32 by 32 pixels of 16 bits.
FOLDER_FILES, FOLDER_WORDS, FOLDER_DETAILS = 200, 256, 30


def folders(noise):
    while True:
        files = {f"night/{number}.fits": small_image(noise) for number in range(1, FOLDER_FILES + 1)}
        asked = [["list"], ["sum"], ["stat"], ["verify"], ["cards", "-k", "KEY1*"]]
        yield Round(files, [Command([*words, *files]) for words in asked])


def small_image(noise):
    cards = header([PRIMARY, *shape(16, [32, 32]), *details(FOLDER_DETAILS, noise)])
    return cards + filled(noise.words(FOLDER_WORDS))


# -- frames: full detectors that are verified, summed, and saved with one keyword set

# 2,048 by 4,096 pixels, and how many cards a header has beside the five that describe them.
FRAME, FRAME_DETAILS = [2048, 4096], 59

# The words of a tile, a million bytes and some, so that rows differ; and its bytes, so that no pixel is negative.
TILE_WORDS, FAINT = 125_001, 0x0F0F_0F0F_0F0F_0F0F

CORRECTION = b"set 1 EXPTIME 120.5 / seconds, as the shutter took them\n"


def frames(noise):
    for bits in itertools.cycle([16, 32, 8]):
        files = {IN: frame(bits, noise), SCRIPT: CORRECTION}
        yield Round(files, [Command(["verify", IN]), Command(["sum", IN]), edit()])


def frame(bits, noise):
    """An image whose pixels are a tile again and again."""
    cards = header([PRIMARY, *shape(bits, FRAME), *details(FRAME_DETAILS, noise)])
    tile = noise.words(TILE_WORDS, FAINT)
    size = FRAME[0] * FRAME[1] * bits // 8
    return cards + filled((tile * (size // len(tile) + 1))[:size])


# -- kept: mosaics that are kept stamped through a day of corrections, and saved

# Images of 512 by 256 pixels of 16 bits, the cards of a header beside those that describe them, and the lines of a script.
KEPT_IMAGES, KEPT_WORDS, KEPT_DETAILS, CORRECTIONS = 8, 32_768, 59, 400


def kept(noise):
    while True:
        primary = header([PRIMARY, *shape(8, []), *details(KEPT_DETAILS, noise)])
        images = [kept_image(noise) for _ in range(KEPT_IMAGES)]
        yield Round({IN: b"".join([primary, *images]), SCRIPT: kept_script(noise)}, [edit()])


def kept_image(noise):
    cards = header([EXTENSION, *extension_shape(16, [512, 256]), *details(KEPT_DETAILS, noise)])
    return cards + filled(noise.words(KEPT_WORDS))


def kept_script(noise):
    """All HDUs are kept, then corrected one after another in no order; one image is released before its last correction."""
    lines = [f"keep {hdu}" for hdu in range(1, KEPT_IMAGES + 2)]
    lines += [kept_line(number, noise) for number in range(1, CORRECTIONS + 1)]
    lines += ["release 2", "fill 2 1:512,7:7 0", "sum 2", "rep"]
    return script(lines)


def kept_line(number, noise):
    hdu = noise.within(2, KEPT_IMAGES + 1)
    column, row, level = noise.within(1, 500), noise.within(1, 256), noise.within(0, 30_000)
    return [
        f"set {hdu} KEY3 'setting {level}' / corrected",
        f"fill {hdu} {column}:{column},{row}:{row} {level}",
        f"write {hdu} {column}:{column + 3},{row}:{row} 1 2 3 {level}",
        f"ins {hdu} 12 HISTORY corrected by {level}",
        f"sum {hdu}",
    ][number % 5]


# -- reshapes: images that get wider pixels or more rows, asked and saved

# The bits of a pixel, the rows of 2,048 pixels, and what is done.
RESHAPES = [
    (16, 1024, ["reshape 1 i32 2048,1536", "stat 1", "stamp 1"]),
    (8, 2048, ["reshape 1 i16 2048,2560", "stat 1", "sum 1"]),
    (32, 512, ["reshape 1 i64 2048,768", "stat 1", "stamp 1"]),
    (16, 1024, ["reshape 1 i16 2048,1024,2", "stat 1", "stamp 1"]),
]

RESHAPED_DETAILS = 59


def reshapes(noise):
    for bits, rows, lines in itertools.cycle(RESHAPES):
        cards = header([PRIMARY, *shape(bits, [2048, rows]), *details(RESHAPED_DETAILS, noise)])
        pixels = filled(noise.words(2048 * rows * bits // 64))
        yield Round({IN: cards + pixels, SCRIPT: script(lines)}, [edit()])


# -- tables: a table and an image of real numbers, whose long headers are verified, asked and mended

# The columns of the table, with three cards each; the bits of the image's pixels; its cards beside those that describe them.
SIZES = [(50, -32, 1000), (150, -64, 400), (500, -32, 100), (80, -64, 200)]

# How many lines ask or set.
TABLE_LINES = 400


def tables(noise):
    for columns, bits, cards in itertools.cycle(SIZES):
        image = [f"{EXTENSION}           / an image", *extension_shape(bits, [64, 64])]
        parts = [header([PRIMARY, *shape(8, [])]), table(columns, noise), header([*image, *details(cards, noise)])]
        pixels = filled(noise.words(64 * 64 * -bits // 64))
        lines = [table_line(columns, cards, noise) for _ in range(TABLE_LINES)]
        files = {IN: b"".join([*parts, pixels]), SCRIPT: script([*lines, "stamp 2", "stamp 3", "rep"])}
        # the status is 1 for the questions that find no keyword
        yield Round(files, [Command(["verify", "-e", IN]), edit(status=1)])


def table(columns, noise):
    """A table of 50 rows, whose columns are real numbers of 64 bits."""
    texts = ["XTENSION= 'BINTABLE'           / a table", *extension_shape(8, [columns * 8, 50]), value("TFIELDS", columns)]
    for number in range(1, columns + 1):
        texts += [
            f"TTYPE{number:<3}= 'COLUMN_{number}' / what is measured",
            f"TFORM{number:<3}= '1D      '           / a real number",
            f"TUNIT{number:<3}= 'mag     '           / its unit",
        ]
    return header(texts) + filled(noise.words(columns * 50))


# -- columns: tables whose columns have three cards each, verified with what their headers say of them

COLUMNS = [33, 100, 333]


def columns(noise):
    for count in itertools.cycle(COLUMNS):
        yield Round({IN: header([PRIMARY, *shape(8, [])]) + table(count, noise)}, [Command(["verify", "-t", IN])])


def table_line(columns, cards, noise):
    """A line that asks or sets. A question for one card in five finds no keyword of that name."""
    column, card, number = noise.within(1, columns), noise.within(1, cards), noise.within(100, 999)
    return [
        f"get 2 TTYPE{column}",
        f"get 2 TTYPE{column}",
        f"get 2 TFORM{column}",
        f"get 2 TUNIT{column}",
        f"set 2 TUNIT{column} 'mag{number}' / its unit, mended",
        f"set 2 TTYPE{column} 'PART_{number}' / what is measured",
        f"get 3 KEY{card}",
        f"get 3 KEY{card}",
        f"set 3 KEY{card} {number}.5 / measured anew",
        f"set 3 NEW{number} {card} / one more",
    ][noise.within(0, 9)]


# -- asked: a detector that stays on the disk, of which keywords are asked by the thousand

QUESTIONS = 1000


def asked(noise):
    while True:
        lines = [f"get 1 KEY{5 * noise.within(0, 10) + noise.within(1, 4)}" for _ in range(QUESTIONS)]
        yield Round({IN: frame(16, noise), SCRIPT: script(lines)}, [Command(["ask", IN], stdin=SCRIPT)])


# -- painted: a mosaic that stays on the disk, a region of each of whose images is printed, written or filled

# Images of 64 by 64 pixels of 16 bits.
PAINTED_IMAGES, PAINTED_WORDS, PAINTED_DETAILS = 200, 1_024, 30


def painted(noise):
    while True:
        primary = header([PRIMARY, *shape(8, [])])
        images = [painted_image(noise) for _ in range(PAINTED_IMAGES)]
        lines = [line for hdu in range(2, PAINTED_IMAGES + 2) for line in painted_lines(hdu, noise)]
        yield Round({IN: b"".join([primary, *images]), SCRIPT: script(lines)}, [edit()])


def painted_image(noise):
    cards = header([EXTENSION, *extension_shape(16, [64, 64]), *details(PAINTED_DETAILS, noise)])
    return cards + filled(noise.words(PAINTED_WORDS))


def painted_lines(hdu, noise):
    column, row, level = noise.within(1, 50), noise.within(1, 60), noise.within(0, 30_000)
    return [
        [f"rect {hdu} {column}:{column + 9},{row}:{row + 3}"],
        [f"write {hdu} {column}:{column + 3},{row}:{row} 1 2 3 {level}"],
        [f"fill {hdu} {column}:{column + 9},{row}:{row + 3} {level}", f"stat {hdu}"],
    ][hdu % 3]


# -- opened: files of many HDUs without data, opened and saved

# How many HDUs, and how many cards each has beside those that describe it.
CROWDS = [(5000, 24), (10_000, 0)]


def opened(noise):
    for hdus, cards in itertools.cycle(CROWDS):
        primary = header([PRIMARY, *shape(8, []), *details(cards, noise)])
        extensions = [header([EXTENSION, *extension_shape(8, []), *details(cards, noise)]) for _ in range(1, hdus)]
        yield Round({IN: b"".join([primary, *extensions]), SCRIPT: b"set 1 OBJECT 'M31'\n"}, [edit()])


def script(lines):
    return "".join(f"{line}\n" for line in lines).encode()


JOBS = {job.__name__: job for job in (folders, frames, kept, reshapes, tables, columns, asked, painted, opened)}


def rounds(name, count, seed):
    """So many rounds of a job."""
    return itertools.islice(JOBS[name](Noise(int(seed))), int(count))
