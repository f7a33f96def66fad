"""The codes of cards and headers."""
from fits import BLOCK_LEN, P0, header
from program import differences, shown

# The first cards of a primary header.
PRIMARY = "SIMPLE  =                    T|BITPIX  =                    8|NAXIS   =                    0|"

# The first cards of an image extension.
IMAGE = "XTENSION= 'IMAGE   '|BITPIX  =                    8|NAXIS   =                    0|"

# A parameter, and so a byte of data.
ONE_PARAMETER = "PCOUNT  =                    1"

# A card at place 4 of a primary header, and its codes.
ALONE = [
    ("COMMENT \x7f|END", "E01 4"),
    ("COMMENT ~|END", ""),
    ("COMMENT \x1f|END", "E01 4"),
    ("KEY     = 1 / \x7f|END", "E01 4"),
    ("key     = 1|END", "E02 4"),
    ("KEY-_9  = 1|END", ""),
    ("KEY 1   = 1|END", "E02 4"),
    (" |END", ""),
    ("KEY     = TRUE|END", "E03 4"),
    ("KEY     = T|END", ""),
    ("KEY     = 1e3|END", "E03 4"),
    ("KEY     = 'abc|END", "E03 4"),
    ("KEY     = TRUE\x7f|END", "E01 4"),
    ("KEY       TRUE|END", ""),
    ("KEY     =|END", "W04 4"),
    ("KEY     = / a comment|END", "W04 4"),
    ("KEY|END", ""),
    ("KEY     = ''|END", ""),
    ("OBJECT  = 5|END", "E05 4"),
    ("OBJECT  = '5'|END", ""),
    ("OBJECT  =|END", "W04 4"),
    ("BSCALE  = 1|END", ""),
    ("BSCALE  = 1.|END", ""),
    ("BSCALE  = T|END", "E05 4"),
    ("EXTVER  = 1.|END", "E05 4"),
    ("EXTVER  = 1|END", ""),
    ("EXTEND  = 'T'|END", "E05 4"),
    ("EQUINOX = (1,2)|END", "E05 4"),
    ("NAXIS5  = 'x'|END", "E05 4"),
    ("NAXIS999= 'x'|END", "E05 4"),
    ("NAXIS05 = 'x'|END", ""),
    ("NAXIS0  = 'x'|END", ""),
    ("NAXISA  = 'x'|END", ""),
    ("NAXIS   =                    0|END", "E07 4"),
    ("NAXIS|END", "E07 4"),
    ("CONTINUE  'x'|END", "W09 4"),
    ("KEY     = 'a&'|END", "W10 4"),
    ("KEY     = 'a&  '|END", "W10 4"),
    ("KEY     = 'a& b'|END", ""),
    ("CONTINUE  'b&'|END", "W09 4"),
    ("KEY     =1|END", "W11 4"),
    ("KEY     1= 1|END", ""),
    ("COMMENT =1|END", ""),
    ("HISTORY =1|END", ""),
    ("        =1|END", ""),
    ("CONTINUE=1|END", "W09 4 W11 4"),
    ("key     =1|END", "E02 4 W11 4"),
    ("DATE-OBS= 'x'|END", "E12 4"),
    ("DATE-END= 'x'|END", ""),
    ("DATE    = 5|END", "E05 4"),
    ("DATE      'x'|END", ""),
    ("EPOCH   = 2000.0|END", "W13 4"),
    ("EPOCH|END", ""),
    ("BLOCKED = T|END", "W13 4"),
    ("EPOCHS  = 1|END", ""),
    ("COMMENT|END", ""),
    ("XTENSION= 'IMAGE   '|END", "E18 0"),
    ("XTENSION|END", "E18 0"),
    ("SIMPLE  = T|END", "E07 4"),
]

# Cards from place 4 of a primary header on, and their codes with their places.
NEIGHBOURS = [
    ("PCOUNT  = 0|PCOUNT  = 0|END", "W08 5"),
    ("PCOUNT|PCOUNT  = 0|END", ""),
    ("NAXIS1  = 0|NAXIS1  = 0|END", "W08 5"),
    ("KEY     = 1|KEY     = 2|END", "W08 5"),
    ("KEY     = 1|KEY|END", ""),
    ("KEY|KEY     = 1|END", ""),
    ("KEY     = 1|KEY2    = 1|END", ""),
    ("COMMENT x|COMMENT x|HISTORY|HISTORY| | |END", ""),
    ("KEY     = 'a&'|CONTINUE  'b'|END", ""),
    ("KEY     = 'a'|CONTINUE  'b'|END", "W09 5"),
    ("KEY       'a&'|CONTINUE  'b'|END", "W09 5"),
    ("KEY     = 'a&'|COMMENT|CONTINUE  'b'|END", "W10 4 W09 6"),
    ("KEY     = 'a&'|CONTINUE= 'b'|END", "W10 4 W09 5"),
    ("KEY     = 'a&'|CONTINUE  5|END", "W10 4 W09 5"),
    ("KEY     = 'a&'|CONTINUE  'b&'|END", "W10 5"),
    ("KEY     = 'a&'|CONTINUE  'b&'|CONTINUE  'c'|END", ""),
    ("CONTINUE  'b&'|CONTINUE  'c'|END", "W09 4 W09 5"),
    ("DATE    = 'x&'|CONTINUE  'y'|END", "E12 4"),
    (
        "EPOCH   = 'a'|EPOCH   = 'a&'|END",
        "W13 4 W08 5 W10 5 W13 5",
    ),
    (
        "DATE    = 'x'|DATE    = 'x&'|END",
        "E12 4 W08 5 W10 5 E12 5",
    ),
]

# Cards from place 4 of an image extension on, and the codes.
EXTENSIONS = [
    ("PCOUNT  =                    0|GCOUNT  = 1|END", "E06 5"),
    (
        "PCOUNT  =                    0|GCOUNT  =                    1|PCOUNT  = 0|END",
        "E07 6",
    ),
    ("PCOUNT|GCOUNT  =                    1|END", ""),
    (
        "PCOUNT|GCOUNT  =                    1|PCOUNT  = 0|END",
        "E06 6 E07 6",
    ),
    (
        "PCOUNT  =                    0|GCOUNT  =                    1|END",
        "",
    ),
    (
        "GCOUNT  =                    1|PCOUNT  =                    0|END",
        "E16 0",
    ),
    ("PCOUNT  =                    0|END", "E16 0"),
    (
        "COMMENT|PCOUNT  =                    0|GCOUNT  =                    1|END",
        "E16 0",
    ),
    (
        "PCOUNT  =                    1|GCOUNT  =                    1|END",
        "E17 0",
    ),
    (
        "PCOUNT  =                    0|GCOUNT  =                    2|END",
        "E17 0",
    ),
    (
        "PCOUNT  =                    0|GCOUNT  =                    1|SIMPLE  = T|END",
        "E18 0",
    ),
    (
        "PCOUNT  =                    0|GCOUNT  =                    1|PCOUNT  = 'a&'|END",
        "E05 6 E07 6 W10 6",
    ),
]

# Whole headers, and their codes. Place 0 is the header as a whole.
HEADERS = [
    (
        "SIMPLE  = T|BITPIX  =                    8|NAXIS   =                    0|END",
        "E06 1",
    ),
    (
        "SIMPLE  =                    T|BITPIX  =                   8|NAXIS   =                    0|END",
        "E06 2",
    ),
    (
        "SIMPLE  =                    T|BITPIX  =                    8|NAXIS   =                     0|END",
        "E06 3",
    ),
    (
        "SIMPLE  =                    T|BITPIX  =                    8|NAXIS   =                    1|NAXIS1  = 0|END",
        "E06 4",
    ),
    (
        "SIMPLE  =                    T / file does conform to FITS standard|BITPIX  =                   +8|NAXIS   = 00000000000000000000|END",
        "",
    ),
    (
        "SIMPLE  =                    5|BITPIX  =                    8|NAXIS   =                    0|END",
        "E05 1 E06 1",
    ),
    (
        "XTENSION= 'IMAGE  '|BITPIX  =                    8|NAXIS   =                    0|PCOUNT  =                    0|GCOUNT  =                    1|END",
        "E06 1",
    ),
    (
        "XTENSION=  'IMAGE   '|BITPIX  =                    8|NAXIS   =                    0|PCOUNT  =                    0|GCOUNT  =                    1|END",
        "E06 1",
    ),
    (
        "XTENSION= 'AB''CD  '|BITPIX  =                    8|NAXIS   =                    0|PCOUNT  =                    0|GCOUNT  =                    1|END",
        "",
    ),
    (
        "XTENSION= 'IMAGE   ' / 'x'|BITPIX  =                    8|NAXIS   =                    0|PCOUNT  =                    0|GCOUNT  =                    1|END",
        "",
    ),
    (
        "SIMPLE  =                    T|BITPIX  =                    8|NAXIS   =                    1|NAXIS1  =                    0|NAXIS1  = 0|NAXIS2  = 0|NAXIS2  = 0|END",
        "E07 5 W08 7",
    ),
    (
        "SIMPLE  =                    T|BITPIX  =                    8|NAXIS   =                    0|END     x",
        "E14 0",
    ),
    (
        "SIMPLE  =                    T|BITPIX  =                    8|NAXIS   =                    0|END|x",
        "E15 0",
    ),
    (
        "SIMPLE  =                    T|BITPIX  =                    8|NAXIS   =                    0|END     x|x",
        "E14 0 E15 0",
    ),
    (
        "SIMPLE  =                    T\x7f|BITPIX  =                    8|NAXIS   =                    0|END",
        "E01 1 E06 1",
    ),
    (
        "XTENSION= 'BINTABLE'|BITPIX  =                    8|NAXIS   =                    0|PCOUNT  =                    1|GCOUNT  =                    2|END",
        "",
    ),
    (
        "SIMPLE  =                    F|BITPIX  =                    8|NAXIS   =                    0|END",
        "W19 0",
    ),
    (
        "SIMPLE|BITPIX  =                    8|NAXIS   =                    0|END",
        "E06 1",
    ),
    (
        "SIMPLE  =                    T|BITPIX  =                  -32|NAXIS   =                    0|BLANK   = 1|END",
        "E20 0",
    ),
    (
        "SIMPLE  =                    T|BITPIX  =                  -64|NAXIS   =                    0|BLANK|END",
        "",
    ),
    (
        "SIMPLE  =                    T|BITPIX  =                    8|NAXIS   =                    0|BLANK   = 256|END",
        "",
    ),
    (
        "SIMPLE  =                    T|BITPIX  =                    8|NAXIS   =                    1|NAXIS1  =                    0|BLANK   = 256|BLANK   = 1|END",
        "W21 0 W08 6",
    ),
    (
        "XTENSION= 'IMAGE   '|BITPIX  =                    8|NAXIS   =                    0|SIMPLE  =                    T|PCOUNT  =                    1|END     x|x",
        "E14 0 E15 0 E16 0 E17 0 E18 0",
    ),
]

# BITPIX, BLANK, and the codes of an array with an axis that has both.
BLANKS = [
    ("BITPIX  =                    8", "BLANK   = -1", "W21 0"),
    ("BITPIX  =                    8", "BLANK   = 0", ""),
    ("BITPIX  =                    8", "BLANK   = 255", ""),
    ("BITPIX  =                    8", "BLANK   = 256", "W21 0"),
    ("BITPIX  =                   16", "BLANK   = -32768", ""),
    (
        "BITPIX  =                   16",
        "BLANK   = -32769",
        "W21 0",
    ),
    ("BITPIX  =                   16", "BLANK   = 32767", ""),
    ("BITPIX  =                   16", "BLANK   = 32768", "W21 0"),
    (
        "BITPIX  =                   32",
        "BLANK   = -2147483648",
        "",
    ),
    (
        "BITPIX  =                   32",
        "BLANK   = 2147483648",
        "W21 0",
    ),
    (
        "BITPIX  =                   64",
        "BLANK   = -9223372036854775808",
        "",
    ),
    (
        "BITPIX  =                   64",
        "BLANK   = 9223372036854775808",
        "W21 0",
    ),
    ("BITPIX  =                    8", "BLANK   = 7.", "E05 5"),
]

# A text, and whether it is a date or isn't judged.
DATES = [
    ("2024-02-29T23:59:60.5", True),
    ("2024-02-30", False),
    ("29/02/00", False),
    ("28/02/00", True),
    ("1900-02-29", False),
    ("2000-02-29", True),
    ("0000-02-29", True),
    ("9999-12-31", True),
    ("2100-02-29", False),
    ("2023-02-29", False),
    ("31/12/99", True),
    ("31/11/99", False),
    ("2024-04-31", False),
    ("2024-13-01", False),
    ("2024-00-01", False),
    ("2024-01-00", False),
    ("2024-1-01", False),
    ("2024-01-01Z", False),
    (" 2024-01-01", False),
    ("2024-01-01T00:00", False),
    ("2024-01-01T00:00:00", True),
    ("2024-01-01T24:00:00", False),
    ("2024-01-01T23:60:00", False),
    ("2024-01-01T23:59:61", False),
    ("2024-01-01T00:00:00.", False),
    ("2024-01-01T00:00:00.5x", False),
    ("2024-01-01 00:00:00", False),
    ("x", False),
    ("", True),
    (" ", True),
    ("+12345-01-01", True),
    ("-0001-01-01", True),
]


def cases():
    for first, table in [(PRIMARY, ALONE + NEIGHBOURS), (IMAGE, EXTENSIONS), ("", HEADERS)]:
        for others, codes in table:
            yield others, coded, first, others, codes
    for bitpix, blank, codes in BLANKS:
        others = f"SIMPLE  =                    T|{bitpix}|NAXIS   =                    1|NAXIS1  =                    0|{blank}|END"
        yield others, coded, "", others, codes
    for date, is_right in DATES:
        others = f"DATE    = '{date}'|END"
        yield others, coded, PRIMARY, others, "" if is_right else "E12 4"


def coded(program, first, others, codes):
    """Where a header of these cards has other codes, or its file another status."""
    is_extension = (first or others).startswith("XTENSION")
    data = bytes(BLOCK_LEN) if ONE_PARAMETER in others else b""
    front = header(P0) if is_extension else b""
    texts = [first, others] if first else [others]
    ran = program.tell(["verify"], front + header(*texts) + data)
    yield from differences(ran, status=int("E" in codes), reported=b"")
    words = [line.split(" ") for line in ran.printed.decode().splitlines()]
    found = " ".join(f"{code} {place}" for code, _, place, *_ in words[:-1])
    if found != codes:
        yield f"codes: {shown(found)}, and not {shown(codes)}"
