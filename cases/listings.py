"""Files as they are listed."""
from fits import MANDATORY, P0, PIXEL, file
from program import told

# Thirty-four quotes, as a string has them.
QUOTES = "'" * 68

# A file, and its listing.
LISTINGS = [
    (
        ([(P0, 0)], ""),
        "hdu 1 PRIMARY bitpix 8 axes - cards 3 at 0 2880 2880\n",
    ),
    (
        (
            [(
                "SIMPLE|BITPIX  = 16|NAXIS   = 2|NAXIS1  = 0|NAXIS2  = 3|GROUPS  = T|PCOUNT  = 1|GCOUNT  = 2|END",
                1,
            )],
            "",
        ),
        "hdu 1 GROUPS bitpix 16 axes 0x3 cards 8 at 0 2880 5760\n",
    ),
    (
        (
            [
                (P0, 0),
                (PIXEL, 1),
                # 3 rows of 20 characters
                (
                    "XTENSION= 'TABLE   '|BITPIX  = 8|NAXIS   = 2|NAXIS1  = 20|NAXIS2  = 3|PCOUNT  = 0|GCOUNT  = 1|END",
                    1,
                ),
                # no axes, and five bytes after them
                (
                    "XTENSION= 'A3DTABLE'|BITPIX  = 8|NAXIS   = 0|PCOUNT  = 5|GCOUNT  = 1|END",
                    1,
                ),
                # 40 x 40 x 1 floating-point numbers: 6400 bytes
                (
                    "XTENSION= 'IMAGE   '|BITPIX  = -32|NAXIS   = 3|NAXIS1  = 40|NAXIS2  = 40|NAXIS3  = 1|"
                    "PCOUNT  = 0|GCOUNT  = 1|COMMENT one more card|END",
                    3,
                ),
            ],
            "a tail",
        ),
        "hdu 1 PRIMARY bitpix 8 axes - cards 3 at 0 2880 2880\n"
        "hdu 2 IMAGE bitpix 16 axes 1 cards 6 at 2880 5760 8640\n"
        "hdu 3 TABLE bitpix 8 axes 20x3 cards 7 at 8640 11520 14400\n"
        "hdu 4 OTHER bitpix 8 axes - cards 5 at 14400 17280 20160\n"
        "hdu 5 IMAGE bitpix -32 axes 40x40x1 cards 9 at 20160 23040 31680\n",
    ),
]


# A file of which HDUs say what they are called, and its long listing.
LONG = [
    (([(P0, 0)], ""), "hdu 1 PRIMARY bitpix 8 axes - cards 3 at 0 2880 2880\n"),
    # of the primary HDU the name alone
    (
        ([(f"{MANDATORY}|EXTNAME = 'FIRST   '|EXTVER  = 2|END", 0), (PIXEL, 1)], "a tail"),
        "hdu 1 PRIMARY bitpix 8 axes - cards 5 name 'FIRST' at 0 2880 2880\n"
        "hdu 2 IMAGE bitpix 16 axes 1 cards 6 type 'IMAGE' at 2880 5760 8640\n",
    ),
    # types, and quotes
    (
        (
            [
                (P0, 0),
                (
                    "XTENSION= 'BINTABLE'|BITPIX  = 8|NAXIS   = 2|NAXIS1  = 8|NAXIS2  = 1|PCOUNT  = 0|GCOUNT  = 1|"
                    "TFIELDS = 1|TFORM1  = 'D'|EXTNAME = 'EVENTS'|EXTVER  = 3|END",
                    1,
                ),
                ("XTENSION= 'it''s'|BITPIX  = 8|NAXIS   = 0|PCOUNT  = 0|GCOUNT  = 1|EXTNAME = 'a''b'''|END", 0),
            ],
            "",
        ),
        "hdu 1 PRIMARY bitpix 8 axes - cards 3 at 0 2880 2880\n"
        "hdu 2 OTHER bitpix 8 axes 8x1 cards 11 type 'BINTABLE' name 'EVENTS' ver 3 at 2880 5760 8640\n"
        "hdu 3 OTHER bitpix 8 axes - cards 6 type 'it''s' name 'a''b''' at 8640 11520 11520\n",
    ),
]

# The mandatory cards of an extension.
EXTENSION = "XTENSION= 'IMAGE   '|BITPIX  = 8|NAXIS   = 0|PCOUNT  = 0|GCOUNT  = 1"

# The other cards of that extension, and what its long line says of its name and version.
CALLED = [
    (["EXTNAME = 'SCI'", "EXTVER  = 2"], " name 'SCI' ver 2"),
    (["EXTNAME = 'SCI'"], " name 'SCI'"),
    (["EXTVER  =                    1"], " ver 1"),
    (["EXTVER  = -7 / a version", "EXTNAME = ' A  B  '"], " name ' A  B' ver -7"),
    (["EXTVER  = +007"], " ver 7"),
    (["EXTVER  = 9223372036854775807"], " ver 9223372036854775807"),
    # no version, and no name
    (["EXTVER  = 9223372036854775808"], ""),
    (["EXTVER  = '2       '"], ""),
    (["EXTVER  = 2.5"], ""),
    (["EXTVER  ="], ""),
    (["EXTNAME = ''"], ""),
    (["EXTNAME = '   '"], ""),
    (["EXTNAME ="], ""),
    (["EXTNAME = 5"], ""),
    (["EXTNAME = T"], ""),
    (["EXTNAME = 'A"], ""),
    (["extname = 'A'"], ""),
    # the first card of a name that has a value counts, alone
    (["EXTNAME", "EXTNAME = 'B'", "EXTNAME = 'C'", "EXTVER  = 4", "EXTVER  = 5"], " name 'B' ver 4"),
    (["EXTNAME = 5", "EXTNAME = 'B'"], ""),
    (["EXTNAME = 'A&'", "CONTINUE  'B'"], " name 'A&'"),
    # of 68 characters, and of 34 quotes
    ([f"EXTNAME = '{'n' * 68}'"], f" name '{'n' * 68}'"),
    ([f"EXTNAME = '{QUOTES}'"], f" name '{QUOTES}'"),
]

# Fifty extensions after a primary header.
FIFTY = ([(P0, 0)] + [(PIXEL, 1)] * 50, "")
FIFTY_LINES = "hdu 1 PRIMARY bitpix 8 axes - cards 3 at 0 2880 2880\n" + "".join(
    f"hdu {hdu} IMAGE bitpix 16 axes 1 cards 6 at {at} {at + 2880} {at + 5760}\n"
    for hdu, at in zip(range(2, 52), range(2880, 290880, 5760))
)


def cases():
    for text, lines in [*LISTINGS, (FIFTY, FIFTY_LINES)]:
        yield lines, told, ["list"], file(text), lines
    for text, lines in LONG:
        yield lines, told, ["list", "-l"], file(text), lines
    for others, words in CALLED:
        text = ([(P0, 0), ("|".join([EXTENSION, *others, "END"]), 0)], "")
        line = f"hdu 2 IMAGE bitpix 8 axes - cards {5 + len(others)} type 'IMAGE'{words} at 2880 5760 5760\n"
        yield line, told, ["list", "--long"], file(text), f"hdu 1 PRIMARY bitpix 8 axes - cards 3 at 0 2880 2880\n{line}"
