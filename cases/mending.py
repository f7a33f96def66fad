"""What is found, and lines that mend it, as docs/RULES.md has them by code: the reports before and after."""
from fits import P0, file, pixel_file, zeros
from program import differences

PRIMARY = "SIMPLE  =                    T|BITPIX  =                    8|NAXIS   =                    0|"
IMAGE = "XTENSION= 'IMAGE   '|BITPIX  =                    8|NAXIS   =                    0|"
COUNTS = "PCOUNT  =                    0|GCOUNT  =                    1|"
NAMED = f"{IMAGE}{COUNTS}EXTNAME = 'A'|END"
BYTE = "SIMPLE  =                    T|BITPIX  =                    8|NAXIS   =                    1|NAXIS1  =                    1|"

# Further cards of a primary header; what is found, and lines after which nothing is.
OF_CARDS = [
    ("COMMENT \x7f", "E01 1 4", "put 1 4 COMMENT"),
    ("KEY 1   = 1", "E02 1 4", "put 1 4 KEY1    = 1"),
    ("KEY     = TRUE", "E03 1 4", "set 1 KEY T"),
    ("KEY     = / a comment", "W04 1 4", "set 1 KEY 1 / a comment"),
    ("OBJECT  = 5", "E05 1 4", "set 1 OBJECT '5'"),
    ("NAXIS   =                    0", "E07 1 4", "del 1 4"),
    ("KEY     = 1|KEY     = 2", "W08 1 5", "del 1 5"),
    ("CONTINUE  'b'", "W09 1 4", "put 1 4 COMMENT b"),
    ("KEY     = 'a&'", "W10 1 4", "set 1 KEY 'a'"),
    ("KEY     =1", "W11 1 4", "put 1 4 KEY     = 1"),
    ("DATE    = '2024-02-30'", "E12 1 4", "set 1 DATE '2024-02-29'"),
    ("EPOCH   = 2000.0", "W13 1 4", "unset 1 EPOCH\nset 1 EQUINOX 2000.0"),
    ("XTENSION= 'IMAGE'", "E18 1 0", "del 1 4"),
    ("DATASUM = '1'", "W23 1 0", "stamp 1"),
    ("CHECKSUM= 'x'", "W24 1 0", "keep 1"),
]

# The same of the cards of a second HDU.
OF_AN_EXTENSION = [
    ("XTENSION= 'IMAGE'|BITPIX  = 8|NAXIS   = 0|" + COUNTS + "END", "E06 2 1, E06 2 2, E06 2 3", "set 2 XTENSION 'IMAGE'\nset 2 BITPIX 8\nset 2 NAXIS 0"),
    (IMAGE + "GCOUNT  =                    1|PCOUNT  =                    0|END", "E16 2 0", "mov 2 5 4"),
    (IMAGE.replace("   8|", " -32|") + COUNTS + "BLANK   = 1|END", "E20 2 0", "unset 2 BLANK"),
]

# Files; what is found, and lines after which nothing is.
FILES = [
    (file(([(P0.replace("T|", "F|"), 0)], "")), "W19 1 0", "set 1 SIMPLE T"),
    (file(([(P0, 0)], ""))[:-1] + b"x", "E15 1 0", "set 1 KEY 1\nunset 1 KEY"),
    (pixel_file(([(f"{BYTE}BLANK   = -1|END", (1, [0], 0))], "")), "W21 1 0", "set 1 BLANK 255"),
    (file(([(P0, 0), (NAMED, 0), (NAMED, 0)], "")), "W25 2 0, W25 3 0", "set 3 EXTVER 2"),
]

# Files of which no line mends what is found; lines that try.
STAYS = [
    (file(([(P0, 0), (f"{IMAGE}{COUNTS}END     x", 0)], "")), "E14 2 0", "set 2 KEY 1\nstamp 2"),
    (file(([(P0, 0), (f"{IMAGE}{COUNTS.replace('0|', '1|')}END", 1)], ""), zeros), "E17 2 0", "stamp 2"),
    (pixel_file(([(f"{BYTE}END", (1, [0], 1))], "")), "E22 1 0", "fill 1 1:1 0\nstamp 1"),
    (file(([(P0, 0)], "x")), "W26 2 0", "stamp 1"),
]


def cases():
    for cards, found, script in OF_CARDS:
        yield found, reports, file(([(f"{PRIMARY}{cards}|END", 0)], "")), found, script, ""
    for cards, found, script in OF_AN_EXTENSION:
        yield found, reports, file(([(P0, 0), (cards, 0)], "")), found, script, ""
    for before, found, script in FILES:
        yield found, reports, before, found, script, ""
    for before, found, script in STAYS:
        yield found, reports, before, found, script, found


def reports(program, before, found, script, left):
    """Where a file hasn't this found of it before a script, or other than is left after it."""
    for lines, wanted in (("", found), (script, left)):
        ran = program.edit(before, f"{lines}\nrep".encode("latin-1"))
        listed = ", ".join(" ".join(line.split()[:3]) for line in ran.printed.decode().splitlines()[:-1])
        if listed != wanted:
            yield f"after {lines!r} {listed!r} and not {wanted!r}"
        yield from differences(ran, status=0, reported=b"")
