"""Sums of files as they pass by, and as they were stamped."""
from fits import P0, PIXEL, THREE_PIXELS, file
from program import differences, told

# The shortest header with its stamp, as a stamped file has it.
STAMPED = (
    "SIMPLE  =                    T|BITPIX  =                    8|"
    "NAXIS   =                    0|CHECKSUM= 'BpFiDoFgBoFgBoFg'|DATASUM = '0       '|END"
)

# The same after a card was added.
CHANGED = (
    "SIMPLE  =                    T|BITPIX  =                    8|"
    "NAXIS   =                    0|CHECKSUM= 'BpFiDoFgBoFgBoFg'|DATASUM = '0       '|"
    "COMMENT later|END"
)

# Three pixels whose DATASUM is that of other data.
WRONG_SUM = (
    "SIMPLE  =                    T|BITPIX  =                   16|"
    "NAXIS   =                    1|NAXIS1  =                    3|DATASUM = '1       '|END"
)

# What says nothing, and what is no sum.
NOTHING = (
    "XTENSION= 'IMAGE   '|BITPIX  =                    8|NAXIS   =                    0|"
    "PCOUNT  =                    0|GCOUNT  =                    1|DATASUM =|CHECKSUM= '        '|END"
)

NO_SUM = (
    "XTENSION= 'IMAGE   '|BITPIX  =                    8|NAXIS   =                    0|"
    "PCOUNT  =                    0|GCOUNT  =                    1|DATASUM =                    0|"
    "CHECKSUM= 'x       '|END"
)

# A file of two HDUs and a tail, and its sums. The words of its data block sum to 1867394316.
SUMMED = ([(STAMPED, 0), (PIXEL, 1)], "trailer")

SUMS = "1 0 1 1\n2 1867394316 0 0\n"

# A file, and its sums.
FILES = [
    (([(P0, 0)], ""), "1 0 0 0\n"),
    (([(P0, 0)], "bytes after it"), "1 0 0 0\n"),
    (([(STAMPED, 0)], ""), "1 0 1 1\n"),
    (([(CHANGED, 0)], ""), "1 0 1 -1\n"),
    (([(WRONG_SUM, 1)], ""), "1 1867394316 -1 0\n"),
    (
        ([(THREE_PIXELS, 1), (PIXEL, 1)], ""),
        "1 1867394316 0 0\n2 1867394316 0 0\n",
    ),
    (SUMMED, SUMS),
    (
        ([(P0, 0), (NOTHING, 0), (NO_SUM, 0)], ""),
        "1 0 0 0\n2 0 0 0\n3 0 -1 -1\n",
    ),
    # two blocks of data, and the value after an array of none
    (
        (
            [
                (P0, 0),
                (
                    "XTENSION= 'IMAGE'|BITPIX  = -32|NAXIS   = 1|NAXIS1  = 721|END",
                    2,
                ),
                (
                    "XTENSION= 'OTHER'|BITPIX  = 8|NAXIS   = 0|PCOUNT  = 5|END",
                    1,
                ),
            ],
            "",
        ),
        "1 0 0 0\n2 3734788632 0 0\n3 1867394316 0 0\n",
    ),
]

# A file, a script, and the sums of what it saves.
SAVED = [
    (([(P0, 0)], ""), "stamp 1", "1 0 1 1\n"),
    (
        ([(THREE_PIXELS, 1), (PIXEL, 1)], "tail"),
        "stamp 1\nstamp 2",
        "1 1867394316 1 1\n2 1867394316 1 1\n",
    ),
    (
        ([(P0, 0)], ""),
        "new 2 u16 3\nwrite 2 1:3 0 65535 1\nstamp 2\nstamp 1\nset 1 OBJECT 'M31'",
        "1 0 1 -1\n2 98304 1 1\n",
    ),
    (
        ([(P0, 0), (PIXEL, 1)], ""),
        "stamp 2\nnew 2 i8 2\nstamp 2\nfill 2 1:2 127\nrm 3\nnew 2 u8 -",
        "1 0 0 0\n2 0 0 0\n3 4294901760 -1 -1\n",
    ),
]


def cases():
    for text, lines in FILES:
        yield lines, told, ["sum"], file(text), lines
    for before, script, lines in SAVED:
        yield script, summed, file(before), script, lines


def summed(program, before, script, lines):
    """Where what a script saves has other sums."""
    ran = program.edit(before, script.encode("latin-1"))
    yield from differences(ran, status=0, reported=b"")
    yield from told(program, ["sum"], ran.saved, lines)
