"""New images and removed HDUs."""
from fits import BLOCK_LEN, P0, THREE_PIXELS, header, pixel_file
from pixel_edits import NONE
from program import closed, differences, edited

# New images, by the kind of their pixels.
NEW_U16 = (
    "XTENSION= 'IMAGE   '|BITPIX  =                   16|NAXIS   =                    1|"
    "NAXIS1  =                    3|PCOUNT  =                    0|GCOUNT  =                    1|"
    "BSCALE  =                    1|BZERO   =                32768|END"
)

NEW_U8 = (
    "XTENSION= 'IMAGE   '|BITPIX  =                    8|NAXIS   =                    1|"
    "NAXIS1  =                    2|PCOUNT  =                    0|GCOUNT  =                    1|END"
)

NEW_I8 = (
    "XTENSION= 'IMAGE   '|BITPIX  =                    8|NAXIS   =                    2|"
    "NAXIS1  =                    2|NAXIS2  =                    2|PCOUNT  =                    0|"
    "GCOUNT  =                    1|BSCALE  =                    1|BZERO   =                 -128|END"
)

NEW_I64 = (
    "XTENSION= 'IMAGE   '|BITPIX  =                   64|NAXIS   =                    1|"
    "NAXIS1  =                    1|PCOUNT  =                    0|GCOUNT  =                    1|END"
)

NEW_U32 = (
    "XTENSION= 'IMAGE   '|BITPIX  =                   32|NAXIS   =                    1|"
    "NAXIS1  =                    1|PCOUNT  =                    0|GCOUNT  =                    1|"
    "BSCALE  =                    1|BZERO   =           2147483648|END"
)

NEW_U64 = (
    "XTENSION= 'IMAGE   '|BITPIX  =                   64|NAXIS   =                    1|"
    "NAXIS1  =                    1|PCOUNT  =                    0|GCOUNT  =                    1|"
    "BSCALE  =                    1|BZERO   =  9223372036854775808|END"
)

NEW_I16 = (
    "XTENSION= 'IMAGE   '|BITPIX  =                   16|NAXIS   =                    3|"
    "NAXIS1  =   999999999999999999|NAXIS2  =                    0|NAXIS3  =   999999999999999999|"
    "PCOUNT  =                    0|GCOUNT  =                    1|END"
)

EMPTY_8 = (
    "XTENSION= 'IMAGE   '|BITPIX  =                    8|NAXIS   =                    0|"
    "PCOUNT  =                    0|GCOUNT  =                    1|END"
)

EMPTY_I8 = (
    "XTENSION= 'IMAGE   '|BITPIX  =                    8|NAXIS   =                    0|"
    "PCOUNT  =                    0|GCOUNT  =                    1|BSCALE  =                    1|"
    "BZERO   =                 -128|END"
)

EMPTY_I32 = (
    "XTENSION= 'IMAGE   '|BITPIX  =                   32|NAXIS   =                    0|"
    "PCOUNT  =                    0|GCOUNT  =                    1|END"
)

# A named image of one pixel of 16 bits.
NAMED = (
    "XTENSION= 'IMAGE   '|BITPIX  =                   16|NAXIS   =                    1|"
    "NAXIS1  =                    1|PCOUNT  =                    0|GCOUNT  =                    1|"
    "EXTNAME = 'SCI     '|END"
)

# A table of two rows of three characters.
TABLE = (
    "XTENSION= 'TABLE   '|BITPIX  =                    8|NAXIS   =                    2|"
    "NAXIS1  =                    3|NAXIS2  =                    2|PCOUNT  =                    0|"
    "GCOUNT  =                    1|TFIELDS =                    0|END"
)

PUT_IN = [
    # each pixel is zero bytes, so that its value is the offset
    (
        ([(P0, NONE)], ""),
        "new 2 u16 3\noff\nstat 2\nrect 2 1:3\nget 2 BZERO\npos 2 GCOUNT\nsum 2\nrep",
        "1 0 2880 2880\n2 2880 5760 8640\ndefined 3 blank 0 min 32768 max 32768 sum 98304\n"
        "32768 32768 32768\ninteger 32768\n6\ndatasum 0 verdicts 0 0\nerrors 0 warnings 0\n",
        0,
        ([(P0, NONE), (NEW_U16, (2, [0, 0, 0], 0))], ""),
    ),
    (
        ([(P0, NONE)], ""),
        "new 2 u16 3\nwrite 2 1:3 0 65535 1\nstat 2\nrect 2 1:3\nsum 2\nwrite 2 1:3 0 1\nrm 1\nrect 2 1:3",
        "defined 3 blank 0 min 0 max 65535 sum 65536\n0 65535 1\ndatasum 98304 verdicts 0 0\n"
        "line 6: refused 11 WrongCount\nline 7: refused 13 PrimaryStays\n0 65535 1\n",
        1,
        (
            [(P0, NONE), (NEW_U16, (2, [-32768, 32767, -32767], 0))],
            "",
        ),
    ),
    # one past the last, and no further
    (
        ([(P0, NONE)], ""),
        "new 2 u16 3\nnew 4 u8 -\nnew 1 u8 -\nnew 0 u8 -\nnew 3 u8 -\noff\nrm 4\nrm 0\nrm 1",
        "line 2: refused 1 NoHdu\nline 3: refused 13 PrimaryStays\nline 4: refused 1 NoHdu\n"
        "1 0 2880 2880\n2 2880 5760 8640\n3 8640 11520 11520\n"
        "line 7: refused 1 NoHdu\nline 8: refused 1 NoHdu\nline 9: refused 13 PrimaryStays\n",
        1,
        (
            [(P0, NONE), (NEW_U16, (2, [0, 0, 0], 0)), (EMPTY_8, NONE)],
            "",
        ),
    ),
    # each kind, its cards and what its pixels say
    (
        ([(P0, NONE)], ""),
        "new 2 u8 2\nnew 3 i8 2,2\nnew 4 i16 999999999999999999,0,999999999999999999\nnew 5 i32 -\nnew 6 u32 1\nnew 7 i64 1\nnew 8 u64 1\n"
        "stat 2\nstat 3\nstat 4\nstat 5\nstat 6\nstat 7\nstat 8\nrep",
        "defined 2 blank 0 min 0 max 0 sum 0\ndefined 4 blank 0 min -128 max -128 sum -512\n"
        "defined 0 blank 0 min - max - sum 0\nline 11: refused 9 NotImage\n"
        "defined 1 blank 0 min 2147483648 max 2147483648 sum 2147483648\ndefined 1 blank 0 min 0 max 0 sum 0\n"
        "defined 1 blank 0 min 9223372036854775808 max 9223372036854775808 sum 9223372036854775808\n"
        "errors 0 warnings 0\n",
        1,
        (
            [
                (P0, NONE),
                (NEW_U8, (1, [0, 0], 0)),
                (NEW_I8, (1, [0, 0, 0, 0], 0)),
                (NEW_I16, NONE),
                (EMPTY_I32, NONE),
                (NEW_U32, (4, [0], 0)),
                (NEW_I64, (8, [0], 0)),
                (NEW_U64, (8, [0], 0)),
            ],
            "",
        ),
    ),
    # what comes after moves up, with its pixels and its cards
    (
        ([(P0, NONE), (NAMED, (2, [7], 0))], ""),
        "new 2 u8 -\nfill 3 1:1 9\nstat 3\nget 3 EXTNAME\nget 2 EXTNAME\nsum 3\nnew 4 u8 2\nrm 2\nfill 2 1:1 -1\nstat 2\nsum 2\noff",
        "defined 1 blank 0 min 9 max 9 sum 9\nstring 'SCI'\nline 5: refused 3 NoKey\ndatasum 589824 verdicts 0 0\n"
        "defined 1 blank 0 min -1 max -1 sum -1\ndatasum 4294901760 verdicts 0 0\n"
        "1 0 2880 2880\n2 2880 5760 8640\n3 8640 11520 14400\n",
        1,
        (
            [
                (P0, NONE),
                (NAMED, (2, [-1], 0)),
                (NEW_U8, (1, [0, 0], 0)),
            ],
            "",
        ),
    ),
    # a primary array and a table stay as they are
    (
        (
            [
                (THREE_PIXELS, (2, [1, 2, 3], 0)),
                (TABLE, (1, [65, 66, 67, 68, 69, 70], 32)),
            ],
            "",
        ),
        "new 2 u8 2\nrect 1 1:3\nsum 3\nset 3 EXTNAME 'T'\noff",
        "1 2 3\ndatasum 2257077092 verdicts 0 0\n1 0 2880 5760\n2 5760 8640 11520\n3 11520 14400 17280\n",
        0,
        (
            [
                (THREE_PIXELS, (2, [1, 2, 3], 0)),
                (NEW_U8, (1, [0, 0], 0)),
                (
                    "XTENSION= 'TABLE   '|BITPIX  =                    8|NAXIS   =                    2|"
                    "NAXIS1  =                    3|NAXIS2  =                    2|PCOUNT  =                    0|"
                    "GCOUNT  =                    1|TFIELDS =                    0|EXTNAME = 'T       '|END",
                    (1, [65, 66, 67, 68, 69, 70], 32),
                ),
            ],
            "",
        ),
    ),
    # the new header takes cards as any other, and its fill is made of spaces
    (
        ([(P0, NONE)], ""),
        "new 2 u8 2\nins 2 7 EXTNAME = 'A'\nset 2 BLANK 0\nstat 2\ndel 2 4\nput 2 5 PCOUNT  = 1\nset 2 BZERO -128\nstat 2\nunset 2 BLANK\nunset 2 BZERO\nrep",
        "defined 0 blank 2 min - max - sum 0\nline 5: refused 6 Shape\nline 6: refused 6 Shape\n"
        "defined 0 blank 2 min - max - sum 0\nerrors 0 warnings 0\n",
        1,
        (
            [
                (P0, NONE),
                (
                    "XTENSION= 'IMAGE   '|BITPIX  =                    8|NAXIS   =                    1|"
                    "NAXIS1  =                    2|PCOUNT  =                    0|GCOUNT  =                    1|EXTNAME = 'A'|END",
                    (1, [0, 0], 0),
                ),
            ],
            "",
        ),
    ),
]

TAKEN_OUT = [
    # the bytes after the last HDU stay last
    (
        ([(P0, NONE), (NAMED, (2, [7], 0))], "trailer"),
        "new 3 u8 2\nrm 2\noff\nrep\nnew 2 i8 -\noff\nrep",
        "1 0 2880 2880\n2 2880 5760 8640\nW26 3 0 bytes after the last HDU\nerrors 0 warnings 1\n"
        "1 0 2880 2880\n2 2880 5760 5760\n3 5760 8640 11520\nW26 4 0 bytes after the last HDU\nerrors 0 warnings 1\n",
        0,
        (
            [(P0, NONE), (EMPTY_I8, NONE), (NEW_U8, (1, [0, 0], 0))],
            "trailer",
        ),
    ),
    # also where it is the only extension, and where they begin as an extension would
    (
        ([(P0, NONE), (NAMED, (2, [7], 0))], "XTENSIO"),
        "rm 2\noff\nrm 2\nnew 3 u8 -\nget 2 EXTNAME\nstat 2\nfill 2 1:1 0\nsum 2\nstamp 2\npos 2 EXTNAME\nset 2 EXTNAME 'A'\nrep",
        "1 0 2880 2880\nline 3: refused 1 NoHdu\nline 4: refused 1 NoHdu\nline 5: refused 1 NoHdu\n"
        "line 6: refused 1 NoHdu\nline 7: refused 1 NoHdu\nline 8: refused 1 NoHdu\nline 9: refused 1 NoHdu\n"
        "line 10: refused 1 NoHdu\nline 11: refused 1 NoHdu\n"
        "W26 2 0 bytes after the last HDU\nerrors 0 warnings 1\n",
        1,
        ([(P0, NONE)], "XTENSIO"),
    ),
    # any extension goes, and those after it move down
    (
        (
            [
                (P0, NONE),
                (TABLE, (1, [65, 66, 67, 68, 69, 70], 32)),
                (NAMED, (2, [7], 0)),
                (NEW_U8, (1, [3, 4], 0)),
            ],
            "",
        ),
        "rm 2\nrect 2 1:1\nrect 3 1:2\nrm 3\nrm 3\noff\nrm 2\noff",
        "7\n3 4\nline 5: refused 1 NoHdu\n1 0 2880 2880\n2 2880 5760 8640\n1 0 2880 2880\n",
        1,
        ([(P0, NONE)], ""),
    ),
    # what was wrong with it is no longer reported, and what is wrong with the others goes with them
    (
        (
            [(P0, NONE), (NEW_U8, (1, [3, 4], 1)), (NAMED, (2, [7], 2))],
            "",
        ),
        "set 3 DATASUM '1'\nrep\nrm 2\nrep\nnew 2 u8 2\nnew 2 u8 2\nrep\nrm 4\nrep\nrm 2\nrm 2",
        "E22 2 0 bad data fill\nE22 3 0 bad data fill\nW23 3 0 DATASUM is wrong\nerrors 2 warnings 1\n"
        "E22 2 0 bad data fill\nW23 2 0 DATASUM is wrong\nerrors 1 warnings 1\n"
        "E22 4 0 bad data fill\nW23 4 0 DATASUM is wrong\nerrors 1 warnings 1\nerrors 0 warnings 0\n",
        0,
        ([(P0, NONE)], ""),
    ),
    # an HDU that is put in and taken out leaves the file as it was, the fill of its headers too
    (
        (
            [
                (
                    "SIMPLE  =                    T|BITPIX  =                    8|NAXIS   =                    0|END|fill",
                    NONE,
                ),
                (NAMED, (2, [7], 0)),
            ],
            "x",
        ),
        "new 2 u64 3,3\nstamp 2\nfill 2 1:3,1:3 18446744073709551615\nrm 2",
        "",
        0,
        (
            [
                (
                    "SIMPLE  =                    T|BITPIX  =                    8|NAXIS   =                    0|END|fill",
                    NONE,
                ),
                (NAMED, (2, [7], 0)),
            ],
            "x",
        ),
    ),
]

# A line over the shortest file that is refused, by the first test that fails.
REFUSED = [
    ("new 3 u8 -", "line 1: refused 1 NoHdu\n"),
    ("new 0 u8 999999999999999999", "line 1: refused 1 NoHdu\n"),
    ("new 999999999999999999 u8 -", "line 1: refused 1 NoHdu\n"),
    (
        "new 1 u8 999999999999999999",
        "line 1: refused 13 PrimaryStays\n",
    ),
    # 11,520,000,000 bytes less the shortest file and a header is the most
    ("new 2 u8 11519994241", "line 1: refused 14 TooLarge\n"),
    ("new 2 u16 5759997121", "line 1: refused 14 TooLarge\n"),
    ("new 2 u8 107332,107332", "line 1: refused 14 TooLarge\n"),
    ("new 2 i64 1439999281", "line 1: refused 14 TooLarge\n"),
    (
        "new 2 u8 999999999999999999",
        "line 1: refused 14 TooLarge\n",
    ),
    # products of 2^63, 2^64, and more
    (
        "new 2 u8 4294967296,2147483648",
        "line 1: refused 14 TooLarge\n",
    ),
    (
        "new 2 u8 4294967296,4294967296",
        "line 1: refused 14 TooLarge\n",
    ),
    ("new 2 u64 2305843009213693952", "line 1: not a command\n"),
    (
        "new 2 u64 576460752303423488,4",
        "line 1: refused 14 TooLarge\n",
    ),
    (
        "new 2 u64 576460752303423488,8",
        "line 1: refused 14 TooLarge\n",
    ),
    (
        "new 2 i32 999999999999999999,999999999999999999,999999999999999999",
        "line 1: refused 14 TooLarge\n",
    ),
    ("new 2 u8 9223372036854775807", "line 1: not a command\n"),
    ("new 2 u8 9223372036854775808", "line 1: not a command\n"),
    ("rm 2", "line 1: refused 1 NoHdu\n"),
    ("rm 0", "line 1: refused 1 NoHdu\n"),
    ("rm 999999999999999999", "line 1: refused 1 NoHdu\n"),
    ("rm 1", "line 1: refused 13 PrimaryStays\n"),
]

# A new image at a place, a first axis, another so many times, and what is printed with the offsets.
MANY_AXES = [
    # 999 axes: 1004 cards and END, in 28 blocks
    ("2 u8 1", ",1", 998, "1 0 2880 2880\n2 2880 83520 86400\n"),
    ("2 i64 0", ",0", 998, "1 0 2880 2880\n2 2880 83520 83520\n"),
    (
        "2 u8 0",
        ",999999999999999999",
        998,
        "1 0 2880 2880\n2 2880 83520 83520\n",
    ),
    (
        "2 u8 1",
        ",999999999999999999",
        998,
        "line 1: refused 14 TooLarge\n1 0 2880 2880\n",
    ),
    # 1,000 axes
    (
        "2 u8 1",
        ",1",
        999,
        "line 1: refused 6 Shape\n1 0 2880 2880\n",
    ),
    (
        "2 u8 0",
        ",999999999999999999",
        999,
        "line 1: refused 6 Shape\n1 0 2880 2880\n",
    ),
    (
        "1 u8 1",
        ",1",
        999,
        "line 1: refused 13 PrimaryStays\n1 0 2880 2880\n",
    ),
    (
        "0 u8 1",
        ",1",
        999,
        "line 1: refused 1 NoHdu\n1 0 2880 2880\n",
    ),
    (
        "3 u8 1",
        ",1",
        999,
        "line 1: refused 1 NoHdu\n1 0 2880 2880\n",
    ),
]

# An image of 12,000,000 bytes, in 4,167 blocks: what is printed of it, and its header.
LARGE = (
    "new 2 u8 12000000\noff\nstat 2\nsum 2\nrep",
    "1 0 2880 2880\n2 2880 5760 12006720\ndefined 12000000 blank 0 min 0 max 0 sum 0\n"
    "datasum 0 verdicts 0 0\nerrors 0 warnings 0\n",
    "XTENSION= 'IMAGE   '|BITPIX  =                    8|NAXIS   =                    1|"
    "NAXIS1  =             12000000|PCOUNT  =                    0|GCOUNT  =                    1|END",
)

# Lines over a file of 9,999 HDUs, one after another: why each is refused, if it is, and how many HDUs there are then.
MANY_HDUS = [
    ("new 10001 u8 -", "1 NoHdu", 9_999),
    ("new 10000 u8 -", "", 10_000),
    ("new 10001 u8 -", "14 TooLarge", 10_000),
    ("new 2 u8 -", "14 TooLarge", 10_000),
    ("new 10002 u8 -", "1 NoHdu", 10_000),
    ("new 1 u8 -", "13 PrimaryStays", 10_000),
    ("rm 10001", "1 NoHdu", 10_000),
    ("rm 2", "", 9_999),
    ("new 2 u8 -", "", 10_000),
    ("new 2 u8 -", "14 TooLarge", 10_000),
    ("rm 10000", "", 9_999),
]


def cases():
    for before, script, answers, status, after in PUT_IN + TAKEN_OUT:
        yield script, edited, pixel_file(before), script, answers, status, pixel_file(after)
    for first, more, times, answers in MANY_AXES:
        yield f"new {first}, and {times} times {more}", many_axes, f"new {first}{more * times}", answers
    script, answers, cards = LARGE
    saved = header(P0) + header(cards) + bytes(4_167 * BLOCK_LEN)
    yield "an image of 12,000,000 bytes", edited, header(P0), script, answers, 0, saved
    script = "".join(f"{line}\noff\n" for line, _, _ in MANY_HDUS)
    answers = "".join(
        (f"line {2 * place + 1}: refused {why}\n" if why else "") + offsets(hdus)
        for place, (_, why, hdus) in enumerate(MANY_HDUS)
    )
    yield "10,000 HDUs", edited, many_hdus(9_999), script, answers, 1, many_hdus(9_999)
    yield "10,001 HDUs", closed, many_hdus(10_001), "O5 TooLarge"


def many_hdus(count):
    """The shortest file, with image extensions that have no data."""
    return header(P0) + header(EMPTY_8) * (count - 1)


def offsets(hdus):
    """What `off` answers where each HDU is one block."""
    return "".join(f"{k + 1} {k * BLOCK_LEN} {(k + 1) * BLOCK_LEN} {(k + 1) * BLOCK_LEN}\n" for k in range(hdus))


def many_axes(program, line, answers):
    """Where a new image of many axes isn't answered so, or what is saved has other offsets."""
    ran = program.edit(header(P0), f"{line}\noff".encode("latin-1"))
    refused = int(answers.startswith("line 1: refused"))
    yield from differences(ran, status=refused, printed=answers.encode("latin-1"), reported=b"")
    again = program.edit(ran.saved, b"off").printed
    if not ran.printed.endswith(again):
        yield f"what is saved has other offsets: {again}"
