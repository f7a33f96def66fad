"""Pixels: statistics, rectangles and sums under edits."""
from fits import P0, PIXEL, THREE_PIXELS, file, header, pixels, zeros
from program import differences, edited

# No pixels.
NONE = (1, [], 0)

# A primary array of one axis of so many pixels.
ONE_8 = (
    "SIMPLE  =                    T|BITPIX  =                    8|"
    "NAXIS   =                    1|NAXIS1  =                    1|END"
)

FOUR_8 = (
    "SIMPLE  =                    T|BITPIX  =                    8|"
    "NAXIS   =                    2|NAXIS1  =                    2|NAXIS2  =                    2|END"
)

ONE_16 = (
    "SIMPLE  =                    T|BITPIX  =                   16|"
    "NAXIS   =                    1|NAXIS1  =                    1|END"
)

TWO_8 = (
    "SIMPLE  =                    T|BITPIX  =                    8|"
    "NAXIS   =                    1|NAXIS1  =                    2|END"
)

TWO_16 = (
    "SIMPLE  =                    T|BITPIX  =                   16|"
    "NAXIS   =                    1|NAXIS1  =                    2|END"
)

TWO_32 = (
    "SIMPLE  =                    T|BITPIX  =                   32|"
    "NAXIS   =                    1|NAXIS1  =                    2|END"
)

TWO_64 = (
    "SIMPLE  =                    T|BITPIX  =                   64|"
    "NAXIS   =                    1|NAXIS1  =                    2|END"
)

THREE_8 = (
    "SIMPLE  =                    T|BITPIX  =                    8|"
    "NAXIS   =                    1|NAXIS1  =                    3|END"
)

THREE_16 = (
    "SIMPLE  =                    T|BITPIX  =                   16|"
    "NAXIS   =                    1|NAXIS1  =                    3|END"
)

TWELVE_16 = (
    "SIMPLE  =                    T|BITPIX  =                   16|"
    "NAXIS   =                    1|NAXIS1  =                   12|END"
)

TWELVE_BY_1 = (
    "SIMPLE  =                    T|BITPIX  =                   16|"
    "NAXIS   =                    2|NAXIS1  =                   12|NAXIS2  =                    1|END"
)

FOUR_BY_3 = (
    "SIMPLE  =                    T|BITPIX  =                   16|"
    "NAXIS   =                    2|NAXIS1  =                    4|NAXIS2  =                    3|END"
)

MANY_16 = (
    "SIMPLE  =                    T|BITPIX  =                   16|"
    "NAXIS   =                    1|NAXIS1  =                 1441|END"
)

EMPTY_64 = (
    "SIMPLE  =                    T|BITPIX  =                   64|"
    "NAXIS   =                    1|NAXIS1  =                    0|END"
)

NO_PIXELS = (
    "SIMPLE  =                    T|BITPIX  =                   64|"
    "NAXIS   =                    3|NAXIS1  =           4000000000|NAXIS2  =           4000000000|"
    "NAXIS3  =                    0|END"
)

TWO_REALS = (
    "SIMPLE  =                    T|BITPIX  =                  -32|"
    "NAXIS   =                    1|NAXIS1  =                    2|END"
)

# The greatest number of 64 bits.
MOST = 9_223_372_036_854_775_807

# The least.
LEAST = -9_223_372_036_854_775_808

STATISTICS = [
    (
        P0,
        NONE,
        "off\nsum 1\nrep\nstat 1",
        "1 0 2880 2880\ndatasum 0 verdicts 0 0\nerrors 0 warnings 0\nline 4: refused 9 NotImage\n",
        1,
        NONE,
    ),
    # the greatest falls
    (
        THREE_16,
        (2, [5, 9, 9], 0),
        "stat 1\nfill 1 2:2 2\nstat 1\nfill 1 3:3 3\nstat 1",
        "defined 3 blank 0 min 5 max 9 sum 23\ndefined 3 blank 0 min 2 max 9 sum 16\n"
        "defined 3 blank 0 min 2 max 5 sum 10\n",
        0,
        (2, [5, 2, 3], 0),
    ),
    # the conventions for unsigned integers and for signed bytes
    (
        TWO_16,
        (2, [-32768, 32767], 0),
        "set 1 BZERO 3.2768E4\nstat 1\nset 1 BZERO 32768.5\nstat 1\nset 1 BZERO 32768\nset 1 BSCALE 1.0\nstat 1\nset 1 BSCALE 2\nstat 1\nset 1 BSCALE\nstat 1",
        "defined 2 blank 0 min 0 max 65535 sum 65535\ndefined 2 blank 0 min -32768 max 32767 sum -1\n"
        "defined 2 blank 0 min 0 max 65535 sum 65535\ndefined 2 blank 0 min -32768 max 32767 sum -1\n"
        "defined 2 blank 0 min -32768 max 32767 sum -1\n",
        0,
        (2, [-32768, 32767], 0),
    ),
    (
        TWO_32,
        (4, [-2147483648, 5], 0),
        "set 1 BZERO 2147483648\nrect 1 1:2\nstat 1\nfill 1 1:1 4294967295\nfill 1 2:2 4294967296\nfill 1 2:2 -1",
        "0 2147483653\ndefined 2 blank 0 min 0 max 2147483653 sum 2147483653\n"
        "line 5: refused 12 Range\nline 6: refused 12 Range\n",
        1,
        (4, [2147483647, 5], 0),
    ),
    (
        TWO_64,
        (8, [MOST, MOST], 0),
        "set 1 BZERO 9223372036854775808\nstat 1\nfill 1 2:2 0\nstat 1\nfill 1 1:1 18446744073709551616",
        "defined 2 blank 0 min 18446744073709551615 max 18446744073709551615 sum 36893488147419103230\n"
        "defined 2 blank 0 min 0 max 18446744073709551615 sum 18446744073709551615\n"
        "line 5: refused 12 Range\n",
        1,
        (8, [MOST, LEAST], 0),
    ),
    (
        TWO_8,
        (1, [0, 255], 0),
        "stat 1\nset 1 BZERO -128\nstat 1\nrect 1 1:2\nfill 1 1:1 127\nfill 1 2:2 128\nset 1 BLANK 255\nstat 1",
        "defined 2 blank 0 min 0 max 255 sum 255\ndefined 2 blank 0 min -128 max 127 sum -1\n"
        "-128 127\nline 6: refused 12 Range\ndefined 0 blank 2 min - max - sum 0\n",
        1,
        (1, [255, 255], 0),
    ),
    # BLANK names a stored number, whatever the offset; a later one counts once the first is gone
    (
        TWO_16,
        (2, [7, 8], 0),
        "set 1 BLANK 7\nstat 1\nins 1 6 BLANK   =                    8\nrep\nstat 1\ndel 1 5\nstat 1\nrep",
        "defined 1 blank 1 min 8 max 8 sum 8\nW08 1 6 keyword repeated\nerrors 0 warnings 1\n"
        "defined 1 blank 1 min 8 max 8 sum 8\ndefined 1 blank 1 min 7 max 7 sum 7\n"
        "errors 0 warnings 0\n",
        0,
        (2, [7, 8], 0),
    ),
    (
        TWO_16,
        (2, [7, 8], 0),
        "set 1 BLANK 7\nset 1 BZERO 32768\nstat 1\nset 1 BLANK 8.\nstat 1\nset 1 BLANK 70000\nrep\nstat 1\nunset 1 BLANK\nstat 1",
        "defined 1 blank 1 min 32776 max 32776 sum 32776\ndefined 2 blank 0 min 32775 max 32776 sum 65551\n"
        "W21 1 0 BLANK out of range\nerrors 0 warnings 1\n"
        "defined 2 blank 0 min 32775 max 32776 sum 65551\ndefined 2 blank 0 min 32775 max 32776 sum 65551\n",
        0,
        (2, [7, 8], 0),
    ),
    # a BLANK that no pixel can have names none
    (
        TWO_16,
        (2, [-32768, 32767], 0),
        "stat 1\nset 1 BLANK 32768\nstat 1\nset 1 BLANK -32768\nstat 1",
        "defined 2 blank 0 min -32768 max 32767 sum -1\ndefined 2 blank 0 min -32768 max 32767 sum -1\n"
        "defined 1 blank 1 min 32767 max 32767 sum 32767\n",
        0,
        (2, [-32768, 32767], 0),
    ),
    (
        THREE_8,
        (1, [0, 200, 255], 0),
        "set 1 BLANK -56\nstat 1\nset 1 BLANK 200\nstat 1\nset 1 BLANK 456\nstat 1",
        "defined 3 blank 0 min 0 max 255 sum 455\ndefined 2 blank 1 min 0 max 255 sum 255\n"
        "defined 3 blank 0 min 0 max 255 sum 455\n",
        0,
        (1, [0, 200, 255], 0),
    ),
    # blank pixels are written over, and others become blank
    (
        TWO_64,
        (8, [MOST, MOST], 0),
        "stat 1\nset 1 BLANK 9223372036854775807\nstat 1\nfill 1 2:2 -9223372036854775808\nstat 1",
        "defined 2 blank 0 min 9223372036854775807 max 9223372036854775807 sum 18446744073709551614\n"
        "defined 0 blank 2 min - max - sum 0\n"
        "defined 1 blank 1 min -9223372036854775808 max -9223372036854775808 sum -9223372036854775808\n",
        0,
        (8, [MOST, LEAST], 0),
    ),
    (
        TWO_16,
        (2, [7, 8], 0),
        "set 1 BLANK 7\nstat 1\nset 1 BLANK 8\nstat 1\nfill 1 1:2 8\nstat 1\nunset 1 BLANK\nstat 1",
        "defined 1 blank 1 min 8 max 8 sum 8\ndefined 1 blank 1 min 7 max 7 sum 7\n"
        "defined 0 blank 2 min - max - sum 0\ndefined 2 blank 0 min 8 max 8 sum 16\n",
        0,
        (2, [8, 8], 0),
    ),
    (
        TWO_32,
        (4, [-1, 1], 0),
        "stat 1",
        "defined 2 blank 0 min -1 max 1 sum 0\n",
        0,
        (4, [-1, 1], 0),
    ),
    # an axis of no pixels, reals
    (
        EMPTY_64,
        NONE,
        "stat 1\nset 1 BLANK 0\nstat 1",
        "defined 0 blank 0 min - max - sum 0\ndefined 0 blank 0 min - max - sum 0\n",
        0,
        NONE,
    ),
    (
        NO_PIXELS,
        NONE,
        "stat 1\nfill 1 1:1,1:1,1:1 0\nrect 1 1:1,1:1,1:0",
        "defined 0 blank 0 min - max - sum 0\nline 2: refused 10 BadRect\nline 3: refused 10 BadRect\n",
        1,
        NONE,
    ),
    (
        TWO_REALS,
        (4, [1, 2], 0),
        "stat 1\nfill 1 1:1 0\nwrite 1 1:1 0\nrect 1 1:1\nsum 1\nstat 2\nfill 2 1:1 0\nsum 2",
        "line 1: refused 9 NotImage\nline 2: refused 9 NotImage\nline 3: refused 9 NotImage\n"
        "line 4: refused 9 NotImage\ndatasum 3 verdicts 0 0\nline 6: refused 1 NoHdu\n"
        "line 7: refused 1 NoHdu\nline 8: refused 1 NoHdu\n",
        1,
        (4, [1, 2], 0),
    ),
]

# Twelve pixels of 16 bits.
TWELVE = (2, [257] * 12, 0)

RECTANGLES = [
    (
        FOUR_8,
        (1, [1, 2, 3, 4], 0),
        "write 1 2:2,1:2 7 8\nrect 1 1:2,1:2\nrect 1 1:1,2:2\nrect 1 2:2,1:2",
        "1 7 3 8\n3\n7 8\n",
        0,
        (1, [1, 7, 3, 8], 0),
    ),
    # the tests in their order, and nothing is left behind
    (
        FOUR_8,
        (1, [1, 2, 3, 4], 0),
        "fill 1 0:1,1:1 999\nfill 1 1:1 999\nfill 1 1:3,1:1 0\nfill 1 2:1,1:1 0\nfill 1 1:1,1:1,1:1 0\n"
        "write 1 1:3,1:1 999\nwrite 1 1:2,1:1 999\nwrite 1 1:2,1:1 1 2 3\nwrite 1 1:2,1:1 9 256\nwrite 1 1:2,1:1 9 -1\nrect 1 1:2\nrect 1 1:2,1:2",
        "line 1: refused 10 BadRect\nline 2: refused 10 BadRect\nline 3: refused 10 BadRect\n"
        "line 4: refused 10 BadRect\nline 5: refused 10 BadRect\nline 6: refused 10 BadRect\n"
        "line 7: refused 11 WrongCount\nline 8: refused 11 WrongCount\nline 9: refused 12 Range\n"
        "line 10: refused 12 Range\nline 11: refused 10 BadRect\n1 2 3 4\n",
        1,
        (1, [1, 2, 3, 4], 0),
    ),
    (
        TWO_16,
        (2, [5, 6], 0),
        "write 1 1:2 32767 32768\nwrite 1 1:2 -32768 -32769\nwrite 1 1:2 -32768 32767\nfill 1 1:1 65536",
        "line 1: refused 12 Range\nline 2: refused 12 Range\nline 4: refused 12 Range\n",
        1,
        (2, [-32768, 32767], 0),
    ),
    # what is no rectangle of the image, or no number of 16 bits, is not written
    (
        TWELVE_16,
        TWELVE,
        "fill 1 0:1 1\nfill 1 2:1 1\nfill 1 12:13 1\nfill 1 1:1,1:1 1\nfill 1 1:1 32768\nfill 1 1:1 -32769\n"
        "stat 1\nrect 1 12:12",
        "line 1: refused 10 BadRect\nline 2: refused 10 BadRect\nline 3: refused 10 BadRect\n"
        "line 4: refused 10 BadRect\nline 5: refused 12 Range\nline 6: refused 12 Range\n"
        "defined 12 blank 0 min 257 max 257 sum 3084\n257\n",
        1,
        TWELVE,
    ),
    (
        TWELVE_BY_1,
        TWELVE,
        "fill 1 1:1 1\nfill 1 1:1,1:2 1\nstat 1\nrect 1 12:12,1:1",
        "line 1: refused 10 BadRect\nline 2: refused 10 BadRect\n"
        "defined 12 blank 0 min 257 max 257 sum 3084\n257\n",
        1,
        TWELVE,
    ),
    (
        FOUR_BY_3,
        TWELVE,
        "fill 1 1:4,1:4 1\nstat 1\nrect 1 4:4,3:3",
        "line 1: refused 10 BadRect\ndefined 12 blank 0 min 257 max 257 sum 3084\n257\n",
        1,
        TWELVE,
    ),
    # two blocks
    (
        MANY_16,
        (2, [0] * 1441, 0),
        "fill 1 1440:1441 7\nfill 1 1:1441 -7\nstat 1",
        "defined 1441 blank 0 min -7 max -7 sum -10087\n",
        0,
        (2, [-7] * 1441, 0),
    ),
    (
        MANY_16,
        (2, [0] * 1441, 0),
        "fill 1 1440:1441 7\nstat 1\nsum 1\nfill 1 1440:1441 7\nstat 1\nfill 1 1442:1442 7\nset 1 BZERO 32768\n"
        "fill 1 1:1 65536\nfill 1 1:1441 32768",
        "defined 1441 blank 0 min 0 max 7 sum 14\ndatasum 458759 verdicts 0 0\n"
        "defined 1441 blank 0 min 0 max 7 sum 14\nline 6: refused 10 BadRect\nline 8: refused 12 Range\n",
        1,
        (2, [0] * 1441, 0),
    ),
]

SUMS = [
    (
        TWO_32,
        (4, [-1, 1], 0),
        "sum 1",
        "datasum 1 verdicts 0 0\n",
        0,
        (4, [-1, 1], 0),
    ),
    (
        ONE_16,
        (2, [1], 0),
        "sum 1",
        "datasum 65536 verdicts 0 0\n",
        0,
        (2, [1], 0),
    ),
    (
        ONE_8,
        (1, [255], 0),
        "sum 1",
        "datasum 4278190080 verdicts 0 0\n",
        0,
        (1, [255], 0),
    ),
    # the fill is told, summed and left as it is
    (
        THREE_16,
        (2, [5, 9, 9], 1),
        "rep\nsum 1\nfill 1 1:3 0\nsum 1\nrep",
        "E22 1 0 bad data fill\nerrors 1 warnings 0\ndatasum 917514 verdicts 0 0\n"
        "datasum 1 verdicts 0 0\nE22 1 0 bad data fill\nerrors 1 warnings 0\n",
        0,
        (2, [0, 0, 0], 1),
    ),
    # what DATASUM may say
    (
        P0,
        NONE,
        "set 1 DATASUM '0'\nsum 1\nset 1 DATASUM '   000'\nsum 1\nset 1 DATASUM ' '\nsum 1\nset 1 DATASUM ''\nsum 1\nset 1 DATASUM\nsum 1\n"
        "set 1 DATASUM 0\nsum 1\nset 1 DATASUM '+0'\nsum 1\nset 1 DATASUM '0 0'\nsum 1\nset 1 DATASUM '0.'\nsum 1\nset 1 DATASUM '4294967296'\nsum 1\nset 1 DATASUM '1'\nsum 1\nrep",
        "datasum 0 verdicts 1 0\ndatasum 0 verdicts 1 0\ndatasum 0 verdicts 0 0\ndatasum 0 verdicts 0 0\ndatasum 0 verdicts 0 0\n"
        "datasum 0 verdicts -1 0\ndatasum 0 verdicts -1 0\ndatasum 0 verdicts -1 0\ndatasum 0 verdicts -1 0\ndatasum 0 verdicts -1 0\ndatasum 0 verdicts -1 0\n"
        "W23 1 0 DATASUM is wrong\nerrors 0 warnings 1\n",
        0,
        NONE,
    ),
    # a CHECKSUM is wrong whatever it says, unless the sum is all ones
    (
        P0,
        NONE,
        "set 1 CHECKSUM 'x'\nsum 1\nset 1 CHECKSUM 5\nsum 1\nset 1 CHECKSUM ' '\nsum 1",
        "datasum 0 verdicts 0 -1\ndatasum 0 verdicts 0 -1\ndatasum 0 verdicts 0 0\n",
        0,
        NONE,
    ),
    # a stamp
    (
        P0,
        NONE,
        "stamp 1\nget 1 CHECKSUM\nget 1 DATASUM\npos 1 CHECKSUM\npos 1 DATASUM\nsum 1\nrep\nset 1 OBJECT 'M31'\nrep\nsum 1\nstamp 1\nsum 1\nrep",
        "string 'BpFiDoFgBoFgBoFg'\nstring '0'\n4\n5\ndatasum 0 verdicts 1 1\nerrors 0 warnings 0\n"
        "W24 1 0 CHECKSUM is wrong\nerrors 0 warnings 1\ndatasum 0 verdicts 1 -1\ndatasum 0 verdicts 1 1\nerrors 0 warnings 0\n",
        0,
        NONE,
    ),
    (
        P0,
        NONE,
        "stamp 1\nset 1 DATASUM '1'\nrep\nsum 1\nset 1 CHECKSUM ' '\nsum 1",
        "W23 1 0 DATASUM is wrong\nW24 1 0 CHECKSUM is wrong\nerrors 0 warnings 2\n"
        "datasum 0 verdicts -1 -1\ndatasum 0 verdicts -1 0\n",
        0,
        NONE,
    ),
    # it keeps the places, and drops comments and links
    (
        THREE_16,
        (2, [5, 9, 9], 0),
        "ins 1 5 DATASUM = 'x&' / old\nins 1 6 CONTINUE  'y' / older\nset 1 OBJECT 'M31'\nset 1 CHECKSUM 5 / five\nstamp 1\n"
        "pos 1 DATASUM\npos 1 OBJECT\npos 1 CHECKSUM\npos 1 CONTINUE\nget 1 DATASUM\nsum 1\nrep\nstamp 2\nfill 1 1:1 6\nsum 1\nrep",
        "5\n6\n7\nline 9: refused 3 NoKey\nstring '917513'\ndatasum 917513 verdicts 1 1\nerrors 0 warnings 0\nline 13: refused 1 NoHdu\n"
        "datasum 983049 verdicts -1 -1\nW23 1 0 DATASUM is wrong\nW24 1 0 CHECKSUM is wrong\nerrors 0 warnings 2\n",
        1,
        (2, [6, 9, 9], 0),
    ),
]


# BITPIX, further cards, and the value of a pixel whose bytes are zeros: it tells the kind of the pixels.
KINDS = [
    (8, "", 0),
    (8, "BZERO   = -128|", -128),
    (8, "BZERO   = 128|", 0),
    (16, "", 0),
    (16, "BZERO   = 32768|", 32768),
    (16, "BZERO   = -32768|", 0),
    (32, "", 0),
    (32, "BZERO   = 2147483648|", 2147483648),
    (32, "BZERO   = 32768|", 0),
    (64, "", 0),
    (64, "BZERO   = 9223372036854775808|", 9223372036854775808),
    # by digits and exponent
    (16, "BZERO   = 3.2768E4|", 32768),
    (16, "BZERO   = +032768|", 32768),
    (16, "BZERO   = 32768.5|", 0),
    (16, "BZERO   = 32768.00000000000000001|", 0),
    (16, "BZERO   = '32768'|", 0),
    (16, "BZERO   = (32768, 0)|", 0),
    # nothing but 1 is no scale
    (16, "BZERO   = 32768|BSCALE  = 1.0|", 32768),
    (16, "BZERO   = 32768|BSCALE  = 2|", 0),
    (16, "BZERO   = 32768|BSCALE  = / undefined|", 0),
    (16, "BZERO   = 32768|BSCALE  =2|", 32768),
    (16, "BSCALE  = 1|", 0),
    # the first card with a value counts
    (16, "BZERO   = 0|BZERO   = 32768|", 0),
    (16, "BZERO   = 32768|BZERO   = 0|", 32768),
    (16, "BZERO     0|BZERO   = 32768|", 32768),
]

# What `stat` answers of pixels that have no kind, and of the first two of a block of data as numbers of 16 bits.
NO_KIND = "line 1: refused 9 NotImage\n"
FIRST_TWO = "defined 2 blank 0 min 1 max 515 sum 516\n"

# Cards, how many blocks of data follow, and what `stat` answers: only arrays of integers have a kind.
IMAGES = [
    ("SIMPLE  = T|BITPIX  = 16|NAXIS   = 0|END", 0, NO_KIND),
    ("SIMPLE  = T|BITPIX  = -32|NAXIS   = 1|NAXIS1  = 0|END", 0, NO_KIND),
    ("SIMPLE  = T|BITPIX  = 16|NAXIS   = 2|NAXIS1  = 0|NAXIS2  = 3|GROUPS  = T|END", 1, NO_KIND),
    ("XTENSION= 'IMAGE'|BITPIX  = 16|NAXIS   = 1|NAXIS1  = 2|END", 1, FIRST_TWO),
    ("XTENSION= 'IMAGE'|BITPIX  = 16|NAXIS   = 1|NAXIS1  = 2|PCOUNT  = 1|END", 1, NO_KIND),
    ("XTENSION= 'IMAGE'|BITPIX  = 16|NAXIS   = 1|NAXIS1  = 2|GCOUNT  = 2|END", 1, NO_KIND),
    ("XTENSION= 'TABLE'|BITPIX  = 8|NAXIS   = 1|NAXIS1  = 2|END", 1, NO_KIND),
]

# A script over two HDUs with pixels and bytes after them, and its answers.
TWO_HDUS = ([(THREE_PIXELS, 1), (PIXEL, 1)], "tail")
SCRIPT = "fill 2 1:1 7\nrect 2 1:1\nrect 1 1:3\nstamp 2\nsum 2\nsum 1\nrep"
ANSWERS = (
    "7\n0 0 0\ndatasum 458752 verdicts 1 1\ndatasum 0 verdicts 0 0\n"
    "W26 3 0 bytes after the last HDU\nerrors 0 warnings 1\n"
)


def cases():
    for texts, before, script, answers, status, after in STATISTICS + RECTANGLES + SUMS:
        yield script, saved_with, header(texts) + pixels(*before), script, answers, status, pixels(*after)
    for bits, more, value in KINDS:
        of_zeros = header(f"SIMPLE  = T|BITPIX  = {bits}|NAXIS   = 1|NAXIS1  = 1|{more}END") + zeros(1)
        yield f"{bits} {more}", edited, of_zeros, "rect 1 1:1", f"{value}\n", 0, of_zeros
    for texts, blocks, answer in IMAGES:
        before = [] if texts.startswith("SIMPLE") else [(P0, 0)]
        of_image = file(([*before, (texts, blocks)], ""))
        yield texts, edited, of_image, f"stat {len(before) + 1}", answer, int(answer == NO_KIND), of_image
    yield "each HDU has its own pixels", saved_with, file(TWO_HDUS, zeros), SCRIPT, ANSWERS, 0, b"tail"


def saved_with(program, before, script, answers, status, data):
    """Where a script isn't answered so, or what is saved doesn't end with these data."""
    ran = program.edit(before, script.encode("latin-1"))
    yield from differences(ran, status=status, printed=answers.encode("latin-1"), reported=b"")
    if not ran.saved.endswith(data):
        yield f"it saves other data: {ran.saved[-len(data):]}"
