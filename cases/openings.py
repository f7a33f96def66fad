"""Files that open, as what, and those that don't."""
from fits import P0, PIXEL, THREE_PIXELS, changed, data, file, header
from program import closed, differences, edited, shown

# A file, and its HDUs' offsets.
OFFSETS = [
    (([(P0, 0)], ""), [(0, 2880, 2880)]),
    (
        ([(P0, 0), (PIXEL, 1)], ""),
        [(0, 2880, 2880), (2880, 5760, 8640)],
    ),
    # random groups, without their first axis: 2 * 2 * (1 + 3) = 16 bytes
    (
        (
            [(
                "SIMPLE|BITPIX  = 16|NAXIS   = 2|NAXIS1  = 0|NAXIS2  = 3|GROUPS  = T|PCOUNT  = 1|GCOUNT  = 2|END",
                1,
            )],
            "",
        ),
        [(0, 2880, 5760)],
    ),
    # no axes, and 5 bytes after them
    (
        (
            [
                (P0, 0),
                (
                    "XTENSION= 'OTHER   '|BITPIX  = 8|NAXIS   = 0|PCOUNT  = 5|GCOUNT  = 1|END",
                    1,
                ),
            ],
            "",
        ),
        [(0, 2880, 2880), (2880, 5760, 8640)],
    ),
    # an axis is zero
    (
        (
            [(
                "SIMPLE|BITPIX  = 64|NAXIS   = 3|NAXIS1  = 4000000000|NAXIS2  = 4000000000|NAXIS3  = 0|END",
                0,
            )],
            "",
        ),
        [(0, 2880, 2880)],
    ),
    # bytes after the last HDU
    (([(P0, 0)], "trailer"), [(0, 2880, 2880)]),
    (([(P0, 0)], "XTENSIO"), [(0, 2880, 2880)]),
    (([(P0, 0)], "XTENSIOM"), [(0, 2880, 2880)]),
    (
        ([(P0, 0), (PIXEL, 1)], " "),
        [(0, 2880, 2880), (2880, 5760, 8640)],
    ),
    (([(P0, 0), (" ", 0)], ""), [(0, 2880, 2880)]),
    (([(P0, 0), (" ", 1)], "XTENSION"), [(0, 2880, 2880)]),
]

# A file, how many of its bytes come at least and at most, and what is reported of it.
FRONTS = [
    (([(P0, 0)], ""), 0, 7, "O1 NotFits"),
    (([(P0, 0)], ""), 8, 2879, "O2 NoEnd hdu 1"),
    (([(P0, 0), (PIXEL, 1)], ""), 2888, 5759, "O2 NoEnd hdu 2"),
    (([(P0, 0), (PIXEL, 1)], ""), 5760, 8639, "O4 ShortData hdu 2"),
    (([(THREE_PIXELS, 1)], ""), 2880, 5759, "O4 ShortData hdu 1"),
    (([], "SIMPLE =  "), 10, 10, "O1 NotFits"),
    (
        (
            [
                (P0, 0),
                ("XTENSION= 'IMAGE'|BITPIX  = 8|NAXIS   = 1|END", 0),
            ],
            "",
        ),
        5760,
        5760,
        "O3 BadShape hdu 2 card 4",
    ),
    # a bad shape comes before too few data in a later HDU
    (
        (
            [
                (P0, 0),
                (
                    "XTENSION= 'IMAGE'|BITPIX  = 8|NAXIS   = 0|PCOUNT  = 'x'|END",
                    0,
                ),
                (PIXEL, 0),
            ],
            "",
        ),
        8640,
        8640,
        "O3 BadShape hdu 2 card 4",
    ),
    (
        (
            [(
                "SIMPLE|BITPIX  = 64|NAXIS   = 3|NAXIS1  = 4000000000|NAXIS2  = 4000000000|NAXIS3  = 1|END",
                0,
            )],
            "",
        ),
        2880,
        2880,
        "O4 ShortData hdu 1",
    ),
]

# A byte of the shortest file, what it becomes, and what is reported then.
CHANGED = [
    (1, 0, "O1 NotFits"),
    (100, 255, "O3 BadShape hdu 1 card 2"),
    (200, 255, "O3 BadShape hdu 1 card 3"),
    (241, 255, "O2 NoEnd hdu 1"),
]

# The longest axes of the most that a header may have.
ALL_AXES = "|".join(f"NAXIS{k}".ljust(8) + "= 9223372036854775807" for k in range(1, 1000))

# Cards, how many blocks of data follow, and the class of the HDU that has these cards and all these blocks.
HDUS = [
    ("SIMPLE  = T|BITPIX  = 8|NAXIS   = 0|END", 0, "PRIMARY"),
    # 2 * 3 = 6 bytes
    (
        "SIMPLE  = T|BITPIX  = 16|NAXIS   = 1|NAXIS1  = 3|END",
        1,
        "PRIMARY",
    ),
    # PCOUNT and GCOUNT don't count: 1 * 2880 bytes
    (
        "SIMPLE  = T|BITPIX  = 8|NAXIS   = 1|NAXIS1  = 2880|PCOUNT  = 'x'|GCOUNT  = 9|END",
        1,
        "PRIMARY",
    ),
    # the axes' product is 0, however large the others are
    (
        "SIMPLE  = T|BITPIX  = 64|NAXIS   = 3|NAXIS1  = 4000000000|NAXIS2  = 4000000000|NAXIS3  = 0|END",
        0,
        "PRIMARY",
    ),
    # random groups: 2 * 2 * (1 + 3) = 16 bytes
    (
        "SIMPLE  = T|BITPIX  = 16|NAXIS   = 2|NAXIS1  = 0|NAXIS2  = 3|GROUPS  = T|PCOUNT  = 1|GCOUNT  = 2|END",
        1,
        "GROUPS",
    ),
    # no axes, and 5 bytes after the array
    (
        "XTENSION= 'IMAGE'|BITPIX  = 8|NAXIS   = 0|PCOUNT  = 5|GCOUNT  = 1|END",
        1,
        "IMAGE",
    ),
    # no PCOUNT and no GCOUNT: 4 * (0 + 721) = 2884 bytes
    (
        "XTENSION= 'IMAGE   '|BITPIX  = -32|NAXIS   = 1|NAXIS1  = 721|END",
        2,
        "IMAGE",
    ),
    # 10 * 288 = 2880 bytes
    (
        "XTENSION= 'TABLE'|BITPIX  = 8|NAXIS   = 2|NAXIS1  = 10|NAXIS2  = 288|END",
        1,
        "TABLE",
    ),
    # 10 * 288 + 1 = 2881 bytes
    (
        "XTENSION= 'BINTABLE'|BITPIX  = 8|NAXIS   = 2|NAXIS1  = 10|NAXIS2  = 288|PCOUNT  = 1|END",
        2,
        "OTHER",
    ),
    # GCOUNT 0: no bytes
    (
        "XTENSION= 'IMAGE'|BITPIX  = 8|NAXIS   = 1|NAXIS1  = 7|PCOUNT  = 9|GCOUNT  = 0|END",
        0,
        "IMAGE",
    ),
    # XTENSION says no string
    ("XTENSION= T|BITPIX  = 8|NAXIS   = 0|END", 0, "OTHER"),
    (
        "XTENSION  'IMAGE'|BITPIX  = 8|NAXIS   = 0|END",
        0,
        "OTHER",
    ),
]

# A file, how many of its bytes are missing at its end, and what is reported of it.
CLOSED = [
    (([], ""), 0, "O1 NotFits"),
    (([], "SIMPLE "), 0, "O1 NotFits"),
    (([], "SIMPLE =  "), 0, "O1 NotFits"),
    (([], "simple  = "), 0, "O1 NotFits"),
    (([], " SIMPLE  "), 0, "O1 NotFits"),
    (
        (
            [(
                "SIMPLEX =                    T|BITPIX  =                    8|NAXIS   =                    0|END",
                0,
            )],
            "",
        ),
        0,
        "O1 NotFits",
    ),
    (([], "SIMPLE  "), 0, "O2 NoEnd hdu 1"),
    (
        ([(P0, 0)], ""),
        2872,
        "O2 NoEnd hdu 1",
    ),
    (
        ([(P0, 0)], ""),
        2800,
        "O2 NoEnd hdu 1",
    ),
    (
        ([(P0, 0)], ""),
        2640,
        "O2 NoEnd hdu 1",
    ),
    (
        ([(P0, 0)], ""),
        2560,
        "O2 NoEnd hdu 1",
    ),
    (([(P0, 0)], ""), 1, "O2 NoEnd hdu 1"),
    (
        (
            [(
                "SIMPLE  =                    T|BITPIX  =                    8|NAXIS   =                    0|ENDING| END",
                0,
            )],
            "",
        ),
        0,
        "O2 NoEnd hdu 1",
    ),
    (([("SIMPLE  = T|BITPIX  = 8|NAXIS   = 0", 0)], ""), 0, "O2 NoEnd hdu 1"),
    (
        ([(P0, 0)], "XTENSION"),
        0,
        "O2 NoEnd hdu 2",
    ),
    (
        ([("SIMPLE  =                    T|END", 0)], ""),
        0,
        "O3 BadShape hdu 1 card 2",
    ),
    (
        (
            [(
                "SIMPLE  =                    T|NAXIS   =                    0|BITPIX  =                    8|END",
                0,
            )],
            "",
        ),
        0,
        "O3 BadShape hdu 1 card 2",
    ),
    (
        (
            [(
                "SIMPLE  =                    T|BITPIX  =                   24|NAXIS   =                    0|END",
                0,
            )],
            "",
        ),
        0,
        "O3 BadShape hdu 1 card 2",
    ),
    (
        (
            [(
                "SIMPLE  =                    T|BITPIX  =                    8|END|NAXIS   =                    0",
                0,
            )],
            "",
        ),
        0,
        "O3 BadShape hdu 1 card 3",
    ),
    (
        (
            [(
                "SIMPLE  =                    T|BITPIX  =                    8|NAXIS                        0|END",
                0,
            )],
            "",
        ),
        0,
        "O3 BadShape hdu 1 card 3",
    ),
    (
        (
            [(
                "SIMPLE  =                    T|BITPIX  =                    8|NAXIS   =                   0.|END",
                0,
            )],
            "",
        ),
        0,
        "O3 BadShape hdu 1 card 3",
    ),
    (
        (
            [(
                "SIMPLE  =                    T|BITPIX  =                    8|NAXIS   =                    1|END",
                0,
            )],
            "",
        ),
        0,
        "O3 BadShape hdu 1 card 4",
    ),
    (
        (
            [(
                "SIMPLE  =                    T|BITPIX  =                    8|NAXIS   =                    1|NAXIS2  =                    1|END",
                0,
            )],
            "",
        ),
        0,
        "O3 BadShape hdu 1 card 4",
    ),
    (
        (
            [
                (P0, 0),
                (
                    "XTENSION= 'IMAGE   '|BITPIX  =                    8|NAXIS   =                 1000|END",
                    0,
                ),
            ],
            "",
        ),
        0,
        "O3 BadShape hdu 2 card 3",
    ),
    (
        ([(THREE_PIXELS, 1)], ""),
        1,
        "O4 ShortData hdu 1",
    ),
    (
        (
            [(
                "SIMPLE|BITPIX  = 64|NAXIS   = 3|NAXIS1  = 4000000000|NAXIS2  = 4000000000|NAXIS3  = 1|END",
                0,
            )],
            "",
        ),
        0,
        "O4 ShortData hdu 1",
    ),
]

# The cards of an HDU, and the first of its places that breaks a rule.
BROKEN = [
    ("SIMPLE  = T|END", 2),
    ("SIMPLE  = T|BITPIX  = 8|END", 3),
    ("SIMPLE  = T|BITPIX  = 8|NAXIS   = 2|NAXIS1  = 1|END", 5),
    ("SIMPLE  = T|BITPIX  = 8|NAXIS   = 999|END", 4),
    ("SIMPLE  = T|BITPIX  = 9|NAXIS   = 1000|END", 2),
    ("SIMPLE  = T|BITPIX  = 8|NAXIS   = 2|NAXIS2  = 1|NAXIS1  = 1|END", 4),
    ("SIMPLE  = T|BITPIX  = 8|NAXIS   = 2|NAXIS1  = 1|COMMENT x|NAXIS2  = 1|END", 5),
    ("XTENSION= 'IMA&'|CONTINUE  'GE'|BITPIX  = 8|NAXIS   = 0|END", 2),
    ("SIMPLE  = T|BITPIX  =|CONTINUE  8|NAXIS   = 0|END", 2),
    ("XTENSION= 'X'|BITPIX  = 8|NAXIS   = 0|GCOUNT  = 1.|PCOUNT  = 1.|END", 5),
    ("XTENSION= 'X'|BITPIX  = 8|NAXIS   = 0|GCOUNT  = 1.|PCOUNT  = 1|END", 4),
    ("XTENSION= 'X'|BITPIX  = 8|NAXIS   = 1|PCOUNT  = 1.|END", 4),
    ("SIMPLE  = T|BITPIX  = 8|NAXIS   = 2|NAXIS1  = 0|NAXIS2  = 1|GROUPS  = T|GCOUNT  = -1|END", 7),
    ("SIMPLE  = T|BITPIX  = 24|NAXIS   = 0|END", 2),
    ("SIMPLE  = T|BITPIX  = 0|NAXIS   = 0|END", 2),
    ("SIMPLE  = T|BITPIX  = -8|NAXIS   = 0|END", 2),
    ("SIMPLE  = T|BITPIX  = -16|NAXIS   = 0|END", 2),
    ("SIMPLE  = T|BITPIX  = 128|NAXIS   = 0|END", 2),
    ("SIMPLE  = T|BITPIX  = 8.|NAXIS   = 0|END", 2),
    ("SIMPLE  = T|BITPIX  = '8'|NAXIS   = 0|END", 2),
    ("SIMPLE  = T|BITPIX  = T|NAXIS   = 0|END", 2),
    ("SIMPLE  = T|BITPIX  =|NAXIS   = 0|END", 2),
    ("SIMPLE  = T|BITPIX    8|NAXIS   = 0|END", 2),
    ("SIMPLE  = T|BITPIX  =8|NAXIS   = 0|END", 2),
    ("SIMPLE  = T|BITPIX  = 18446744073709551624|NAXIS   = 0|END", 2),
    ("SIMPLE  = T|BITPIX  = 8 8|NAXIS   = 0|END", 2),
    ("SIMPLE  = T|BITPIX  = 8|NAXIS   = 1000|END", 3),
    ("SIMPLE  = T|BITPIX  = 8|NAXIS   = -1|END", 3),
    ("SIMPLE  = T|BITPIX  = 8|NAXIS   = 0.|END", 3),
    ("SIMPLE  = T|BITPIX  = 8|NAXIS   = 18446744073709551616|END", 3),
    ("SIMPLE  = T|BITPIX  = 8|NAXIS|END", 3),
    ("SIMPLE  = T|BITPIX  = 8|NAXIS   = 1|NAXIS1  = -1|END", 4),
    ("SIMPLE  = T|BITPIX  = 8|NAXIS   = 1|NAXIS1  = 9223372036854775808|END", 4),
    ("SIMPLE  = T|BITPIX  = 8|NAXIS   = 1|NAXIS1  = 1.0|END", 4),
    ("SIMPLE  = T|BITPIX  = 8|NAXIS   = 1|NAXIS01 = 1|END", 4),
    ("SIMPLE  = T|BITPIX  = 8|NAXIS   = 1|NAXIS   = 1|END", 4),
    ("XTENSION= 'X'|BITPIX  = 8|NAXIS   = 0|COMMENT|PCOUNT  = -1|PCOUNT  = 0|END", 5),
    ("XTENSION= 'X'|BITPIX  = 8|NAXIS   = 0|COMMENT|PCOUNT  = 9223372036854775808|PCOUNT  = 0|END", 5),
    ("XTENSION= 'X'|BITPIX  = 8|NAXIS   = 0|COMMENT|PCOUNT  = '0'|PCOUNT  = 0|END", 5),
    ("XTENSION= 'X'|BITPIX  = 8|NAXIS   = 0|COMMENT|PCOUNT  =|PCOUNT  = 0|END", 5),
    ("SIMPLE  = T|BITPIX  = 8|NAXIS   = 1|END", 4),
    ("XTENSION= 'IMAGE'|BITPIX  = 8|NAXIS   = 0|GCOUNT  = -1|PCOUNT  = 'x'|END", 5),
]


def cases():
    for text, offsets in OFFSETS:
        lines = "".join(f"{hdu + 1} {start} {of_data} {end}\n" for hdu, (start, of_data, end) in enumerate(offsets))
        yield lines, edited, file(text), "off", lines, 0, file(text)
    for cards, blocks, kind in HDUS:
        yield cards, listed, header(cards) + data(blocks), kind
    for whole, missing, fault in CLOSED:
        yield fault, closed, file(whole)[: max(len(file(whole)) - missing, 0)], fault
    for whole, least, most, fault in FRONTS:
        for length in sorted({*range(least, most, 97), most}):
            yield f"{fault} in {length} bytes", closed, file(whole)[:length], fault
    for place, byte, fault in CHANGED:
        yield f"{byte} as byte {place}", closed, changed(header(P0), {place: byte}), fault
    of_all_axes = f"SIMPLE  = T|BITPIX  = 64|NAXIS   = 999|{ALL_AXES}|END"
    yield "999 axes", closed, header(of_all_axes), "O4 ShortData hdu 1"
    for texts, place in BROKEN:
        before = [] if texts.startswith("SIMPLE") else [(P0, 0)]
        fault = f"O3 BadShape hdu {len(before) + 1} card {place}"
        yield texts, closed, file(([*before, (texts, 0)], "")), fault
    front = file(([(P0, 0), (PIXEL, 1)], ""))
    for length in range(2880, 2888):
        yield f"{length} bytes", edited, front[:length], "off", "1 0 2880 2880\n", 0, front[:length]


def listed(program, hdu, kind):
    """Where an HDU isn't listed as one of its class, or ends before or after its bytes."""
    before = b"" if hdu.startswith(b"SIMPLE") else header(P0)
    ran = program.tell(["list"], before + hdu)
    yield from differences(ran, status=0, reported=b"")
    words = ran.printed.decode().split("\n")[-2].split(" ")
    found = [words[2], int(words[-3]), int(words[-1])]
    if found != [kind, len(before), len(before) + len(hdu)]:
        yield f"it is listed as {shown(ran.printed)}"
