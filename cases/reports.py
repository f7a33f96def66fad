"""Reports, under edits and of files as they pass by."""
from fits import MANDATORY, P0, PIXEL, THREE_PIXELS, changed, file, header, zeros
from program import differences, edited, shown, told

# How much of a report is printed.
ALL = ["verify"]
ERRORS = ["verify", "-e"]
QUIET = ["verify", "-q"]

# A line for each code in place of one for each problem.
SUMMARY = ["verify", "--summary"]

# A primary array of two pixels of 16 bits.
TWO_PIXELS = (
    "SIMPLE  =                    T|BITPIX  =                   16|"
    "NAXIS   =                    1|NAXIS1  =                    2|END"
)

# A primary array of one pixel of 16 bits.
ONE_PIXEL = (
    "SIMPLE  =                    T|BITPIX  =                   16|"
    "NAXIS   =                    1|NAXIS1  =                    1|END"
)

# An image extension without data, and three things wrong with it as a whole.
THREE_WRONG = (
    "XTENSION= 'IMAGE   '|BITPIX  =                    8|"
    "NAXIS   =                    0|SIMPLE  =                    T|END     x"
)

# Image extensions without data, and what calls them: A, A of version 1, A of a version that is a string, and A of
# version 2.
A = (
    "XTENSION= 'IMAGE   '|BITPIX  =                    8|NAXIS   =                    0|"
    "PCOUNT  =                    0|GCOUNT  =                    1|EXTNAME = 'A       '|END"
)

A_1 = (
    "XTENSION= 'IMAGE   '|BITPIX  =                    8|NAXIS   =                    0|"
    "PCOUNT  =                    0|GCOUNT  =                    1|EXTNAME = 'A'|"
    "EXTVER  =                    1|END"
)

A_TEXT = (
    "XTENSION= 'IMAGE   '|BITPIX  =                    8|NAXIS   =                    0|"
    "PCOUNT  =                    0|GCOUNT  =                    1|EXTVER  = '2       '|EXTNAME = 'A'|END"
)

A_2 = (
    "XTENSION= 'IMAGE   '|BITPIX  =                    8|NAXIS   =                    0|"
    "PCOUNT  =                    0|GCOUNT  =                    1|EXTNAME = 'A'|EXTVER  = 2|END"
)

# Extensions of other types of this name, and of one whose text is spelled without its spaces.
OTHER_A = (
    "XTENSION= 'OTHER   '|BITPIX  =                    8|NAXIS   =                    0|"
    "PCOUNT  =                    0|GCOUNT  =                    1|EXTNAME = 'A       '|END"
)

FOREIGN_A = (
    "XTENSION= 'FOREIGN '|BITPIX  =                    8|NAXIS   =                    0|"
    "PCOUNT  =                    0|GCOUNT  =                    1|EXTNAME = 'A       '|END"
)

SHORT_A = (
    "XTENSION= 'IMAGE'|BITPIX  =                    8|NAXIS   =                    0|"
    "PCOUNT  =                    0|GCOUNT  =                    1|EXTNAME = 'A       '|END"
)

# An extension without a name.
UNNAMED = (
    "XTENSION= 'IMAGE   '|BITPIX  =                    8|NAXIS   =                    0|"
    "PCOUNT  =                    0|GCOUNT  =                    1|END"
)

# Nothing is wrong.
CLEAN = "errors 0 warnings 0\n"

# A file of two HDUs and bytes after them, and what is wrong with it.
WRONG = ([(P0, 0), (THREE_WRONG, 0)], "x")

# The report of that file.
REPORT = (
    "E14 2 0 END card not blank\nE16 2 0 PCOUNT or GCOUNT out of place\n"
    "E18 2 0 SIMPLE or XTENSION in the wrong kind of HDU\n"
    "W26 3 0 bytes after the last HDU\nerrors 3 warnings 1\n"
)

# A file of two extensions of one name, where a missing EXTVER is 1.
NAMED_TWICE = ([(P0, 0), (A, 0), (A_1, 0)], "")

# The report of that file.
NAMED_REPORT = (
    "W25 2 0 two extensions of one type, name and version\n"
    "W25 3 0 two extensions of one type, name and version\nerrors 0 warnings 2\n"
)

# A file, a script, its answers and its status.
SCRIPTS = [
    (([(P0, 0)], ""), "rep", CLEAN, 0),
    (
        ([(P0, 0)], ""),
        "rep \nrep 1\nrepo\n",
        "line 1: not a command\nline 2: not a command\nline 3: not a command\n",
        1,
    ),
    # END keeps its bytes, and an edit makes the fill spaces
    (
        (
            [(
                "SIMPLE  =                    T|BITPIX  =                    8|NAXIS   =                    0|END      x|x",
                0,
            )],
            "",
        ),
        "rep\nins 1 4 COMMENT\nrep",
        "E14 1 0 END card not blank\nE15 1 0 header fill not spaces\nerrors 2 warnings 0\n"
        "E14 1 0 END card not blank\nerrors 1 warnings 0\n",
        0,
    ),
    (
        (
            [(
                "SIMPLE  =                    T         \x7f|BITPIX  =                    8|NAXIS   =                    0|END",
                0,
            )],
            "",
        ),
        "rep",
        "E01 1 1 byte outside ASCII text\nE06 1 1 mandatory card not in fixed format\n"
        "errors 2 warnings 0\n",
        0,
    ),
    # a repeated keyword is one no longer where the first card went
    (
        ([(TWO_PIXELS, 1)], ""),
        "set 1 BLANK 7\nins 1 6 BLANK   =                    8\nrep\ndel 1 5\nrep",
        "W08 1 6 keyword repeated\nerrors 0 warnings 1\nerrors 0 warnings 0\n",
        0,
    ),
    # links are none without their string, and are again with it
    (
        ([(P0, 0)], ""),
        "set 1 KEY 'aaaaaaaaaaaaaaaaaaaaaaaaaaaaaaaaaaaaaaaaaaaaaaaaaaaaaaaaaaaaaaaaaa''bbbbbbbbbbbbbbbbbbbbbbbbbbbbbbbbbbbbbbbbbbbbbbbbbbbbbbbbbbbbbbbbbbbbbbbbb'\n"
        "rep\nput 1 4 KEY     = 'x'\nrep\n"
        "put 1 4 KEY     = 'aaaaaaaaaaaaaaaaaaaaaaaaaaaaaaaaaaaaaaaaaaaaaaaaaaaaaaaaaaaaaaaaaa&'\nrep",
        "errors 0 warnings 0\n"
        "W09 1 5 CONTINUE without an open string\nW09 1 6 CONTINUE without an open string\nerrors 0 warnings 2\n"
        "errors 0 warnings 0\n",
        0,
    ),
    # a card put between parts a string
    (
        ([(P0, 0)], ""),
        "ins 1 4 KEY     = 'a&'\nins 1 5 CONTINUE  'b&'\nins 1 6 CONTINUE  'c'\nrep\nins 1 5 COMMENT\nrep\nmov 1 5 7\nrep",
        "errors 0 warnings 0\n"
        "W10 1 4 ampersand not continued\nW09 1 6 CONTINUE without an open string\n"
        "W09 1 7 CONTINUE without an open string\nerrors 0 warnings 3\n"
        "errors 0 warnings 0\n",
        0,
    ),
    (
        ([(THREE_PIXELS, 1)], ""),
        "ins 1 5 END\nput 1 4 NAXIS1  =                    4\nput 1 4 NAXIS1  = 3\nrep",
        "line 1: refused 5 EndCard\nline 2: refused 6 Shape\n"
        "E06 1 4 mandatory card not in fixed format\nerrors 1 warnings 0\n",
        1,
    ),
    (
        ([(P0, 0)], "trailer"),
        "rep",
        "W26 2 0 bytes after the last HDU\nerrors 0 warnings 1\n",
        0,
    ),
    (
        (
            [(
                "SIMPLE  =                    T / file does conform to FITS standard|BITPIX  =                    8|NAXIS   =                    0|END",
                0,
            )],
            "",
        ),
        "rep\nget 1 SIMPLE",
        "errors 0 warnings 0\nlogical T / file does conform to FITS standard\n",
        0,
    ),
    (
        ([(P0, 0)], ""),
        "set 1 DATE '2024-02-30'\nrep\nset 1 DATE '29/02/00'\nrep\nset 1 DATE '2024-02-29T23:59:60.5'\nrep",
        "E12 1 4 bad date\nerrors 1 warnings 0\nE12 1 4 bad date\nerrors 1 warnings 0\nerrors 0 warnings 0\n",
        0,
    ),
    (
        ([(P0, 0)], ""),
        "set 1 OBJECT 'a'\nset 1 ORIGIN 'b'\nmov 1 4 5\nins 1 4 COMMENT\npos 1 OBJECT\nmov 1 1 2\nset 1 SIMPLE F\nrep",
        "6\nline 6: refused 6 Shape\nW19 1 0 SIMPLE is F\nerrors 0 warnings 1\n",
        1,
    ),
    # those of a card by number, then the next HDU as a whole, and the bytes after it
    (
        ([(P0, 0), (THREE_WRONG, 0)], "x"),
        "ins 1 4 DATE    = 5\nins 1 5 DATE    = 'x&'\nrep",
        "E05 1 4 value of the wrong type\nW08 1 5 keyword repeated\n"
        "W10 1 5 ampersand not continued\nE12 1 5 bad date\n"
        "E14 2 0 END card not blank\nE16 2 0 PCOUNT or GCOUNT out of place\n"
        "E18 2 0 SIMPLE or XTENSION in the wrong kind of HDU\n"
        "W26 3 0 bytes after the last HDU\nerrors 5 warnings 3\n",
        0,
    ),
    # which card leads is asked of the cards as they are
    (
        ([(ONE_PIXEL, 1)], ""),
        "set 1 BLANK 40000\nins 1 5 BLANK   = 5\nrep\nmov 1 5 6\nrep\nunset 1 BLANK\nrep",
        "W08 1 6 keyword repeated\nerrors 0 warnings 1\n"
        "W21 1 0 BLANK out of range\nW08 1 6 keyword repeated\nerrors 0 warnings 2\n"
        "errors 0 warnings 0\n",
        0,
    ),
    (
        (
            [(
                "SIMPLE  = T|BITPIX  = 8|NAXIS   = 0|EPOCH   = 'a|EPOCH   =|epoch   =1|EPOCH   = 'a&'|END",
                0,
            )],
            "",
        ),
        "rep",
        "E06 1 1 mandatory card not in fixed format\nE06 1 2 mandatory card not in fixed format\n"
        "E06 1 3 mandatory card not in fixed format\nE03 1 4 unreadable value\nW13 1 4 deprecated keyword\n"
        "W04 1 5 undefined value\nW08 1 5 keyword repeated\nW13 1 5 deprecated keyword\n"
        "E02 1 6 bad keyword name\nW11 1 6 no space after the equals sign\n"
        "W08 1 7 keyword repeated\nW10 1 7 ampersand not continued\nW13 1 7 deprecated keyword\n"
        "errors 5 warnings 8\n",
        0,
    ),
]

# Extensions of one name: a file, a script, its answers and its status.
NAMES = [
    # a missing EXTVER is 1
    (
        NAMED_TWICE,
        "rep\nset 3 EXTNAME 'B'\nrep\nset 3 EXTNAME 'A'\nrep\nrm 3\nrep",
        "W25 2 0 two extensions of one type, name and version\nW25 3 0 two extensions of one type, name and version\n"
        "errors 0 warnings 2\nerrors 0 warnings 0\n"
        "W25 2 0 two extensions of one type, name and version\nW25 3 0 two extensions of one type, name and version\n"
        "errors 0 warnings 2\nerrors 0 warnings 0\n",
        0,
    ),
    (
        NAMED_TWICE,
        "set 2 EXTVER 2\nrep\nset 3 EXTVER 2\nrep\nunset 2 EXTVER\nunset 3 EXTVER\nrep\nset 2 EXTVER -1\nset 3 EXTVER -1\nrep\n"
        "set 2 EXTVER 0\nunset 3 EXTVER\nrep",
        "errors 0 warnings 0\n"
        "W25 2 0 two extensions of one type, name and version\nW25 3 0 two extensions of one type, name and version\n"
        "errors 0 warnings 2\n"
        "W25 2 0 two extensions of one type, name and version\nW25 3 0 two extensions of one type, name and version\n"
        "errors 0 warnings 2\n"
        "W25 2 0 two extensions of one type, name and version\nW25 3 0 two extensions of one type, name and version\n"
        "errors 0 warnings 2\nerrors 0 warnings 0\n",
        0,
    ),
    # each of three is told, and what is no integer of 64 bits is version 1
    (
        ([(P0, 0), (A, 0), (A_1, 0), (A_TEXT, 0), (A_2, 0)], ""),
        "rep\nset 5 EXTVER 9223372036854775808\nset 4 EXTVER\nrm 2\nrep\nset 4 EXTVER 01\nset 3 EXTVER 1.0\nrep",
        "W25 2 0 two extensions of one type, name and version\nW25 3 0 two extensions of one type, name and version\n"
        "W25 4 0 two extensions of one type, name and version\nE05 4 6 value of the wrong type\n"
        "errors 1 warnings 3\n"
        "W25 2 0 two extensions of one type, name and version\nW25 3 0 two extensions of one type, name and version\n"
        "W04 3 6 undefined value\n"
        "W25 4 0 two extensions of one type, name and version\nerrors 0 warnings 4\n"
        "W25 2 0 two extensions of one type, name and version\nW25 3 0 two extensions of one type, name and version\n"
        "E05 3 6 value of the wrong type\n"
        "W25 4 0 two extensions of one type, name and version\nerrors 1 warnings 3\n",
        0,
    ),
    # without a name that names something there is none
    (
        ([(P0, 0), (UNNAMED, 0), (UNNAMED, 0)], ""),
        "rep\nset 2 EXTNAME ''\nset 3 EXTNAME ''\nrep\nset 2 EXTNAME ' '\nset 3 EXTNAME '   '\nrep\nset 2 EXTNAME\nset 3 EXTNAME\nrep\n"
        "set 2 EXTNAME 5\nset 3 EXTNAME 5\nrep",
        "errors 0 warnings 0\nerrors 0 warnings 0\nerrors 0 warnings 0\n"
        "W04 2 6 undefined value\nW04 3 6 undefined value\nerrors 0 warnings 2\n"
        "E05 2 6 value of the wrong type\nE05 3 6 value of the wrong type\nerrors 2 warnings 0\n",
        0,
    ),
    # by type too, and the primary HDU isn't called anything
    (
        ([(P0, 0), (A, 0), (OTHER_A, 0), (FOREIGN_A, 0)], "x"),
        "set 1 EXTNAME 'A'\nrep\nset 4 XTENSION 'OTHER'\nset 3 XTENSION 'IMAGE'\nrep",
        "W26 5 0 bytes after the last HDU\nerrors 0 warnings 1\nline 4: refused 6 Shape\n"
        "W25 3 0 two extensions of one type, name and version\nW25 4 0 two extensions of one type, name and version\n"
        "W26 5 0 bytes after the last HDU\nerrors 0 warnings 3\n",
        1,
    ),
    # spaces at the end don't count, any other difference does
    (
        ([(P0, 0), (A, 0), (SHORT_A, 0)], ""),
        "rep\nset 3 EXTNAME 'A  '\nrep\nset 3 EXTNAME ' A'\nrep\nset 3 EXTNAME 'a'\nrep\nset 3 EXTNAME 'AA'\nrep",
        "W25 2 0 two extensions of one type, name and version\nW25 3 0 two extensions of one type, name and version\n"
        "E06 3 1 mandatory card not in fixed format\nerrors 1 warnings 2\n"
        "W25 2 0 two extensions of one type, name and version\nW25 3 0 two extensions of one type, name and version\n"
        "E06 3 1 mandatory card not in fixed format\nerrors 1 warnings 2\n"
        "E06 3 1 mandatory card not in fixed format\nerrors 1 warnings 0\n"
        "E06 3 1 mandatory card not in fixed format\nerrors 1 warnings 0\n"
        "E06 3 1 mandatory card not in fixed format\nerrors 1 warnings 0\n",
        0,
    ),
    # the first EXTNAME with a value counts, alone
    (
        NAMED_TWICE,
        "ins 3 6 EXTNAME = 'B'\nrep\nput 3 6 EXTNAME   'B'\nrep\nput 3 6 EXTNAME = 'A&'\nins 3 7 CONTINUE  'B'\nput 2 6 EXTNAME = 'A&'\nrep",
        "W08 3 7 keyword repeated\nerrors 0 warnings 1\n"
        "W25 2 0 two extensions of one type, name and version\nW25 3 0 two extensions of one type, name and version\n"
        "errors 0 warnings 2\n"
        "W25 2 0 two extensions of one type, name and version\nW10 2 6 ampersand not continued\n"
        "W25 3 0 two extensions of one type, name and version\nW08 3 8 keyword repeated\nerrors 0 warnings 4\n",
        0,
    ),
    # new ones, and those that move; after the sums of an HDU by the number of the code
    (
        ([(P0, 0)], ""),
        "new 2 u8 -\nnew 2 i16 -\nset 2 EXTNAME 'A'\nset 3 EXTNAME 'A'\nnew 3 u8 -\nrep\nset 4 DATASUM '1'\nrep\nstamp 2\nstamp 4\nrep\nrm 2\nrep",
        "W25 2 0 two extensions of one type, name and version\nW25 4 0 two extensions of one type, name and version\n"
        "errors 0 warnings 2\n"
        "W25 2 0 two extensions of one type, name and version\nW23 4 0 DATASUM is wrong\n"
        "W25 4 0 two extensions of one type, name and version\nerrors 0 warnings 3\n"
        "W25 2 0 two extensions of one type, name and version\nW25 4 0 two extensions of one type, name and version\n"
        "errors 0 warnings 2\nerrors 0 warnings 0\n",
        0,
    ),
]

# A file, how much of its report is printed, what is, and the status.
VERIFIED = [
    (([(P0, 0), (PIXEL, 1)], ""), ALL, CLEAN, 0),
    (([(P0, 0)], ""), ERRORS, CLEAN, 0),
    (([(P0, 0)], ""), QUIET, CLEAN, 0),
    (WRONG, ALL, REPORT, 1),
    (
        WRONG,
        ERRORS,
        "E14 2 0 END card not blank\nE16 2 0 PCOUNT or GCOUNT out of place\n"
        "E18 2 0 SIMPLE or XTENSION in the wrong kind of HDU\nerrors 3 warnings 1\n",
        1,
    ),
    (WRONG, QUIET, "errors 3 warnings 1\n", 1),
    (NAMED_TWICE, ALL, NAMED_REPORT, 0),
    (NAMED_TWICE, ERRORS, "errors 0 warnings 2\n", 0),
    (NAMED_TWICE, QUIET, "errors 0 warnings 2\n", 0),
    # warnings alone are no error
    (
        ([(P0, 0)], "x"),
        ALL,
        "W26 2 0 bytes after the last HDU\nerrors 0 warnings 1\n",
        0,
    ),
    (([(P0, 0)], "x"), ERRORS, "errors 0 warnings 1\n", 0),
    (([(P0, 0)], "x"), QUIET, "errors 0 warnings 1\n", 0),
    # by the numbers of codes, each once
    (([(P0, 0)], ""), SUMMARY, CLEAN, 0),
    (
        WRONG,
        SUMMARY,
        "E14 1 END card not blank\nE16 1 PCOUNT or GCOUNT out of place\n"
        "E18 1 SIMPLE or XTENSION in the wrong kind of HDU\nW26 1 bytes after the last HDU\nerrors 3 warnings 1\n",
        1,
    ),
    (
        WRONG,
        [*SUMMARY, "-e"],
        "E14 1 END card not blank\nE16 1 PCOUNT or GCOUNT out of place\n"
        "E18 1 SIMPLE or XTENSION in the wrong kind of HDU\nerrors 3 warnings 1\n",
        1,
    ),
    (WRONG, [*SUMMARY, "-q"], "errors 3 warnings 1\n", 1),
    (NAMED_TWICE, SUMMARY, "W25 2 two extensions of one type, name and version\nerrors 0 warnings 2\n", 0),
    (NAMED_TWICE, [*SUMMARY, "-w"], "W25 2 two extensions of one type, name and version\nerrors 0 warnings 2\n", 1),
    (NAMED_TWICE, [*SUMMARY, "-e"], "errors 0 warnings 2\n", 0),
    (
        (
            [
                (f"{MANDATORY}|DATE    = 1|DATE    = '2024-02-30'|epoch   = 1|EPOCH   = x|EPOCH   = x|END", 0),
                (THREE_WRONG, 0),
                (THREE_WRONG, 0),
            ],
            "",
        ),
        SUMMARY,
        "E02 1 bad keyword name\nE03 2 unreadable value\nE05 1 value of the wrong type\nW08 2 keyword repeated\nE12 1 bad date\n"
        "W13 2 deprecated keyword\nE14 2 END card not blank\nE16 2 PCOUNT or GCOUNT out of place\n"
        "E18 2 SIMPLE or XTENSION in the wrong kind of HDU\nerrors 11 warnings 4\n",
        1,
    ),
]

# Bytes of the shortest file, what they become, a script, its answers, the status, and what is saved.
BYTES = [
    # the first new card makes the fill spaces, and leaves END as it is
    (
        {250: ord("x"), 2880: ord("x")},
        "rep\nins 1 4 COMMENT\nrep",
        "E14 1 0 END card not blank\nE15 1 0 header fill not spaces\nerrors 2 warnings 0\n"
        "E14 1 0 END card not blank\nerrors 1 warnings 0\n",
        0,
        header(f"{MANDATORY}|COMMENT|END      x"),
    ),
    (
        {40: 255},
        "rep",
        "E01 1 1 byte outside ASCII text\nE06 1 1 mandatory card not in fixed format\nerrors 2 warnings 0\n",
        0,
        changed(header(P0), {40: 255}),
    ),
    # saved as it was, and a line is refused
    (
        {},
        "off\nsum 1\nrep\nstat 1",
        "1 0 2880 2880\ndatasum 0 verdicts 0 0\nerrors 0 warnings 0\nline 4: refused 9 NotImage\n",
        1,
        header(P0),
    ),
]


def cases():
    for places, script, answers, status, saved in BYTES:
        yield f"{places}: {script}", edited, changed(header(P0), places), script, answers, status, saved
    yield "255 as byte 40", told, QUIET, changed(header(P0), {40: 255}), "errors 2 warnings 0\n", 1
    for before, script, answers, status in SCRIPTS + NAMES:
        yield script, reported, file(before, zeros), script, answers, status
    for text, words, report, status in VERIFIED:
        yield f"{' '.join(words)}: {report}", told, words, file(text, zeros), report, status


def reported(program, before, script, answers, status):
    """Where a script isn't answered so, or what is saved has another report in a new session, or as it passes by."""
    ran = program.edit(before, script.encode("latin-1"))
    yield from differences(ran, status=status, printed=answers.encode("latin-1"), reported=b"")
    fresh = program.edit(ran.saved, b"rep").printed
    if script.endswith("rep") and not ran.printed.endswith(fresh):
        yield f"what is saved has the report {shown(fresh)}"
    yield from differences(program.tell(ALL, ran.saved), printed=fresh, reported=b"")
