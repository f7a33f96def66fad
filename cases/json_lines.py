"""Lines as JSON objects: what `--json` prints of each command, read by Python's own reader."""
import glob
import json
import os

from commands import EMPTY, IMAGES, NIGHT, TWO_DATES, UNSIGNED, WRONG, with_cards
from fits import MANDATORY, P0, PIXEL, changed, file, header, pixels
from program import differences, shown

# A name with a quote, a backslash, a line feed, a tab, and a letter outside ASCII.
ODD_NAME = 'say "so"\\\n\té.fits'

# What list says of the shortest file.
LISTED = {"hdu": 1, "class": "PRIMARY", "bitpix": 8, "axes": [], "cards": 3, "header": 0, "data": 2880, "end": 2880}

# Extensions that say what they are called: quotes, what looks like other words, and a type with a space.
NAMES = "EXTNAME = 'it''s at 5 ver 6'|EXTVER  = -3"
CALLED = file(
    (
        [
            (P0, 0),
            (PIXEL.replace("|END", f"|{NAMES}|END"), 1),
            ("XTENSION= 'A B     '|BITPIX  = 8|NAXIS   = 2|NAXIS1  = 20|NAXIS2  = 3|PCOUNT  = 0|GCOUNT  = 1|END", 1),
        ],
        "",
    )
)

# A card with quotes and a backslash, a blank one, and one with bytes that aren't text.
CARDS = with_cards('REMARK  = \'a "b" \\ c\'| |COMMENT a\\b"c')
ODD_CARD = changed(with_cards("COMMENT ab"), {3 * 80 + 9: 0xE9})

# Values of all types.
VALUES = with_cards(
    "S       = 'it''s / \"so\"' / a / b|L       = T|M       = F /no space|I       = 42 / count|J       = -007|"
    "K       = +9223372036854775808|N       = 18446744073709551616 / large|R       = 1.5D3 / s|C       = (1.0, -2) / pair|"
    "D       = (3, 4)|U       = / nothing|V       =|E       = '' /|F       = 'a' / "
)

# Unsigned pixels of 64 bits: their sum has 65.
LARGE = header(
    "SIMPLE  =                    T|BITPIX  =                   64|NAXIS   =                    1|NAXIS1  =                    2|"
    "BSCALE  =                  1.0|BZERO   = 9223372036854775808|END"
) + pixels(8, [2**63 - 1, 2**63 - 1], 0)

# What is typed, the file, standard input, the status, and the objects; of none nothing is said.
ROWS = [
    (["list"], EMPTY, "", 0, [LISTED]),
    (["list", "-H"], EMPTY, "", 0, [LISTED]),
    (["list", "-l"], EMPTY, "", 0, [LISTED]),
    (
        ["list", "-l"],
        CALLED,
        "",
        0,
        [
            LISTED,
            {"hdu": 2, "class": "IMAGE", "bitpix": 16, "axes": [1], "cards": 8, "type": "IMAGE", "name": "it's at 5 ver 6", "ver": -3}
            | {"header": 2880, "data": 5760, "end": 8640},
            {"hdu": 3, "class": "OTHER", "bitpix": 8, "axes": [20, 3], "cards": 7, "type": "A B", "header": 8640, "data": 11520, "end": 14400},
        ],
    ),
    (["sum"], WRONG, "", 0, None),
    (["sum", "-c"], EMPTY, "", 0, []),
    (["sum"], EMPTY, "", 0, [{"hdu": 1, "datasum": 0, "datasum_verdict": 0, "checksum_verdict": 0}]),
    (["stat"], EMPTY, "", 0, [{"hdu": 1}]),
    (
        ["stat"],
        IMAGES,
        "",
        0,
        [
            {"hdu": 1, "defined": 3, "blank": 0, "min": 1, "max": 1029, "sum": 1545},
            {"hdu": 2, "defined": 1, "blank": 0, "min": 1, "max": 1, "sum": 1},
        ],
    ),
    # a number past 64 bits stays what it is, as a text
    (
        ["stat"],
        LARGE,
        "",
        0,
        [{"hdu": 1, "defined": 2, "blank": 0, "min": 2**64 - 1, "max": 2**64 - 1, "sum": str(2**65 - 2)}],
    ),
    (["verify"], EMPTY, "", 0, [{"errors": 0, "warnings": 0}]),
    (
        ["verify", "-e"],
        with_cards("DATE    = '2024-02-30'"),
        "",
        1,
        [{"code": "E12", "hdu": 1, "place": 4, "text": "bad date"}, {"errors": 1, "warnings": 0}],
    ),
    (
        ["verify", "-p"],
        with_cards("DATE    = '2024-02-30'"),
        "",
        1,
        [
            {"code": "E12", "hdu": 1, "place": 4, "text": "bad date", "card": "DATE    = '2024-02-30'"},
            {"errors": 1, "warnings": 0},
        ],
    ),
    (
        ["verify", "-p", "-e"],
        TWO_DATES,
        "",
        1,
        [
            {"code": "E14", "hdu": 1, "place": 0, "text": "END card not blank"},
            {"code": "E12", "hdu": 1, "place": 6, "text": "bad date", "card": "DATE    = '2024-02-30'"},
            {"code": "E12", "hdu": 2, "place": 6, "text": "bad date", "card": "DATE    = '2023-02-29' / no leap year"},
            {"code": "E01", "hdu": 2, "place": 7, "text": "byte outside ASCII text", "card": "OBJECT  = 'a?b'"},
            {"code": "E03", "hdu": 2, "place": 8, "text": "unreadable value", "card": f"KEY     ={' ' * 70}x"},
            {"errors": 5, "warnings": 1},
        ],
    ),
    (
        ["verify", "-s", "-e"],
        TWO_DATES,
        "",
        1,
        [
            {"code": "E01", "count": 1, "text": "byte outside ASCII text"},
            {"code": "E03", "count": 1, "text": "unreadable value"},
            {"code": "E12", "count": 2, "text": "bad date"},
            {"code": "E14", "count": 1, "text": "END card not blank"},
            {"errors": 5, "warnings": 1},
        ],
    ),
    (
        ["cards", "-u", "1"],
        CARDS,
        "",
        0,
        [
            {"hdu": 1, "place": 1, "card": "SIMPLE  =                    T"},
            {"hdu": 1, "place": 2, "card": "BITPIX  =                    8"},
            {"hdu": 1, "place": 3, "card": "NAXIS   =                    0"},
            {"hdu": 1, "place": 4, "card": "REMARK  = 'a \"b\" \\ c'"},
            {"hdu": 1, "place": 5, "card": ""},
            {"hdu": 1, "place": 6, "card": 'COMMENT a\\b"c'},
        ],
    ),
    (["cards", "-k", "COMMENT"], ODD_CARD, "", 1, [{"hdu": 1, "place": 4, "card": "COMMENT ?b"}]),
    (
        ["ask"],
        VALUES,
        "".join(f"get 1 {name}\n" for name in "SLMIJKNRCDUVEF"),
        0,
        [
            {"type": "string", "value": "it's / \"so\"", "comment": "a / b"},
            {"type": "logical", "value": True},
            {"type": "logical", "value": False, "comment": "no space"},
            {"type": "integer", "value": 42, "comment": "count"},
            {"type": "integer", "value": -7},
            {"type": "integer", "value": 2**63},
            {"type": "integer", "value": "18446744073709551616", "comment": "large"},
            {"type": "real", "value": "1.5D3", "comment": "s"},
            {"type": "complex", "value": "(1.0, -2)", "comment": "pair"},
            {"type": "complex", "value": "(3, 4)"},
            {"type": "undefined", "value": None, "comment": "nothing"},
            {"type": "undefined", "value": None},
            {"type": "string", "value": "", "comment": ""},
            {"type": "string", "value": "a", "comment": ""},
        ],
    ),
    (
        ["ask"],
        IMAGES,
        "off\npos 1 NAXIS\nrect 1 1:3\nstat 1\nsum 2\nkept 1\nkeep 2\nkept 2\nget 1 X\nfrob\n" + "x" * 100_001 + "\n",
        1,
        [
            {"numbers": [1, 0, 2880, 5760]},
            {"numbers": [2, 5760, 8640, 11520]},
            {"numbers": [3]},
            {"numbers": [1, 515, 1029]},
            {"defined": 3, "blank": 0, "min": 1, "max": 1029, "sum": 1545},
            None,
            {"kept": False},
            {"kept": True},
            {"line": 9, "refused": "3 NoKey"},
            {"line": 10, "complaint": "not a command"},
            {"line": 11, "complaint": "too long"},
        ],
    ),
    (["ask"], UNSIGNED, "rect 1 1:2\n", 0, [{"numbers": [32769, 33283]}]),
    # queries of each HDU: the number of the HDU is the first field, or the first of numbers
    (
        ["ask", "-x"],
        IMAGES,
        "get * BITPIX\nstat *\nkept *\npos * NAXIS1\nget * ABSENT\n",
        1,
        [
            {"hdu": 1, "type": "integer", "value": 16},
            {"hdu": 2, "type": "integer", "value": 16},
            {"hdu": 1, "defined": 3, "blank": 0, "min": 1, "max": 1029, "sum": 1545},
            {"hdu": 2, "defined": 1, "blank": 0, "min": 1, "max": 1, "sum": 1},
            {"hdu": 1, "kept": False},
            {"hdu": 2, "kept": False},
            {"numbers": [1, 4]},
            {"numbers": [2, 4]},
            {"line": 5, "refused": "3 NoKey"},
        ],
    ),
    (
        ["ask"],
        TWO_DATES,
        "rep\n",
        0,
        [
            {"code": "E14", "hdu": 1, "place": 0, "text": "END card not blank"},
            {"code": "E12", "hdu": 1, "place": 6, "text": "bad date"},
            {"code": "E12", "hdu": 2, "place": 6, "text": "bad date"},
            {"code": "E01", "hdu": 2, "place": 7, "text": "byte outside ASCII text"},
            {"code": "E03", "hdu": 2, "place": 8, "text": "unreadable value"},
            {"code": "W26", "hdu": 3, "place": 0, "text": "bytes after the last HDU"},
            {"errors": 5, "warnings": 1},
        ],
    ),
]

# The commands that print JSON, and a script where one is asked for.
COMMANDS = [["list"], ["list", "-l"], ["sum"], ["sum", "-c"], ["stat"], ["verify"], ["verify", "-p"], ["verify", "-s"], ["verify", "-t"], ["cards"]]
ASKED = ["ask", "-e", "off", "-e", "rep", "-e", "get 1 NAXIS", "-e", "get 2 EXTNAME", "-e", "stat 2", "-e", "sum 1", "-e", "frob", "-e", "kept 1"]

# The files of the examples.
EXAMPLES = sorted(glob.glob(os.path.join(os.path.dirname(os.path.dirname(os.path.abspath(__file__))), "examples", "*", "in.fits")))

# What --json doesn't go with.
REFUSED = [["verify", "-l", "--json"], ["cards", "-L", "-k", "X", "--json"], ["keys", "-k", "X", "--json"], ["diff", "--json", "a.fits"], ["edit", "--json", "a.fits"]]


def cases():
    for words, content, script, status, objects in ROWS:
        yield f"{words} of {len(content)} bytes", says, words, content, script, status, objects
    for words in COMMANDS + [ASKED]:
        yield f"{words} of the examples", is_as_plain, words
    yield "several files", says_of_several
    yield "a name with odd characters", says_of_odd_name
    yield "a file that doesn't open", says_of_closed
    for words in REFUSED:
        yield f"{words}", is_refused, words


def objects_in(printed):
    """The objects of lines, as they are printed: nothing stands between them."""
    lines = printed.split(b"\n")
    return [json.loads(line) for line in lines[:-1]] + ([lines[-1]] if lines[-1] else [])


def apart(found, wanted):
    """Where objects are others: of None nothing is said but that there is one."""
    if wanted is None:
        return []
    if len(found) != len(wanted):
        return [f"{len(found)} objects: {shown(found)}"]
    return [f"{shown(one)}, and not {shown(other)}" for one, other in zip(found, wanted) if other is not None and one != other]


def says(program, words, content, script, status, objects):
    """Where a command says other objects, each with the file's name, or a line that is none."""
    ran, _ = program.over([*words, "--json", "a.fits"], {"a.fits": content}, script.encode("latin-1"))
    wanted = None if objects is None else [None if it is None else {"file": "a.fits"} | it for it in objects]
    yield from differences(ran, status=status)
    yield from apart(objects_in(ran.printed), wanted)
    if any(set(it) <= {"file", "line"} for it in objects_in(ran.printed)):
        yield f"a line of no form: {shown(ran.printed)}"


def is_as_plain(program, words):
    """Where a command prints another number of lines as JSON than as they are, or one that has no form, or ends otherwise."""
    plain, _ = program.over([*words, *EXAMPLES], {}, b"")
    ran, _ = program.over([*words, "--json", *EXAMPLES], {}, b"")
    yield from differences(ran, status=plain.status, reported=plain.reported)
    found = objects_in(ran.printed)
    names = [line.split(b":")[0].decode() for line in plain.printed.split(b"\n")[:-1]]
    if [it["file"] for it in found] != names:
        yield f"{len(found)} objects of {len(names)} lines"
    yield from (f"a line of no form: {it}" for it in found if set(it) == {"file", "line"})


def says_of_several(program):
    ran, _ = program.over(["ask", "--json", "-e", "get 1 BITPIX", "a.fits", "b.fits"], {"a.fits": EMPTY, "b.fits": IMAGES}, b"")
    wanted = [{"file": "a.fits", "type": "integer", "value": 8}, {"file": "b.fits", "type": "integer", "value": 16}]
    yield from differences(ran, status=0, reported=b"")
    yield from apart(objects_in(ran.printed), wanted)
    ran, _ = program.over(["list", "--json", "-r", "night"], NIGHT, b"")
    yield from differences(ran, status=0, reported=b"")
    wanted = ["night/a.fits", "night/a/y.fit", "night/a/z.fts", "night/b.fits.fz"]
    yield from apart([it["file"] for it in objects_in(ran.printed)], wanted)


def says_of_odd_name(program):
    for words, script in ((["list"], b""), (["cards"], b""), (["ask"], b"get 1 NAXIS\n"), (["ask", "-e", "get 1 NAXIS"], b"")):
        ran, _ = program.over([*words, "--json", ODD_NAME], {ODD_NAME: EMPTY}, script)
        yield from differences(ran, status=0, reported=b"")
        found = objects_in(ran.printed)
        if not found or {it["file"] for it in found} != {ODD_NAME}:
            yield f"{words}: {shown(ran.printed)}"


def says_of_closed(program):
    """Faults are told as ever, and the next file is done."""
    files = {"a.fits": b"no", "b.fits": EMPTY}
    ran, _ = program.over(["list", "--json", "a.fits", "b.fits"], files, b"")
    yield from differences(ran, status=2, reported=b"fitsed: a.fits: open refused O1 NotFits\n")
    yield from apart(objects_in(ran.printed), [{"file": "b.fits"} | LISTED])


def is_refused(program, words):
    ran, _ = program.over([*words, "b.fits"], {"a.fits": EMPTY, "b.fits": EMPTY}, b"")
    yield from differences(ran, status=2, printed=b"")
    if not ran.reported.startswith(b"error:"):
        yield shown(ran.reported)
