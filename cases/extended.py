"""Extended lines (`-x`), each beside the plain line that stands for it, written by hand: both print, save and end alike. Without
`-x` each is not a command. Lines that want something of the file, and names that no extension has, with what they print."""
from fits import MANDATORY, PIXEL, file, header
from program import differences

# A file with keywords of all types, an array whose name continues, and extensions of one name and of another.
PRIMARY = (
    f"{MANDATORY}|EXTEND  =                    T / extensions|OBJECT  = 'M31     '           / the galaxy|"
    "EXPTIME =                1.5D3 / in seconds|COUNT   = 42|CENTRE  =           (1.0, 2.5) / mean|"
    "NOTHING =                      / not known|BARE    = 'it''s'|READY   =                    T|"
    "BROKEN  = 1 2|HISTORY a line|"
    f"LONG    = '{'a' * 67}&'|CONTINUE  '{'b' * 20}' / its comment|"
    "DATE    = '2024-02-29' / of writing| | |END"
)


def extension(name, version=None):
    """An image extension of this name, and of this version, if it has one."""
    cards = [f"EXTNAME = '{name}'", *([] if version is None else [f"EXTVER  = {version}"]), "BUNIT   = 'adu     '"]
    return PIXEL.replace("|END", f"|{'|'.join(cards)}|END")


HDUS = [
    (PRIMARY, 0),
    (extension("SCI"), 1),
    (extension("ERR", 1), 1),
    (extension("SCI     ", 2), 1),
    (extension("SCI", 2), 1),
    (extension("a,b", "3.0"), 1),
]
SUBJECT = file((HDUS, ""))

# Extended lines, and the plain lines that stand for them.
PAIRS = [
    # a value, with the comment that is there
    ("val 1 EXPTIME 1500.0", "set 1 EXPTIME 1500.0 / in seconds"),
    ("val 1 EXPTIME 2 / two", "set 1 EXPTIME 2 / two"),
    ("val 1 EXPTIME 2 /", "set 1 EXPTIME 2 /"),
    ("val 1 EXPTIME", "set 1 EXPTIME / in seconds"),
    ("val 1 EXPTIME ", "set 1 EXPTIME / in seconds"),
    ("val 1 OBJECT 'M 32'", "set 1 OBJECT 'M 32' / the galaxy"),
    ("val 1 COUNT 7", "set 1 COUNT 7"),
    ("val 1 NOTHING T", "set 1 NOTHING T / not known"),
    ("val 1 LONG 'short'", "set 1 LONG 'short' / its comment"),
    ("val 01 COUNT 7", "set 1 COUNT 7"),
    # it never adds, and what can't be read isn't written over
    ("val 1 ABSENT 7", "get 1 ABSENT"),
    ("val 1 BROKEN 7", "get 1 BROKEN"),
    ("val 1 HISTORY 7", "get 1 HISTORY"),
    ("val 9 EXPTIME 7", "get 9 EXPTIME"),
    ("val 1 NAXIS 7", "set 1 NAXIS 7"),
    # a comment, with the value that is there
    ("note 1 EXPTIME of the exposure", "set 1 EXPTIME 1.5D3 / of the exposure"),
    ("note 1 EXPTIME", "set 1 EXPTIME 1.5D3"),
    ("note 1 EXPTIME ", "set 1 EXPTIME 1.5D3"),
    ("note 1 OBJECT  far", "set 1 OBJECT 'M31' /  far"),
    ("note 1 BARE is a quote", "set 1 BARE 'it''s' / is a quote"),
    ("note 1 CENTRE c", "set 1 CENTRE (1.0, 2.5) / c"),
    ("note 1 READY / slash", "set 1 READY T / / slash"),
    ("note 1 NOTHING n", "set 1 NOTHING / n"),
    ("note 1 LONG l", f"set 1 LONG '{'a' * 67}{'b' * 20}' / l"),
    ("note 1 ABSENT c", "get 1 ABSENT"),
    ("note 1 BROKEN c", "get 1 BROKEN"),
    ("note 1 EXPTIME \x7f", "set 1 EXPTIME 1.5D3 / \x7f"),
    (f"note 1 OBJECT {'c' * 60}\x7f", f"set 1 OBJECT 'M31' / {'c' * 60}\x7f"),
    # another name, with all else as it stands
    ("ren 1 OBJECT TARGET", "put 1 5 TARGET  = 'M31     '           / the galaxy"),
    ("ren 1 BROKEN WHOLE", "put 1 12 WHOLE   = 1 2"),
    ("ren 1 COUNT N", "put 1 7 N       = 42"),
    ("ren 1 LONG LONGER", f"put 1 14 LONGER  = '{'a' * 67}&'"),
    ("ren 1 ABSENT TARGET", "get 1 ABSENT"),
    ("ren 1 HISTORY TARGET", "get 1 HISTORY"),
    ("ren 9 OBJECT TARGET", "get 9 OBJECT"),
    ("ren 1 OBJECT COMMENT", "set 1 COMMENT"),
    ("ren 1 OBJECT small", "set 1 small"),
    ("ren 1 NAXIS MAXIS", "put 1 3 MAXIS   =                    0"),
    # a card after the last that isn't blank
    ("add 1 OBSERVER= 'N. Night'", "put 1 17 OBSERVER= 'N. Night'"),
    ("add 2 HISTORY of it", "ins 2 9 HISTORY of it"),
    ("add 2", "ins 2 9"),
    ("add 1 END", "put 1 17 END"),
    ("add 1 \x01", "put 1 17 \x01"),
    ("add 9 COMMENT", "ins 9 1 COMMENT"),
    # an HDU by the name of an extension, and by its version
    ("get @SCI BUNIT", "get 2 BUNIT"),
    ("get @ERR EXTVER", "get 3 EXTVER"),
    ("set @SCI,2 BUNIT 'electron'", "set 4 BUNIT 'electron'"),
    ("set @SCI,1 BUNIT 'electron'", "set 2 BUNIT 'electron'"),
    ("stat @SCI,02", "stat 4"),
    ("rm @ERR,1", "rm 3"),
    ("del @a,b 7", "del 6 7"),
    ("del @a,b,3 7", "del 0 7"),
    ("sum @SCI", "sum 2"),
    ("val @SCI BUNIT 'electron'", "set 2 BUNIT 'electron'"),
    ("ren @ERR BUNIT UNIT", "put 3 9 UNIT    = 'adu     '"),
    ("get @sci BUNIT", "get 0 BUNIT"),
    ("get @SCI,3 BUNIT", "get 0 BUNIT"),
    ("stamp @NONE", "stamp 0"),
    # what is as it is wanted
    ("want 1 EXPTIME 1500", ""),
    ("want 1 EXPTIME 1.5D3", ""),
    ("want 1 EXPTIME 1.5D3 / in seconds", ""),
    ("want 1 COUNT 42.0", ""),
    ("want 1 COUNT +042", ""),
    ("want 1 COUNT 4.2E1", ""),
    ("want 1 OBJECT 'M31   '", ""),
    ("want 1 READY T", ""),
    ("want 1 NOTHING ", ""),
    ("want 1 CENTRE (1, 2.5)", ""),
    ("want 1 HISTORY", ""),
    ("want 1 BROKEN", ""),
    ("want @SCI,2 BUNIT 'adu'", ""),
    ("lack 1 ABSENT", ""),
    ("lack @SCI EXTVER", ""),
    ("want 9 OBJECT", "get 9 OBJECT"),
    ("want 9 OBJECT 1", "get 9 OBJECT"),
    ("lack 9 OBJECT", "get 9 OBJECT"),
]

W70, W72 = "w" * 70, "v" * 72

# Lines that stand for several, and these.
SEVERAL = [
    ("hist 1 a line", ["put 1 17 HISTORY a line"]),
    ("hist 1", ["put 1 17 HISTORY"]),
    ("hist 1 ", ["put 1 17 HISTORY"]),
    ("hist @SCI flat fielded", ["ins 2 9 HISTORY flat fielded"]),
    (f"hist 1 {W72}", [f"put 1 17 HISTORY {W72}"]),
    (f"hist 1 {W72} ", [f"put 1 17 HISTORY {W72}"]),
    (f"hist 1 {W72}xy", [f"put 1 17 HISTORY {W72}", "put 1 18 HISTORY xy"]),
    (f"hist 1 {W72} xy", [f"put 1 17 HISTORY {W72}", "put 1 18 HISTORY xy"]),
    (f"hist 1 {W72}  xy", [f"put 1 17 HISTORY {W72}", "put 1 18 HISTORY  xy"]),
    (f"hist 1 {W70} xy", [f"put 1 17 HISTORY {W70}", "put 1 18 HISTORY xy"]),
    (f"hist 1 {W70} x", [f"put 1 17 HISTORY {W70} x"]),
    (f"hist 1  {W72}", [f"put 1 17 HISTORY  {W72[:71]}", "put 1 18 HISTORY v"]),
    (f"hist 1 a {W70} b {W72}{W72}", [f"put 1 17 HISTORY a {W70}", "put 1 18 HISTORY b", f"ins 1 19 HISTORY {W72}", f"ins 1 20 HISTORY {W72}"]),
    (f"hist 6 {W70} {W70} {W70}", [f"ins 6 10 HISTORY {W70}", f"ins 6 11 HISTORY {W70}", f"ins 6 12 HISTORY {W70}"]),
]

# Comments and strings of so many characters.
def comment(count):
    return ("as it was seen through thin clouds " * 3)[: count - 1] + "."


def letters(count):
    return ("abcdefghijklmnopqrstuvwxyz" * 8)[:count]


C60 = comment(60)

# A comment that has no room after a string stands on a card of its own: lines, and plain ones that leave the same cards.
OWN_CARD = [
    (f"note 1 OBJECT {comment(47)}", [f"put 1 5 OBJECT  = 'M31     '           / {comment(47)}"]),
    (f"note 1 OBJECT {comment(48)}", ["put 1 5 OBJECT  = 'M31&'", f"ins 1 6 CONTINUE  '' / {comment(48)}"]),
    (f"note 1 OBJECT {comment(65)}", ["put 1 5 OBJECT  = 'M31&'", f"ins 1 6 CONTINUE  '' / {comment(65)}"]),
    (f"note 1 BARE {C60}", ["put 1 10 BARE    = 'it''s&'", f"ins 1 11 CONTINUE  '' / {C60}"]),
    (f"note 1 LONG {comment(30)}", [f"put 1 15 CONTINUE  '{'b' * 20}' / {comment(30)}"]),
    (f"note 1 LONG {C60}", [f"put 1 15 CONTINUE  '{'b' * 20}&'", f"ins 1 16 CONTINUE  '' / {C60}"]),
    (f"note @ERR BUNIT {C60}", ["put 3 9 BUNIT   = 'adu&'", f"ins 3 10 CONTINUE  '' / {C60}"]),
    (f"val 1 LONG 'short' / {C60}", ["put 1 14 LONG    = 'short&'", f"put 1 15 CONTINUE  '' / {C60}"]),
    (f"val 1 LONG '' /{C60}", ["put 1 14 LONG    = '&'", f"put 1 15 CONTINUE  '' /{C60}"]),
    (f"val 1 OBJECT '{letters(55)}'", [f"put 1 5 OBJECT  = '{letters(55)}' / the galaxy"]),
    (f"val 1 OBJECT '{letters(56)}'", [f"put 1 5 OBJECT  = '{letters(56)}&'", "ins 1 6 CONTINUE  '' / the galaxy"]),
    (f"val 1 OBJECT '{letters(67)}'", [f"put 1 5 OBJECT  = '{letters(67)}&'", "ins 1 6 CONTINUE  '' / the galaxy"]),
    (f"val 1 OBJECT '{letters(68)}'", [f"put 1 5 OBJECT  = '{letters(67)}&'", f"ins 1 6 CONTINUE  '{letters(68)[67]}' / the galaxy"]),
    (f"val 1 OBJECT '{letters(66)}'''", [f"put 1 5 OBJECT  = '{letters(66)}&'", "ins 1 6 CONTINUE  '''' / the galaxy"]),
    (f"val 1 OBJECT '{letters(68)}' /{comment(65)}", [f"put 1 5 OBJECT  = '{letters(67)}&'", f"ins 1 6 CONTINUE  '{letters(68)[67]}' /{comment(65)}"]),
    (f"val 1 OBJECT '{letters(134)}' / {C60}", [
        f"put 1 5 OBJECT  = '{letters(67)}&'", f"ins 1 6 CONTINUE  '{letters(134)[67:]}&'", f"ins 1 7 CONTINUE  '' / {C60}",
    ]),
    (f"val 1 OBJECT '{letters(135)}'", [
        f"put 1 5 OBJECT  = '{letters(67)}&'", f"ins 1 6 CONTINUE  '{letters(134)[67:]}&'", f"ins 1 7 CONTINUE  '{letters(135)[134]}' / the galaxy",
    ]),
]

# Where it has no room there either, or may not stand there, the line is refused as before.
NO_CARD = [
    (f"note 1 OBJECT {comment(66)}", "8 BadValue"),
    (f"note 1 COUNT {C60}", "8 BadValue"),
    (f"note 1 CENTRE {C60}", "8 BadValue"),
    (f"note 1 READY {C60}", "8 BadValue"),
    (f"val 1 OBJECT '{letters(68)}' /{comment(66)}", "8 BadValue"),
    (f"val 1 OBJECT '{letters(66)}&'", "8 BadValue"),
    (f"note 2 XTENSION {C60}", "6 Shape"),
]

# Lines that stand for several of which one is refused: those before it are done, and it is refused.
REFUSED = [
    ("hist 9 a line", [], "1 NoHdu"),
    ("hist 1 \x7f", [], "4 BadText"),
    (f"hist 1 {W72}\x7f{W72}", [f"put 1 17 HISTORY {W72}"], "4 BadText"),
]

# Lines for each HDU, and the plain ones of each.
EACH = [
    ("hist * a line", ["put 1 17 HISTORY a line", "ins 2 9 HISTORY a line", *(f"ins {h} 10 HISTORY a line" for h in (3, 4, 5, 6))]),
    ("add * COMMENT c", ["put 1 17 COMMENT c", "ins 2 9 COMMENT c", *(f"ins {h} 10 COMMENT c" for h in (3, 4, 5, 6))]),
    (f"hist * {W72} xy", [
        f"put 1 17 HISTORY {W72}", "put 1 18 HISTORY xy", f"ins 2 9 HISTORY {W72}", "ins 2 10 HISTORY xy",
        *(line for h in (3, 4, 5, 6) for line in (f"ins {h} 10 HISTORY {W72}", f"ins {h} 11 HISTORY xy")),
    ]),
    ("set * OBSERVER 'N. Night'", [f"set {h} OBSERVER 'N. Night'" for h in range(1, 7)]),
    ("note * NAXIS of axes", ["set 1 NAXIS 0 / of axes", *(f"set {h} NAXIS 1 / of axes" for h in range(2, 7))]),
    ("ins * 7 COMMENT c", [f"ins {h} 7 COMMENT c" for h in range(1, 7)]),
    ("del * 7", [f"del {h} 7" for h in range(1, 7)]),
    ("stamp *", [f"stamp {h}" for h in range(1, 7)]),
    ("lack * ABSENT", []),
    ("want * BITPIX", []),
]

# Lines for each HDU that one of them refuses: nothing is saved.
EACH_REFUSED = [
    ("val * BUNIT 'electron'", "3 NoKey"),
    ("set * NAXIS 1", "6 Shape"),
    ("unset * EXTVER", "3 NoKey"),
    ("want * EXTNAME", "17 Other"),
    ("lack * EXTNAME", "17 Other"),
    ("want * BUNIT 'adu'", "17 Other"),
    ("hist * \x7f", "4 BadText"),
]

# Lines that no HDU's number is left out of.
NOT_EACH = ["rm *", "new * u8 2", "mov * 5 6", "fill * 1:1 0", "set ** X 1", "hist **", "set 1* X 1", "off *", "rep *", "get ** BITPIX", "get 1* BITPIX"]

# Queries of each HDU, and what they print: the number of each HDU that answers, and its answer.
ASKED = [
    ("get * EXTNAME", "2 string 'SCI'\n3 string 'ERR'\n4 string 'SCI'\n5 string 'SCI'\n6 string 'a,b'\n"),
    ("get * EXTVER", "3 integer 1\n4 integer 2\n5 integer 2\n6 real 3.0\n"),
    ("get * OBJECT", "1 string 'M31' / the galaxy\n"),
    ("pos * BITPIX", "".join(f"{h} 2\n" for h in range(1, 7))),
    ("pos * BUNIT", "2 8\n3 9\n4 9\n5 9\n6 9\n"),
    ("stat *", "".join(f"{h} defined 1 blank 0 min 1 max 1 sum 1\n" for h in range(2, 7))),
    ("rect * 1:1", "".join(f"{h} 1\n" for h in range(2, 7))),
    ("kept *", "".join(f"{h} no\n" for h in range(1, 7))),
]

# Queries that each HDU refuses: the line is refused as the first one does.
ASKED_IN_VAIN = [
    ("get * ABSENT", "refused 3 NoKey"),
    ("pos * ABSENT", "refused 3 NoKey"),
    ("get * lower", "refused 3 NoKey"),
    ("get *", "not a command"),
    ("rect * 1:9", "refused 9 NotImage"),
]

# Extended lines that aren't done, since the file isn't as they want it, and what they print.
UNMET = [
    ("want 1 EXPTIME 1500.5", "17 Other"),
    ("want 1 EXPTIME 1.5D3 / in hours", "17 Other"),
    ("want 1 COUNT '42'", "17 Other"),
    ("want 1 COUNT 42 / none", "17 Other"),
    ("want 1 OBJECT 'm31'", "17 Other"),
    ("want 1 READY F", "17 Other"),
    ("want 1 CENTRE (1, 2)", "17 Other"),
    ("want 1 ABSENT", "17 Other"),
    ("want 1 ABSENT 1", "17 Other"),
    ("want 1 BROKEN 1", "17 Other"),
    ("lack 1 OBJECT", "17 Other"),
    ("lack 1 HISTORY", "17 Other"),
    ("ren 1 OBJECT COUNT", "16 Exists"),
    ("ren 1 OBJECT OBJECT", "16 Exists"),
]

BIG, Z300 = "1" + "0" * 60, "0" * 300

# Numbers that are the same, and numbers that aren't: each in its turn is that of a card, if it has room there, and the one that is wanted.
SAME = [
    ("1.50", "1.5D0"), ("5", "5.0"), ("5", "5."), ("5", "+005"), ("0.5", "5E-1"), ("0.5", ".5"), ("0.5", "0.50"), ("0.5", "5D-1"),
    ("0.5", f"0.5{Z300}"), ("0.5", f"{Z300}.5"), ("-0.5", "-50.0E-002"),
    ("1E400", "10E399"), ("1E400", "0.01E402"), ("1E-3", "0.001"), ("1E3", "1000"), ("1E3", f"1E+{Z300}3"), ("100E-2", "1"),
    ("0.0", "-0"), ("0E5", "-0.0"), ("0", f"0E-{BIG}"), ("-.0", f"000E{Z300}9"),
    ("123456789012345678901234567890", "1.2345678901234567890123456789E29"),
    ("9223372036854775808", "9.223372036854775808D18"), ("-9223372036854775809", "-9223372036854775809.0"),
    (f"1E{BIG}", f"10E{'9' * 60}"), (f"1E{BIG}", f"0.1E{BIG[:-1]}1"), (f"1E-{BIG}", f".1E-{'9' * 60}"), (f"12.5E-{BIG}", f"125E-{BIG[:-1]}1"),
    ("1", f"1{Z300}E-300"), ("7" * 60, f"0.{'7' * 60}{Z300}E60"),
]
OTHER = [
    ("1.50", "1.51"), ("1.50", "-1.5D0"), ("5", "50"), ("5", "4"), ("0.5", "5E-2"), ("0.5", "5E0"), ("0.5", f"0.5{Z300}1"), ("0.5", "0.05"),
    ("1E400", "10E398"), ("1E400", "10E400"), ("1E400", "1E-400"), ("1E-3", "0.0011"), ("1E-3", "-0.001"), ("0.0", "1E-400"), ("0", f"1E-{BIG}"),
    ("123456789012345678901234567890", "1.2345678901234567890123456788E29"), ("123456789012345678901234567890", "123456789012345678901234567891"),
    (f"1E{BIG}", f"10E{BIG}"), (f"1E{BIG}", f"1E{'9' * 60}"), (f"1E{BIG}", f"1E-{BIG}"), (f"1E-{BIG}", f".1E-{BIG[:-1]}1"),
    ("19", "10"), ("9.9", "10"), ("99", "100"), ("1", "'1'"), ("1", "T"),
]

# Lines that aren't commands, extended or not.
NEITHER = [
    "val",
    "val 1",
    "val x EXPTIME 1",
    "val 1 LONGNAMES 1",
    "val 1 EXPTIME 1 2",
    "val 1 EXPTIME 'open",
    "VAL 1 EXPTIME 1",
    "note",
    "note 1",
    "ren 1 OBJECT",
    "ren 1 OBJECT TARGET MORE",
    "ren 1 OBJECT LONGNAMES",
    "ren 1 OBJECT ",
    "add",
    "add x COMMENT",
    f"add 1 {'c' * 81}",
    "hist",
    "hist x a line",
    "HIST 1 a line",
    "want 1",
    "want 1 OBJECT x y",
    "lack 1",
    "lack 1 OBJECT 'M31'",
    "get @ OBJECT",
    "get @SCI",
    "frob @SCI",
    "off @SCI",
    f"val 1 OBJECT '{'x' * 100000}'",
]


def cases():
    for line, plain in PAIRS:
        yield f"{line}", alike, line, plain
    for line, why in UNMET:
        yield f"{line}", unmet, line, why
    for line, plains in SEVERAL:
        yield f"{line}", several, line, plains, b"", 0
    for line, plains in OWN_CARD:
        yield f"{line}", several, line, plains, b"", 0
    for line, why in NO_CARD:
        yield f"{line}", several, line, [], f"line 1: refused {why}\n".encode(), 1
    yield "a comment on a card of its own is read as before", read_again
    yield "a sum has no comment on a card of its own", sums_stay
    yield "an HDU that is kept stamped has right sums", stamped
    for line, plains, why in REFUSED:
        yield f"{line}", several, line, plains, f"line 1: refused {why}\n".encode(), 1
    for line, plains in EACH:
        yield f"{line}", each, line, plains
    for line, why in EACH_REFUSED:
        yield f"{line}", kept_back, line, f"refused {why}"
    for line, printed in ASKED:
        yield f"{line}", queries, line, printed.encode(), 0
    for line, why in ASKED_IN_VAIN:
        yield f"{line}", queries, line, f"line 1: {why}\n".encode(), 1
    for line in NOT_EACH:
        yield f"{line}", kept_back, line, "not a command"
    for line in NEITHER:
        yield f"{line}", neither, line
    for a, b, so in [(*pair, True) for pair in SAME] + [(*pair, False) for pair in OTHER]:
        yield f"{a} is {'' if so else 'not '}{b}", compared, a, b, so
    yield "a guard keeps a file from being saved", guarded
    yield "each line stands for another of the file as it is then", in_turn


def alike(program, line, plain):
    """Where an extended line doesn't come to what the plain line does, or is a command without `-x`."""
    wanted = program.edit(SUBJECT, plain.encode("latin-1"))
    for words in (["edit", "-x"], ["edit", "--extended"]):
        ran = program.edit(SUBJECT, line.encode("latin-1"), words)
        yield from differences(ran, status=wanted.status, printed=wanted.printed, reported=b"", saved=wanted.saved)
    asked = program.tell(["ask", "-x", "-e", line.encode("latin-1")], SUBJECT)
    yield from differences(asked, status=wanted.status, printed=wanted.printed, reported=b"")
    yield from none(program, line, ["edit"])


def several(program, line, plains, printed, status):
    """Where a line doesn't leave what these plain lines do, or doesn't print this, or is a command without `-x`."""
    wanted = program.edit(SUBJECT, "\n".join(plains).encode("latin-1"))
    ran = program.edit(SUBJECT, line.encode("latin-1"), ["edit", "-x"])
    yield from differences(ran, status=status, printed=printed, reported=b"", saved=wanted.saved)
    yield from none(program, line, ["edit"])


def read_again(program):
    """Where a keyword doesn't say the string and the comment that it was given, or takes other cards along than its own."""
    script = (
        f"note 1 OBJECT {C60}\nget 1 OBJECT\nval 1 OBJECT '{letters(68)}'\nget 1 OBJECT\nval 1 OBJECT 'M31'\n"
        "note 1 OBJECT the galaxy\nget 1 OBJECT\n"
    )
    printed = f"string 'M31' / {C60}\nstring '{letters(68)}' / {C60}\nstring 'M31' / the galaxy\n".encode()
    ran = program.edit(SUBJECT, script.encode(), ["edit", "-x"])
    yield from differences(ran, status=0, printed=printed, reported=b"", saved=SUBJECT)


def sums_stay(program):
    """Where a sum gets its comment on a card of its own, which a stamp would take away."""
    for name in ("DATASUM", "CHECKSUM"):
        subject = header(f"{MANDATORY}|{name.ljust(8)}= '0'|END")
        ran = program.edit(subject, f"note 1 {name} {C60}".encode(), ["edit", "-x"])
        yield from differences(ran, status=1, printed=b"line 1: refused 8 BadValue\n", reported=b"", saved=subject)


def stamped(program):
    """Where an HDU that is kept stamped isn't left as plain lines leave it."""
    for line, plains in OWN_CARD:
        wanted = program.edit(SUBJECT, "\n".join(["keep 1", "keep 3", *plains, "sum 1", "sum 3"]).encode())
        ran = program.edit(SUBJECT, f"keep 1\nkeep 3\n{line}\nsum 1\nsum 3".encode(), ["edit", "-x"])
        yield from differences(ran, status=0, printed=wanted.printed, reported=b"", saved=wanted.saved)


def each(program, line, plains):
    """Where a line for each HDU doesn't leave what these plain lines do, or is a command without `-a`."""
    wanted = program.edit(SUBJECT, "\n".join(plains).encode("latin-1"))
    ran = program.edit(SUBJECT, line.encode("latin-1"), ["edit", "-x", "-a"])
    yield from differences(ran, status=0, printed=b"", reported=b"", saved=wanted.saved)
    for words in (["edit"], ["edit", "-x"]):
        yield from none(program, line, words)


def queries(program, line, printed, status):
    """Where a query of each HDU doesn't print this, counts an HDU that refuses, or is a command without `-x`."""
    after = "get 1 BITPIX\nget 1 ABSENT\n"
    ran = program.edit(SUBJECT, f"{line}\n{after}".encode("latin-1"), ["edit", "-x"])
    yield from differences(ran, status=1, printed=printed + b"integer 8\nline 3: refused 3 NoKey\n", reported=b"", saved=SUBJECT)
    asked = program.tell(["ask", "-x", "-e", line.encode("latin-1")], SUBJECT)
    yield from differences(asked, status=status, printed=printed, reported=b"")
    whole = program.edit(SUBJECT, line.encode("latin-1"), ["edit", "-x", "-a"])
    yield from differences(whole, status=status, printed=printed)
    yield from none(program, line, ["edit"])


def kept_back(program, line, why):
    """Where a line for each HDU that one of them refuses isn't told so, or something is saved."""
    ran = program.edit(SUBJECT, line.encode("latin-1"), ["edit", "-x", "-a"])
    yield from differences(ran, status=1, printed=f"line 1: {why}\n".encode())
    if ran.saved is not None:
        yield "it is saved"


def unmet(program, line, why):
    """Where an extended line that isn't done isn't refused so, or doesn't leave the file."""
    printed = f"line 1: refused {why}\n".encode()
    ran = program.edit(SUBJECT, line.encode(), ["edit", "-x"])
    yield from differences(ran, status=1, printed=printed, reported=b"", saved=SUBJECT)
    yield from none(program, line, ["edit"])


def compared(program, a, b, so):
    """Where a number isn't found to be the same as another, or is found to be, as it has to."""
    for had, wanted in ((a, b), (b, a)):
        for had, wanted in ((had, wanted), (f"(1,{had})", f"( 1.0 , {wanted} )")):
            if len(had) > 70 or "T" in had + wanted or ("(" in had and "'" in had + wanted):
                continue
            subject = header(f"{MANDATORY}|X       = {had}|END")
            ran = program.edit(subject, f"want 1 X {wanted}".encode(), ["edit", "-x"])
            printed = b"" if so else b"line 1: refused 17 Other\n"
            yield from differences(ran, status=0 if so else 1, printed=printed, reported=b"", saved=subject)


def neither(program, line):
    """Where a line is a command, with `-x` or without."""
    for words in (["edit"], ["edit", "-x"]):
        yield from none(program, line, words)


def none(program, line, words):
    """Where a line is a command."""
    why = "too long" if len(line) > 100000 else "not a command"
    ran = program.edit(SUBJECT, line.encode("latin-1"), words)
    yield from differences(ran, status=1, printed=f"line 1: {why}\n".encode(), reported=b"", saved=SUBJECT)


def guarded(program):
    """Where `-a` saves what a guard doesn't let through, or doesn't save what it does."""
    for wanted, status, saved in (("'M31'", 0, True), ("'M33'", 1, False)):
        script = f"want 1 OBJECT {wanted}\nval 1 OBJECT 'NGC 224'\n".encode()
        ran = program.edit(SUBJECT, script, ["edit", "-x", "-a"])
        yield from differences(ran, status=status)
        if (ran.saved is not None) != saved:
            yield "it is saved" if ran.saved else "it isn't saved"


def in_turn(program):
    """Where the lines of a script stand for others than their hand-written ones, each in its turn."""
    script = "rm 2\nval @SCI BUNIT 'e'\nren 1 OBJECT TARGET\nval 1 TARGET 'M33'\nadd 1 HISTORY a\nadd 1 HISTORY b\nadd 1 HISTORY c\n"
    plain = (
        "rm 2\nset 3 BUNIT 'e'\nput 1 5 TARGET  = 'M31     '           / the galaxy\nset 1 TARGET 'M33' / the galaxy\n"
        "put 1 17 HISTORY a\nput 1 18 HISTORY b\nins 1 19 HISTORY c\n"
    )
    wanted = program.edit(SUBJECT, plain.encode())
    ran = program.edit(SUBJECT, script.encode(), ["edit", "-x"])
    yield from differences(ran, status=wanted.status, printed=wanted.printed, reported=b"", saved=wanted.saved)
