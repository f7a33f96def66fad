"""Long scripts: after each line every query answers as a new session does over what is saved. So answers are those of
the present bytes; whether these are right, other tables show."""
import re

from fits import P0, PIXEL, file
from program import differences, shown

# Edits, and a line that is no command: the word before the number of an HDU, and what follows it.
LINES = [
    ("new", " u16 3,2"),
    ("set", " EXTNAME 'A'"),
    ("write", " 1:3,2:2 1 2 65535"),
    ("ins", " 4 COMMENT x"),
    ("stamp", ""),
    ("keep", ""),
    ("set", " BLANK 7"),
    ("new", " i8 -"),
    ("set", " EXTNAME 'A'"),
    ("fill", " 1:2,1:1 40000"),
    ("put", " 6 KEY     = 'a&'"),
    ("rm", ""),
    ("ins", " 7 CONTINUE  'b'"),
    ("set", " KEY 'it''s' / c"),
    ("new", " i64 2"),
    ("fill", " 1:1 -5"),
    ("stamp", ""),
    ("mov", " 7 8"),
    ("set", " EXTVER 1"),
    ("del", " 7"),
    ("new", " u8 1441"),
    ("unset", " KEY"),
    ("keep", ""),
    ("reshape", " i32 3,2"),
    ("fill", " 1:1 200"),
    ("release", ""),
    ("reshape", " u8 2"),
    ("set", " DATE '2024-02-30'"),
    ("stamp", ""),
    ("rm", ""),
    ("set", " EXTNAME 'B'"),
    ("unset", " EXTVER"),
    (
        "set",
        " KEY 'a string of more than sixty-eight characters, which goes on in a second card' / and a comment",
    ),
    ("frob", ""),
]

# How many extensions of one pixel a file has, how far the numbers of HDUs go round, how many lines there are, and how
# many of them are refused at most.
SCRIPTS = [(0, 4, 232, 152), (1, 5, 232, 172), (49, 53, 58, 28)]

# What is asked after each line, of HDUs that are there and of some that aren't.
HDUS = range(64)
QUERIES = ["off", "rep"] + [
    f"{word} {hdu}{rest}"
    for hdu in HDUS
    for word, rest in [("stat", ""), ("sum", ""), ("rect", " 1:1"), ("rect", " 1:1,1:1")]
    + [(word, f" {name}") for word in ("get", "pos") for name in ("XTENSION", "BITPIX", "KEY", "EXTNAME")]
]

# A line that is refused by its number, before and after the queries.
MARK = "mark"
STEP = len([MARK, *QUERIES, MARK]) + 1


def cases():
    for extensions, hdus, count, refused in SCRIPTS:
        before = file(([(P0, 0)] + [(PIXEL, 1)] * extensions, "tail"))
        lines = [line_at(k, hdus) for k in range(count)]
        yield f"{count} lines over {extensions + 1} HDUs", as_saved, before, lines, refused


def line_at(k, hdus):
    """The k-th line of a script: which it is and which HDU it names go round."""
    word, rest = LINES[k % len(LINES)]
    return f"{word} {k % hdus}{rest}"


def as_saved(program, before, lines, refused):
    """Where an answer after a line isn't that of a new session over what is saved then, or too many are refused."""
    asked = program.edit(before, script_of(it for line in lines for it in [line, MARK, *QUERIES, MARK]))
    for k, answer in enumerate(answers_after(asked.printed.decode(), len(lines))):
        ran = program.edit(before, script_of(lines[: k + 1]))
        fresh = program.edit(ran.saved, script_of(QUERIES))
        yield from differences(fresh, printed=answer.encode("latin-1"), reported=b"")
    yield from differences(asked, saved=ran.saved, reported=b"")
    if ran.printed.count(b"\n") > refused:
        yield f"refused: {shown(ran.printed)}"


def script_of(lines):
    """The bytes of a script."""
    return "\n".join(lines).encode("latin-1")


def answers_after(printed, count):
    """What the queries after each line answered, numbered as a script of their own."""
    at = 0
    for first in range(2, count * STEP, STEP):
        opening, closing = (f"line {mark}: not a command\n" for mark in (first, first + STEP - 2))
        begin = printed.index(opening, at) + len(opening)
        at = printed.index(closing, begin)
        yield re.sub(r"(?m)^line (\d+):", lambda it: f"line {int(it[1]) - first}:", printed[begin:at])
