"""Edits of cards beside `ins`, and edits that are refused."""
import hdu_edits
from fits import MANDATORY, P0, data, header
from program import differences, edited

# A script over the shortest file that changes nothing: its answers.
REFUSED = [
    # the first test that fails
    ("put 2 9 X\t", "line 1: refused 1 NoHdu\n"),
    ("put 0 1 X", "line 1: refused 1 NoHdu\n"),
    ("put 1 0 X\t", "line 1: refused 2 NoCard\n"),
    ("put 1 4 X", "line 1: refused 2 NoCard\n"),
    ("put 1 3 END     \t", "line 1: refused 4 BadText\n"),
    ("put 1 3 END", "line 1: refused 5 EndCard\n"),
    ("put 1 3 NAXIS   = 1", "line 1: refused 6 Shape\n"),
    ("put 1 1 COMMENT", "line 1: refused 6 Shape\n"),
    ("put 1 2", "line 1: refused 6 Shape\n"),
    ("del 2 9", "line 1: refused 1 NoHdu\n"),
    ("del 1 0", "line 1: refused 2 NoCard\n"),
    ("del 1 4", "line 1: refused 2 NoCard\n"),
    ("del 1 1", "line 1: refused 6 Shape\n"),
    ("del 1 3", "line 1: refused 6 Shape\n"),
    ("mov 0 1 1", "line 1: refused 1 NoHdu\n"),
    ("mov 1 0 1", "line 1: refused 2 NoCard\n"),
    ("mov 1 1 0", "line 1: refused 2 NoCard\n"),
    ("mov 1 4 1", "line 1: refused 2 NoCard\n"),
    ("mov 1 1 4", "line 1: refused 2 NoCard\n"),
    ("mov 1 1 2", "line 1: refused 6 Shape\n"),
    ("set 2 key 'a&'", "line 1: refused 1 NoHdu\n"),
    ("set 1 key 'a&'", "line 1: refused 7 BadName\n"),
    ("set 1 K.Y 5", "line 1: refused 7 BadName\n"),
    ("set 1 KEY=5", "line 1: refused 7 BadName\n"),
    ("set 1 COMMENT 'x'", "line 1: refused 7 BadName\n"),
    ("set 1 HISTORY 'x'", "line 1: refused 7 BadName\n"),
    ("set 1 CONTINUE 'x'", "line 1: refused 7 BadName\n"),
    ("set 1 END", "line 1: refused 7 BadName\n"),
    ("set 1 NAXIS 'a&'", "line 1: refused 8 BadValue\n"),
    ("set 1 NAXIS 1", "line 1: refused 6 Shape\n"),
    ("set 1 NAXIS", "line 1: refused 6 Shape\n"),
    ("set 1 BITPIX 16", "line 1: refused 6 Shape\n"),
    ("unset 2 key", "line 1: refused 1 NoHdu\n"),
    ("unset 1 key", "line 1: refused 7 BadName\n"),
    ("unset 1 KEY", "line 1: refused 3 NoKey\n"),
    ("unset 1 COMMENT", "line 1: refused 3 NoKey\n"),
    ("unset 1 CONTINUE", "line 1: refused 3 NoKey\n"),
    ("unset 1 END", "line 1: refused 3 NoKey\n"),
    ("unset 1 NAXIS", "line 1: refused 6 Shape\n"),
    ("pos 2 NAXIS", "line 1: refused 1 NoHdu\n"),
    ("pos 1 KEY", "line 1: refused 3 NoKey\n"),
    ("pos 1 key", "line 1: refused 3 NoKey\n"),
    ("pos 1 END", "line 1: refused 3 NoKey\n"),
    (
        "set 1 KEY 'ab&'\nget 1 KEY\nfrob\n",
        "line 1: refused 8 BadValue\nline 2: refused 3 NoKey\nline 3: not a command\n",
    ),
]

# The cards of a file and how many blocks of data it has; a script, its answers, the status, and the cards that are
# saved.
EDITED = [
    # a value and its comment; without a comment the old one goes
    (
        "SIMPLE|BITPIX  = 8|NAXIS   = 0|END",
        0,
        "set 1 KEY 5 / c\nget 1 KEY",
        "integer 5 / c\n",
        0,
        "SIMPLE|BITPIX  = 8|NAXIS   = 0|KEY     =                    5 / c|END",
    ),
    (
        "SIMPLE|BITPIX  = 8|NAXIS   = 0|KEY     =                    5 / c|END",
        0,
        "set 1 KEY\nget 1 KEY",
        "undefined\n",
        0,
        "SIMPLE|BITPIX  = 8|NAXIS   = 0|KEY     =|END",
    ),
    (
        "SIMPLE|BITPIX  = 8|NAXIS   = 0|KEY     =|END",
        0,
        "unset 1 KEY\nunset 1 KEY\nset 1 CONTINUE 'x'",
        "line 2: refused 3 NoKey\nline 3: refused 7 BadName\n",
        1,
        "SIMPLE|BITPIX  = 8|NAXIS   = 0|END",
    ),
    # a string over cards, its first card replaced and put back
    (
        "SIMPLE|BITPIX  = 8|NAXIS   = 0|END",
        0,
        "set 1 KEY 'aaaaaaaaaaaaaaaaaaaaaaaaaaaaaaaaaaaaaaaaaaaaaaaaaaaaaaaaaaaaaaaaaa''bbbbbbbbbbbbbbbbbbbbbbbbbbbbbbbbbbbbbbbbbbbbbbbbbbbbbbbbbbbbbbbbbbbbbbbbb'",
        "",
        0,
        "SIMPLE|BITPIX  = 8|NAXIS   = 0|KEY     = 'aaaaaaaaaaaaaaaaaaaaaaaaaaaaaaaaaaaaaaaaaaaaaaaaaaaaaaaaaaaaaaaaaa&'|CONTINUE  '''bbbbbbbbbbbbbbbbbbbbbbbbbbbbbbbbbbbbbbbbbbbbbbbbbbbbbbbbbbbbbbbbb&'|CONTINUE  'bbbbbbbb'|END",
    ),
    (
        "SIMPLE|BITPIX  = 8|NAXIS   = 0|KEY     = 'aaaaaaaaaaaaaaaaaaaaaaaaaaaaaaaaaaaaaaaaaaaaaaaaaaaaaaaaaaaaaaaaaa&'|CONTINUE  '''bbbbbbbbbbbbbbbbbbbbbbbbbbbbbbbbbbbbbbbbbbbbbbbbbbbbbbbbbbbbbbbbb&'|CONTINUE  'bbbbbbbb'|END",
        0,
        "put 1 4 KEY     = 'x'\nget 1 KEY\nput 1 4 KEY     = 'aaaaaaaaaaaaaaaaaaaaaaaaaaaaaaaaaaaaaaaaaaaaaaaaaaaaaaaaaaaaaaaaaa&'\nget 1 KEY\npos 1 CONTINUE",
        "string 'x'\nstring 'aaaaaaaaaaaaaaaaaaaaaaaaaaaaaaaaaaaaaaaaaaaaaaaaaaaaaaaaaaaaaaaaaa''bbbbbbbbbbbbbbbbbbbbbbbbbbbbbbbbbbbbbbbbbbbbbbbbbbbbbbbbbbbbbbbbbbbbbbbbb'\n5 6\n",
        0,
        "SIMPLE|BITPIX  = 8|NAXIS   = 0|KEY     = 'aaaaaaaaaaaaaaaaaaaaaaaaaaaaaaaaaaaaaaaaaaaaaaaaaaaaaaaaaaaaaaaaaa&'|CONTINUE  '''bbbbbbbbbbbbbbbbbbbbbbbbbbbbbbbbbbbbbbbbbbbbbbbbbbbbbbbbbbbbbbbbb&'|CONTINUE  'bbbbbbbb'|END",
    ),
    # a shorter value takes the links of the old one along, and no other CONTINUE card
    (
        "SIMPLE|BITPIX  = 8|NAXIS   = 0|KEY     = 'a&'|CONTINUE  'b&'|CONTINUE  'c'|CONTINUE  'd'|X|END",
        0,
        "set 1 KEY 1\nget 1 KEY",
        "integer 1\n",
        0,
        "SIMPLE|BITPIX  = 8|NAXIS   = 0|KEY     =                    1|CONTINUE  'd'|X|END",
    ),
    (
        "SIMPLE|BITPIX  = 8|NAXIS   = 0|KEY     = 'a&'|CONTINUE  'b&'|CONTINUE  'c'|CONTINUE  'd'|X|END",
        0,
        "unset 1 KEY",
        "",
        0,
        "SIMPLE|BITPIX  = 8|NAXIS   = 0|CONTINUE  'd'|X|END",
    ),
    # the mandatory cards may be written anew where they say the same
    (
        "SIMPLE|BITPIX  =                   16|NAXIS   =                    1|NAXIS1  =                    3|END",
        1,
        "ins 1 5 END\nput 1 4 NAXIS1  =                    4\nput 1 4 NAXIS1  = 3",
        "line 1: refused 5 EndCard\nline 2: refused 6 Shape\n",
        1,
        "SIMPLE|BITPIX  =                   16|NAXIS   =                    1|NAXIS1  = 3|END",
    ),
    (
        "SIMPLE  = T|BITPIX  = 8|NAXIS   = 0|END",
        0,
        "set 1 NAXIS 0 / c\nset 1 BITPIX 8\nset 1 SIMPLE F",
        "",
        0,
        "SIMPLE  =                    F|BITPIX  =                    8|NAXIS   =                    0 / c|END",
    ),
    # cards move, and a new one stands among them
    (
        P0,
        0,
        "set 1 OBJECT 'a'\nset 1 ORIGIN 'b'\nmov 1 4 5\nins 1 4 COMMENT\npos 1 OBJECT\nmov 1 1 2\nset 1 SIMPLE F",
        "6\nline 6: refused 6 Shape\n",
        1,
        "SIMPLE  =                    F|BITPIX  =                    8|NAXIS   =                    0|COMMENT|ORIGIN  = 'b       '|OBJECT  = 'a       '|END",
    ),
    # the place is counted when the card is out
    (
        "SIMPLE|BITPIX  = 8|NAXIS   = 0|A|B|C|D|END",
        0,
        "mov 1 4 6\nmov 1 7 5",
        "",
        0,
        "SIMPLE|BITPIX  = 8|NAXIS   = 0|B|D|C|A|END",
    ),
    (
        "SIMPLE|BITPIX  = 8|NAXIS   = 0|A|B|C|D|END",
        0,
        "del 1 5\ndel 1 6\nput 1 4 X",
        "",
        0,
        "SIMPLE|BITPIX  = 8|NAXIS   = 0|X|C|END",
    ),
    # cards without a value are none of a keyword, but have places
    (
        "SIMPLE|BITPIX  = 8|NAXIS   = 0|KEY       1|KEY     =2|END",
        0,
        "set 1 KEY 5\npos 1 KEY\nunset 1 KEY\nunset 1 KEY\npos 1 KEY",
        "4 5 6\nline 4: refused 3 NoKey\n4 5\n",
        1,
        "SIMPLE|BITPIX  = 8|NAXIS   = 0|KEY       1|KEY     =2|END",
    ),
    # of a repeated keyword the first card is meant
    (
        "SIMPLE|BITPIX  = 8|NAXIS   = 0|KEY     = 1|KEY     = 2|END",
        0,
        "set 1 KEY 3\nunset 1 KEY\nget 1 KEY",
        "integer 2\n",
        0,
        "SIMPLE|BITPIX  = 8|NAXIS   = 0|KEY     = 2|END",
    ),
    # no edit mends its neighbours: a card in a string parts it, and without the card it is whole again
    (
        "SIMPLE|BITPIX  = 8|NAXIS   = 0|KEY     = 'a&'|CONTINUE  'b'|END",
        0,
        "ins 1 5 COMMENT\nget 1 KEY\ndel 1 5\nget 1 KEY",
        "string 'a&'\nstring 'ab'\n",
        0,
        "SIMPLE|BITPIX  = 8|NAXIS   = 0|KEY     = 'a&'|CONTINUE  'b'|END",
    ),
    # an edit without effect makes the fill spaces
    (
        "SIMPLE|BITPIX  = 8|NAXIS   = 0|X|END     / the end|fill",
        0,
        "mov 1 4 4",
        "",
        0,
        "SIMPLE|BITPIX  = 8|NAXIS   = 0|X|END     / the end",
    ),
    # cards go to their places, before the first and after the last
    (
        "SIMPLE|BITPIX  = 8|NAXIS   = 0|A|B|C|END",
        0,
        "ins 1 4 X",
        "",
        0,
        "SIMPLE|BITPIX  = 8|NAXIS   = 0|X|A|B|C|END",
    ),
    (
        "SIMPLE|BITPIX  = 8|NAXIS   = 0|A|B|C|END",
        0,
        "ins 1 7 X\nins 1 8 Y",
        "",
        0,
        "SIMPLE|BITPIX  = 8|NAXIS   = 0|A|B|C|X|Y|END",
    ),
    (
        "SIMPLE|BITPIX  = 8|NAXIS   = 0|A|B|C|END",
        0,
        "del 1 5",
        "",
        0,
        "SIMPLE|BITPIX  = 8|NAXIS   = 0|A|C|END",
    ),
    # one card comes for two, none for three, and three for one
    (
        "SIMPLE|BITPIX  = 8|NAXIS   = 0|A|KEY     = 'a&'|CONTINUE  'b'|END",
        0,
        "set 1 KEY 5",
        "",
        0,
        "SIMPLE|BITPIX  = 8|NAXIS   = 0|A|KEY     =                    5|END",
    ),
    (
        "SIMPLE|BITPIX  = 8|NAXIS   = 0|KEY     = 'a&'|CONTINUE  'b&'|CONTINUE  'c'|END",
        0,
        "unset 1 KEY",
        "",
        0,
        "SIMPLE|BITPIX  = 8|NAXIS   = 0|END",
    ),
    (
        "SIMPLE|BITPIX  = 8|NAXIS   = 0|A|B|KEY     = 1|END",
        0,
        "set 1 KEY 'aaaaaaaaaaaaaaaaaaaaaaaaaaaaaaaaaaaaaaaaaaaaaaaaaaaaaaaaaaaaaaaaaa''bbbbbbbbbbbbbbbbbbbbbbbbbbbbbbbbbbbbbbbbbbbbbbbbbbbbbbbbbbbbbbbbbbbbbbbbb'",
        "",
        0,
        "SIMPLE|BITPIX  = 8|NAXIS   = 0|A|B|KEY     = 'aaaaaaaaaaaaaaaaaaaaaaaaaaaaaaaaaaaaaaaaaaaaaaaaaaaaaaaaaaaaaaaaaa&'|CONTINUE  '''bbbbbbbbbbbbbbbbbbbbbbbbbbbbbbbbbbbbbbbbbbbbbbbbbbbbbbbbbbbbbbbbb&'|CONTINUE  'bbbbbbbb'|END",
    ),
    # a card moves forward, back, not at all, and by one place
    (
        "SIMPLE|BITPIX  = 8|NAXIS   = 0|A|B|C|END",
        0,
        "mov 1 4 6",
        "",
        0,
        "SIMPLE|BITPIX  = 8|NAXIS   = 0|B|C|A|END",
    ),
    (
        "SIMPLE|BITPIX  = 8|NAXIS   = 0|A|B|C|END",
        0,
        "mov 1 6 4",
        "",
        0,
        "SIMPLE|BITPIX  = 8|NAXIS   = 0|C|A|B|END",
    ),
    (
        "SIMPLE|BITPIX  = 8|NAXIS   = 0|A|B|C|END",
        0,
        "mov 1 5 5",
        "",
        0,
        "SIMPLE|BITPIX  = 8|NAXIS   = 0|A|B|C|END",
    ),
    (
        "SIMPLE|BITPIX  = 8|NAXIS   = 0|A|B|C|D|END",
        0,
        "mov 1 5 6",
        "",
        0,
        "SIMPLE|BITPIX  = 8|NAXIS   = 0|A|C|B|D|END",
    ),
    # GROUPS counts where NAXIS1 is 0, PCOUNT only in random groups
    (
        "SIMPLE|BITPIX  = 8|NAXIS   = 2|NAXIS1  = 0|NAXIS2  = 0|END",
        0,
        "set 1 GROUPS T\nset 1 GROUPS F\nset 1 PCOUNT 7",
        "line 1: refused 6 Shape\n",
        1,
        "SIMPLE|BITPIX  = 8|NAXIS   = 2|NAXIS1  = 0|NAXIS2  = 0|GROUPS  =                    F|PCOUNT  =                    7|END",
    ),
]

# A header in which names repeat, and cards that have no value stand among others.
KEYS = "SIMPLE  = T|BITPIX  = 8|NAXIS   = 0|KEY|COMMENT = 1|KEY     = 1|COMMENT|KEY     = 2|END"

# The cards of a file; a script that asks for a keyword's places and for its value, which its first card with a value
# says; and its answers.
PLACES = [
    (KEYS, "pos 1 KEY\nget 1 KEY", "4 6 8\ninteger 1\n"),
    (KEYS, "pos 1 COMMENT\nget 1 COMMENT", "5 7\nline 2: refused 3 NoKey\n"),
    (KEYS, "pos 1 SIMPLE\nget 1 SIMPLE", "1\nlogical T\n"),
    (KEYS, "pos 1 KEYS\npos 1 key", "line 1: refused 3 NoKey\nline 2: refused 3 NoKey\n"),
    (KEYS, "ins 1 6 HISTORY\npos 1 KEY\nget 1 KEY", "4 7 9\ninteger 1\n"),
    (KEYS, "del 1 4\ndel 1 4\ndel 1 4\npos 1 KEY\nget 1 KEY", "5\ninteger 2\n"),
    (KEYS, "put 1 4 KEY     = 0\nins 1 5 KEY\npos 1 KEY\nget 1 KEY", "4 5 7 9\ninteger 0\n"),
    (KEYS, "ins 1 9 A       = 1\npos 1 A\nget 1 A", "9\ninteger 1\n"),
    (KEYS, "mov 1 8 4\npos 1 KEY\nget 1 KEY", "4 5 7\ninteger 2\n"),
    (KEYS, "mov 1 4 8\npos 1 KEY\nget 1 KEY", "5 7 8\ninteger 1\n"),
    (KEYS, "mov 1 5 5\npos 1 COMMENT\nget 1 COMMENT", "5 7\nline 3: refused 3 NoKey\n"),
    # three cards go at once, and two come for one
    (
        "SIMPLE  = T|BITPIX  = 8|NAXIS   = 0|KEY     = 'a&'|CONTINUE  'b&'|CONTINUE  'c'|COMMENT|KEY     = 2|END",
        "unset 1 KEY\npos 1 KEY\nget 1 KEY\npos 1 COMMENT",
        "5\ninteger 2\n4\n",
    ),
    (
        "SIMPLE  = T|BITPIX  = 8|NAXIS   = 0|KEY     = 1|COMMENT|KEY     = 2|END",
        f"set 1 KEY '{'a' * 69}'\npos 1 KEY\npos 1 CONTINUE\npos 1 COMMENT",
        "4 7\n5\n6\n",
    ),
]

# A field that says a value and a comment, and the cards of `KEY` that these are written to, if they can be.
WRITTEN = [
    ("", "KEY     ="),
    ("/ none", "KEY     =                      / none"),
    ("T / x", "KEY     =                    T / x"),
    ("F", "KEY     =                    F"),
    ("5 / c", "KEY     =                    5 / c"),
    ("5 /", "KEY     =                    5 /"),
    (
        "-12345678901234567890",
        "KEY     = -12345678901234567890",
    ),
    (
        "12345678901234567890/x",
        "KEY     = 12345678901234567890 /x",
    ),
    (
        "123456789012345678901/x",
        "KEY     = 123456789012345678901 /x",
    ),
    ("-1.5E-3", "KEY     =              -1.5E-3"),
    ("(1,2.5)", "KEY     =             (1, 2.5)"),
    ("'a' / x", "KEY     = 'a       '           / x"),
    ("'12345678'", "KEY     = '12345678'"),
    ("'it''s'", "KEY     = 'it''s   '"),
    (
        "'1234567890123456789' /x",
        "KEY     = '1234567890123456789' /x",
    ),
    ("''", "KEY     = ''"),
    ("' '", "KEY     = '        '"),
    ("'a&'", None),
    (
        "'aaaaaaaaaaaaaaaaaaaaaaaaaaaaaaaaaaaaaaaaaaaaaaaaaaaaaaaaaaaaaaaaaaaa'",
        "KEY     = 'aaaaaaaaaaaaaaaaaaaaaaaaaaaaaaaaaaaaaaaaaaaaaaaaaaaaaaaaaaaaaaaaaaaa'",
    ),
    (
        "'aaaaaaaaaaaaaaaaaaaaaaaaaaaaaaaaaaaaaaaaaaaaaaaaaaaaaaaaaaaaaaaaaaaa' /",
        None,
    ),
    (
        "1234567890123456789012345678901234567890123456789012345678901234567890",
        "KEY     = 1234567890123456789012345678901234567890123456789012345678901234567890",
    ),
    (
        "12345678901234567890123456789012345678901234567890123456789012345678901",
        None,
    ),
    (
        "'aaaaaaaaaaaaaaaaaaaaaaaaaaaaaaaaaaaaaaaaaaaaaaaaaaaaaaaaaaaaaaaaaaaaa' / x",
        "KEY     = 'aaaaaaaaaaaaaaaaaaaaaaaaaaaaaaaaaaaaaaaaaaaaaaaaaaaaaaaaaaaaaaaaaaa&'|CONTINUE  'aa'                 / x",
    ),
    (
        "'aaaaaaaaaaaaaaaaaaaaaaaaaaaaaaaaaaaaaaaaaaaaaaaaaaaaaaaaaaaaaaaaaa''bbbbbbbbbbbbbbbbbbbbbbbbbbbbbbbbbbbbbbbbbbbbbbbbbbbbbbbbbbbbbbbbbbbbbbbbb'",
        "KEY     = 'aaaaaaaaaaaaaaaaaaaaaaaaaaaaaaaaaaaaaaaaaaaaaaaaaaaaaaaaaaaaaaaaaa&'|CONTINUE  '''bbbbbbbbbbbbbbbbbbbbbbbbbbbbbbbbbbbbbbbbbbbbbbbbbbbbbbbbbbbbbbbbb&'|CONTINUE  'bbbbbbbb'",
    ),
]

# How many characters the longest string has that is set and asked for.
LONGEST = 300



def cases():
    shortest = header(P0)
    for script, answers in REFUSED + hdu_edits.REFUSED:
        yield script, edited, shortest, script, answers, 1, shortest
    for before, blocks, script, answers, status, after in EDITED:
        yield script, edited, header(before) + data(blocks), script, answers, status, header(after) + data(blocks)
    for before, script, answers in PLACES:
        yield script, answered, header(before), script, answers
    for field, after in WRITTEN:
        script = f"set 1 KEY {field}"
        if after is None:
            yield script, edited, shortest, script, "line 1: refused 8 BadValue\n", 1, shortest
        else:
            yield script, edited, shortest, script, "", 0, header(MANDATORY, after, "END")
    for length in range(LONGEST + 1):
        text = "".join("''" if place % 7 == 6 else "x" for place in range(length))
        script = f"set 1 KEY '{text}' \nget 1 KEY\nunset 1 KEY\npos 1 KEY\n"
        answers = f"string '{text}'\nline 4: refused 3 NoKey\n"
        yield f"a string of {length} places", edited, shortest, script, answers, 1, shortest


def answered(program, file, script, answers):
    """Where a script over a file isn't answered so."""
    ran = program.edit(file, script.encode("latin-1"))
    return differences(ran, status=int("refused" in answers), printed=answers.encode("latin-1"), reported=b"")
