"""Scripts over files: what they print, how they end, and what is saved."""
from fits import COMMENTS, MANDATORY, P0, PIXEL, THREE_PIXELS, file, header
from program import edited

# A script over the shortest file, which is saved as it was; its answers, and the status.
SHORTEST = [
    # an insertion is refused by the first test that fails
    ("ins 1 5 COMMENT x", "line 1: refused 2 NoCard\n", 1),
    ("ins 1 4 END", "line 1: refused 5 EndCard\n", 1),
    ("ins 1 4 COMMENT\t", "line 1: refused 4 BadText\n", 1),
    ("ins 1 4 X\r\n", "line 1: refused 4 BadText\n", 1),
    ("ins 1 4 X\x7f", "line 1: refused 4 BadText\n", 1),
    ("ins 1 4 X\x1f", "line 1: refused 4 BadText\n", 1),
    ("ins 1 3 COMMENT", "line 1: refused 6 Shape\n", 1),
    ("ins 1 2 COMMENT", "line 1: refused 6 Shape\n", 1),
    ("ins 1 1 COMMENT", "line 1: refused 6 Shape\n", 1),
    ("ins 1 3", "line 1: refused 6 Shape\n", 1),
    (
        "ins 1 1 SIMPLE  =                    T",
        "line 1: refused 6 Shape\n",
        1,
    ),
    (
        "ins 1 2 BITPIX  =                    8",
        "line 1: refused 6 Shape\n",
        1,
    ),
    (
        "ins 1 3 NAXIS   =                    1",
        "line 1: refused 6 Shape\n",
        1,
    ),
    ("ins 2 4 X", "line 1: refused 1 NoHdu\n", 1),
    ("ins 0 4 X", "line 1: refused 1 NoHdu\n", 1),
    ("ins 999999999999999999 1 X", "line 1: refused 1 NoHdu\n", 1),
    ("ins 1 0 X", "line 1: refused 2 NoCard\n", 1),
    (
        "ins 1 999999999999999999 X",
        "line 1: refused 2 NoCard\n",
        1,
    ),
    ("ins 2 9 X\t", "line 1: refused 1 NoHdu\n", 1),
    ("ins 1 5 X\t", "line 1: refused 2 NoCard\n", 1),
    ("ins 1 0 END", "line 1: refused 2 NoCard\n", 1),
    ("ins 1 4 END     \xff", "line 1: refused 4 BadText\n", 1),
    ("ins 1 3 X\t", "line 1: refused 4 BadText\n", 1),
    ("ins 1 1 END", "line 1: refused 5 EndCard\n", 1),
    ("frob", "line 1: not a command\n", 1),
    (
        "rep\nnew 1\nfrob\n",
        "errors 0 warnings 0\nline 2: not a command\nline 3: not a command\n",
        1,
    ),
    (
        "get 1 NAXIS\nget 1 KEY\nget 1 BITPIX \nget 1 BITPIX\n",
        "integer 0\nline 2: refused 3 NoKey\nline 3: not a command\ninteger 8\n",
        1,
    ),
]

# Cards of a file without data, a script, its answers, the status, and the cards that are saved.
CHANGED = [
    # a card comes before END
    (
        P0,
        "ins 1 4 COMMENT hello\noff\n",
        "1 0 2880 2880\n",
        0,
        "SIMPLE  =                    T|BITPIX  =                    8|NAXIS   =                    0|COMMENT hello|END",
    ),
    (
        P0,
        "ins 1 3 NAXIS   =                    0",
        "",
        0,
        "SIMPLE  =                    T|BITPIX  =                    8|NAXIS   =                    0|NAXIS   =                    0|END",
    ),
    (
        P0,
        "ins 1 3 NAXIS   = 0 / none",
        "",
        0,
        "SIMPLE  =                    T|BITPIX  =                    8|NAXIS   = 0 / none|NAXIS   =                    0|END",
    ),
    (
        P0,
        "ins 1 4 NAXIS   = 7",
        "",
        0,
        "SIMPLE  =                    T|BITPIX  =                    8|NAXIS   =                    0|NAXIS   = 7|END",
    ),
    (
        P0,
        "ins 1 4",
        "",
        0,
        "SIMPLE  =                    T|BITPIX  =                    8|NAXIS   =                    0| |END",
    ),
    (
        P0,
        "ins 1 4 ",
        "",
        0,
        "SIMPLE  =                    T|BITPIX  =                    8|NAXIS   =                    0| |END",
    ),
    (
        P0,
        "ins 1 4  X",
        "",
        0,
        "SIMPLE  =                    T|BITPIX  =                    8|NAXIS   =                    0| X|END",
    ),
    (
        P0,
        "ins 1 4 ENDX",
        "",
        0,
        "SIMPLE  =                    T|BITPIX  =                    8|NAXIS   =                    0|ENDX|END",
    ),
    (
        P0,
        "ins 1 4  END",
        "",
        0,
        "SIMPLE  =                    T|BITPIX  =                    8|NAXIS   =                    0| END|END",
    ),
    (
        P0,
        "ins 000000000000000001 04 ~",
        "",
        0,
        "SIMPLE  =                    T|BITPIX  =                    8|NAXIS   =                    0|~|END",
    ),
    (
        P0,
        "ins 1 4 a\nins 1 4 b\nins 1 6 c\nins 1 5 d\n",
        "",
        0,
        "SIMPLE  =                    T|BITPIX  =                    8|NAXIS   =                    0|b|d|a|c|END",
    ),
    # a refused line leaves the others done
    (
        P0,
        "ins 1 4 a\nins 1 4 END\noff\nfrob\nins 1 5 b\n",
        "line 2: refused 5 EndCard\n1 0 2880 2880\nline 4: not a command\n",
        1,
        "SIMPLE  =                    T|BITPIX  =                    8|NAXIS   =                    0|a|b|END",
    ),
    # fill and END stay until a card is inserted
    (
        "SIMPLE  =                    T|BITPIX  =                    8|NAXIS   =                    0|END     / the end|fill|z",
        "ins 1 4 END\noff\n",
        "line 1: refused 5 EndCard\n1 0 2880 2880\n",
        1,
        "SIMPLE  =                    T|BITPIX  =                    8|NAXIS   =                    0|END     / the end|fill|z",
    ),
    (
        "SIMPLE  =                    T|BITPIX  =                    8|NAXIS   =                    0|END     / the end|fill|z",
        "ins 1 4 X\n",
        "",
        0,
        "SIMPLE  =                    T|BITPIX  =                    8|NAXIS   =                    0|X|END     / the end",
    ),
    # the first card may say anything of SIMPLE
    (
        "SIMPLE  =                    F|BITPIX  =                    8|NAXIS   =                    0|END",
        "off\n",
        "1 0 2880 2880\n",
        0,
        "SIMPLE  =                    F|BITPIX  =                    8|NAXIS   =                    0|END",
    ),
    (
        "SIMPLE|BITPIX  =                    8|NAXIS   =                    0|END",
        "off\n",
        "1 0 2880 2880\n",
        0,
        "SIMPLE|BITPIX  =                    8|NAXIS   =                    0|END",
    ),
    (
        "SIMPLE  anything\x01|BITPIX  =                    8|NAXIS   =                    0|END",
        "off\n",
        "1 0 2880 2880\n",
        0,
        "SIMPLE  anything\x01|BITPIX  =                    8|NAXIS   =                    0|END",
    ),
    # mandatory cards may be in free format
    (
        "SIMPLE  =                    T|BITPIX  = 8|NAXIS   =                    0|END",
        "off\n",
        "1 0 2880 2880\n",
        0,
        "SIMPLE  =                    T|BITPIX  = 8|NAXIS   =                    0|END",
    ),
    (
        "SIMPLE  =                    T|BITPIX  =                    8 / bits|NAXIS   =                    0|END",
        "off\n",
        "1 0 2880 2880\n",
        0,
        "SIMPLE  =                    T|BITPIX  =                    8 / bits|NAXIS   =                    0|END",
    ),
    (
        "SIMPLE  =                    T|BITPIX  =                    8|NAXIS   =                   00|END",
        "off\n",
        "1 0 2880 2880\n",
        0,
        "SIMPLE  =                    T|BITPIX  =                    8|NAXIS   =                   00|END",
    ),
    (
        "SIMPLE  =                    T|BITPIX  =                  -64|NAXIS   =                    0|END",
        "off\n",
        "1 0 2880 2880\n",
        0,
        "SIMPLE  =                    T|BITPIX  =                  -64|NAXIS   =                    0|END",
    ),
    # axes of which one is zero need no data
    (
        "SIMPLE|BITPIX  = 64|NAXIS   = 3|NAXIS1  = 4000000000|NAXIS2  = 4000000000|NAXIS3  = 0|END",
        "off",
        "1 0 2880 2880\n",
        0,
        "SIMPLE|BITPIX  = 64|NAXIS   = 3|NAXIS1  = 4000000000|NAXIS2  = 4000000000|NAXIS3  = 0|END",
    ),
    # an inserted card says its value
    (
        P0,
        "ins 1 4 KEY     = 1.5D3 / x\nget 1 KEY\n",
        "real 1.5D3 / x\n",
        0,
        "SIMPLE  =                    T|BITPIX  =                    8|NAXIS   =                    0|KEY     = 1.5D3 / x|END",
    ),
    (
        P0,
        "ins 1 4 KEY     = 1e3\nget 1 KEY\n",
        "line 2: refused 8 BadValue\n",
        1,
        "SIMPLE  =                    T|BITPIX  =                    8|NAXIS   =                    0|KEY     = 1e3|END",
    ),
    (
        P0,
        "ins 1 4 KEY     =\nget 1 KEY\n",
        "undefined\n",
        0,
        "SIMPLE  =                    T|BITPIX  =                    8|NAXIS   =                    0|KEY     =|END",
    ),
    (
        P0,
        "ins 1 4 KEY     = ( 1 ,2.)/\nget 1 KEY\n",
        "complex (1, 2.) /\n",
        0,
        "SIMPLE  =                    T|BITPIX  =                    8|NAXIS   =                    0|KEY     = ( 1 ,2.)/|END",
    ),
    # as CFITSIO writes the first card
    (
        "SIMPLE  =                    T / file does conform to FITS standard|BITPIX  =                    8|NAXIS   =                    0|END",
        "get 1 SIMPLE",
        "logical T / file does conform to FITS standard\n",
        0,
        "SIMPLE  =                    T / file does conform to FITS standard|BITPIX  =                    8|NAXIS   =                    0|END",
    ),
    # a long string says its last comment
    (
        "SIMPLE|BITPIX  = 8|NAXIS   = 0|KEY     = 'ab&' / first|CONTINUE  'c''d&' / second|CONTINUE  'e  ' / last|CONTINUE  'no link'|BARE    = 'x&' / first|CONTINUE  '&'|CONTINUE  ''|OPEN    = 'x&' / open|COMMENT   'y'|END",
        "get 1 KEY\nget 1 BARE\nget 1 OPEN\n",
        "string 'abc''de' / last\nstring 'x'\nstring 'x&' / open\n",
        0,
        "SIMPLE|BITPIX  = 8|NAXIS   = 0|KEY     = 'ab&' / first|CONTINUE  'c''d&' / second|CONTINUE  'e  ' / last|CONTINUE  'no link'|BARE    = 'x&' / first|CONTINUE  '&'|CONTINUE  ''|OPEN    = 'x&' / open|COMMENT   'y'|END",
    ),
    # the first card that has a value counts
    (
        "SIMPLE|BITPIX  = 8|NAXIS   = 0|KEY       1|KEY     =2|KEYS    = 3|key     = 4|KEY     = 5 / five|KEY     = 6|BAD     = five|BAD     = 7|END",
        "get 1 KEY\nget 1 BAD\nget 1 KEYS\nget 1 key\n",
        "integer 5 / five\nline 2: refused 8 BadValue\ninteger 3\ninteger 4\n",
        1,
        "SIMPLE|BITPIX  = 8|NAXIS   = 0|KEY       1|KEY     =2|KEYS    = 3|key     = 4|KEY     = 5 / five|KEY     = 6|BAD     = five|BAD     = 7|END",
    ),
    # a name may have any bytes but spaces; the second card isn't text
    (
        "SIMPLE|BITPIX  = 8|NAXIS   = 0|HIERARCH= 5|a/b,c\x7f\xc3\xbf= 6|=       = 8|#OFF    = 9|END",
        "get 1 HIERARCH\nget 1 a/b,c\x7f\xc3\xbf\nget 1 =\nget 1 #OFF\n",
        "integer 5\nline 2: refused 8 BadValue\ninteger 8\ninteger 9\n",
        1,
        "SIMPLE|BITPIX  = 8|NAXIS   = 0|HIERARCH= 5|a/b,c\x7f\xc3\xbf= 6|=       = 8|#OFF    = 9|END",
    ),
    # a query is refused by the first test that fails
    (
        "SIMPLE|BITPIX  = 8|NAXIS   = 0|COMMENT = 5|BAD     = five|BYTE    = 'x' / \x80|NONE|END",
        "get 2 BAD\nget 2 NAXIS\nget 2 KEY\nget 0 NAXIS\nget 999999999999999999 NAXIS\nget 1 KEY\nget 1 COMMENT\nget 1 NONE\nget 1 END\nget 1 NAXIS\r\nget 1 BAD\nget 1 BYTE\n",
        "line 1: refused 1 NoHdu\nline 2: refused 1 NoHdu\nline 3: refused 1 NoHdu\nline 4: refused 1 NoHdu\nline 5: refused 1 NoHdu\nline 6: refused 3 NoKey\nline 7: refused 3 NoKey\nline 8: refused 3 NoKey\nline 9: refused 3 NoKey\nline 10: refused 3 NoKey\nline 11: refused 8 BadValue\nline 12: refused 8 BadValue\n",
        1,
        "SIMPLE|BITPIX  = 8|NAXIS   = 0|COMMENT = 5|BAD     = five|BYTE    = 'x' / \x80|NONE|END",
    ),
]

# A card, and what `get` prints of it.
VALUES = [
    ("KEY     =  / unknown", "undefined / unknown\n"),
    ("KEY     = /", "undefined /\n"),
    ("KEY     = T", "logical T\n"),
    ("KEY     = F/no", "logical F /no\n"),
    ("KEY     = -08", "integer -08\n"),
    ("KEY     = +7 /  seven   ", "integer +7 /  seven\n"),
    ("KEY     =                   .5", "real .5\n"),
    ("KEY     = 5.", "real 5.\n"),
    ("KEY     = (1E3,-2)", "complex (1E3, -2)\n"),
    ("KEY     = (  0 , 0 ) / z", "complex (0, 0) / z\n"),
    ("KEY     = 'M31     '", "string 'M31'\n"),
    ("KEY     = '  lead'", "string '  lead'\n"),
    ("KEY     = 'a / b' / c / d", "string 'a / b' / c / d\n"),
    ("KEY     = ''", "string ''\n"),
    ("KEY     = '   ' /", "string ' ' /\n"),
    ("KEY     = 'it''s'", "string 'it''s'\n"),
    ("KEY     = '''' / quote's", "string '''' / quote's\n"),
    ("KEY     = '''a''''b'''", "string '''a''''b'''\n"),
]

# A file, a script, its answers, the status, and the file that is saved.
FILES = [
    # a shape is kept
    (
        ([(THREE_PIXELS, 1)], ""),
        "ins 1 5 END",
        "line 1: refused 5 EndCard\n",
        1,
        ([(THREE_PIXELS, 1)], ""),
    ),
    (
        ([(THREE_PIXELS, 1)], ""),
        "ins 1 4 NAXIS1  =                    4",
        "line 1: refused 6 Shape\n",
        1,
        ([(THREE_PIXELS, 1)], ""),
    ),
    (
        ([(THREE_PIXELS, 1)], ""),
        "ins 1 1 SIMPLE  =                    T",
        "line 1: refused 6 Shape\n",
        1,
        ([(THREE_PIXELS, 1)], ""),
    ),
    (
        ([(THREE_PIXELS, 1)], ""),
        "ins 1 2 BITPIX  =                   16",
        "line 1: refused 6 Shape\n",
        1,
        ([(THREE_PIXELS, 1)], ""),
    ),
    (
        ([(THREE_PIXELS, 1)], ""),
        "ins 1 4 COMMENT",
        "line 1: refused 6 Shape\n",
        1,
        ([(THREE_PIXELS, 1)], ""),
    ),
    (
        ([(THREE_PIXELS, 1)], ""),
        "ins 2 4 COMMENT",
        "line 1: refused 1 NoHdu\n",
        1,
        ([(THREE_PIXELS, 1)], ""),
    ),
    # the same axis, in free format and before the old one
    (
        ([(THREE_PIXELS, 1)], ""),
        "ins 1 4 NAXIS1  = 3 / again",
        "",
        0,
        (
            [(
                "SIMPLE  =                    T|BITPIX  =                   16|NAXIS   =                    1|NAXIS1  = 3 / again|NAXIS1  =                    3|END",
                1,
            )],
            "",
        ),
    ),
    # a second axis isn't read, and counts are free in a primary array
    (
        ([(THREE_PIXELS, 1)], ""),
        "ins 1 5 NAXIS1  = 4\nins 1 6 PCOUNT  = 7\nins 1 7 SIMPLE",
        "",
        0,
        (
            [(
                "SIMPLE  =                    T|BITPIX  =                   16|NAXIS   =                    1|NAXIS1  =                    3|NAXIS1  = 4|PCOUNT  = 7|SIMPLE|END",
                1,
            )],
            "",
        ),
    ),
    # but those of an extension are not
    (
        (
            [
                (P0, 0),
                ("XTENSION= 'IMAGE'|BITPIX  = 8|NAXIS   = 0|END", 0),
            ],
            "",
        ),
        "ins 2 4 PCOUNT  = 1\nins 2 4 GCOUNT  = 'x'",
        "line 1: refused 6 Shape\nline 2: refused 6 Shape\n",
        1,
        (
            [
                (P0, 0),
                ("XTENSION= 'IMAGE'|BITPIX  = 8|NAXIS   = 0|END", 0),
            ],
            "",
        ),
    ),
    # an insertion goes to its HDU, and the bytes after the last stay
    (
        ([(P0, 0), (PIXEL, 1)], "trailer"),
        "ins 2 7 EXTNAME = 'SCI'\nget 2 EXTNAME\nget 1 EXTNAME\nins 3 1 X\n",
        "string 'SCI'\nline 3: refused 3 NoKey\nline 4: refused 1 NoHdu\n",
        1,
        (
            [
                (P0, 0),
                (
                    "XTENSION= 'IMAGE   '|BITPIX  =                   16|NAXIS   =                    1|NAXIS1  =                    1|PCOUNT  =                    0|GCOUNT  =                    1|EXTNAME = 'SCI'|END",
                    1,
                ),
            ],
            "trailer",
        ),
    ),
    # bytes after the last HDU are kept
    (
        ([(P0, 0)], "trailer"),
        "off\n",
        "1 0 2880 2880\n",
        0,
        ([(P0, 0)], "trailer"),
    ),
    (
        ([(P0, 0)], " "),
        "off\n",
        "1 0 2880 2880\n",
        0,
        ([(P0, 0)], " "),
    ),
    (
        ([(P0, 0)], "XTENSIO"),
        "off\n",
        "1 0 2880 2880\n",
        0,
        ([(P0, 0)], "XTENSIO"),
    ),
    (
        ([(P0, 0)], "XTENSIOM"),
        "off\n",
        "1 0 2880 2880\n",
        0,
        ([(P0, 0)], "XTENSIOM"),
    ),
    (
        ([(P0, 0), (" ", 0)], ""),
        "off\n",
        "1 0 2880 2880\n",
        0,
        ([(P0, 0), (" ", 0)], ""),
    ),
]

# The cards of the first HDU, a script and how often it is repeated, its answers, and the cards that are saved; and
# the HDUs that follow.
GROWN = [
    (
        [MANDATORY, "END"],
        "ins 1 4 COMMENT\n",
        32,
        "",
        [MANDATORY, COMMENTS, "END"],
        [],
    ),
    (
        [MANDATORY, "END"],
        "ins 1 4 COMMENT\n",
        33,
        "",
        [MANDATORY, COMMENTS, "COMMENT", "END"],
        [],
    ),
    (
        [MANDATORY, COMMENTS, "END"],
        "off\n",
        1,
        "1 0 2880 2880\n",
        [MANDATORY, COMMENTS, "END"],
        [],
    ),
    (
        [MANDATORY, COMMENTS, "X|END"],
        "off\n",
        1,
        "1 0 5760 5760\n",
        [MANDATORY, COMMENTS, "X|END"],
        [],
    ),
    (
        [MANDATORY, COMMENTS, "END"],
        "off\nins 1 36 COMMENT x\noff\n",
        1,
        "1 0 2880 2880\n2 2880 5760 8640\n1 0 5760 5760\n2 5760 8640 11520\n",
        [MANDATORY, COMMENTS, "COMMENT x|END"],
        [(PIXEL, 1)],
    ),
]

# What is answered of a field that says nothing.
NONE = "line 1: refused 8 BadValue\n"

# A field, and what it says.
FIELDS = [
    # Strings lose their doubled quotes and trailing spaces.
    ("'IMAGE   '           / type", "string 'IMAGE' / type\n"),
    ("''", "string ''\n"),
    ("' '", "string ' '\n"),
    ("'        '", "string ' '\n"),
    ("'  lead'", "string '  lead'\n"),
    ("'it''s'", "string 'it''s'\n"),
    ("''''", "string ''''\n"),
    ("''''''", "string ''''''\n"),
    ("'a / b' /c ", "string 'a / b' /c\n"),
    ("'a&'", "string 'a&'\n"),
    ("    'later'", "string 'later'\n"),
    ("'x'/", "string 'x' /\n"),
    ("'open", NONE),
    ("'", NONE),
    ("'a'b'", NONE),
    ("'a' 'b'", NONE),
    ("'''", NONE),
    ("\"a\"", NONE),
    ("'tab\t'", NONE),
    ("'tilde~' / \x7f", NONE),
    # Logical values are T or F alone.
    ("                   T / conforms", "logical T / conforms\n"),
    ("F", "logical F\n"),
    ("T/", "logical T /\n"),
    ("T ", "logical T\n"),
    ("TRUE", NONE),
    ("t", NONE),
    ("TT", NONE),
    ("T F", NONE),
    (".T.", NONE),
    # Integers are digits, with a sign or none.
    ("                  16 / bits", "integer 16 / bits\n"),
    ("+8", "integer +8\n"),
    ("-0", "integer -0\n"),
    ("008", "integer 008\n"),
    ("99999999999999999999999", "integer 99999999999999999999999\n"),
    ("5/6", "integer 5 /6\n"),
    ("+", NONE),
    ("- 5", NONE),
    ("--5", NONE),
    ("5-", NONE),
    ("5 6", NONE),
    ("1,000", NONE),
    ("0x10", NONE),
    ("'5", NONE),
    # Real numbers have a point or an exponent.
    ("1.5", "real 1.5\n"),
    ("8.", "real 8.\n"),
    (".5", "real .5\n"),
    ("-.5E-3", "real -.5E-3\n"),
    ("+1.D+10", "real +1.D+10\n"),
    ("1E3", "real 1E3\n"),
    ("1D3 / double", "real 1D3 / double\n"),
    ("0E99999999999999999999", "real 0E99999999999999999999\n"),
    ("32768.00000000000000001", "real 32768.00000000000000001\n"),
    ("1e3", NONE),
    ("1d3", NONE),
    (".", NONE),
    ("+.", NONE),
    (".E5", NONE),
    ("E5", NONE),
    ("1E", NONE),
    ("1E+", NONE),
    ("1E3.5", NONE),
    ("1.2.3", NONE),
    ("1. 5", NONE),
    ("NaN", NONE),
    ("INF", NONE),
    # Complex numbers are two numbers in brackets.
    ("(1, 2)", "complex (1, 2)\n"),
    ("(1.5,-2E3) / pair", "complex (1.5, -2E3) / pair\n"),
    ("(  +1  ,  .5  )", "complex (+1, .5)\n"),
    ("(0,0)/", "complex (0, 0) /\n"),
    ("(1)", NONE),
    ("(1,)", NONE),
    ("(,1)", NONE),
    ("(1 2)", NONE),
    ("(1,2", NONE),
    ("(1,2,3)", NONE),
    ("(1,2))", NONE),
    ("( 1,T )", NONE),
    ("(1/2,3)", NONE),
    ("()", NONE),
    # A field may have no value, and a comment.
    ("", "undefined\n"),
    ("     ", "undefined\n"),
    ("/", "undefined /\n"),
    ("  / only a comment  ", "undefined / only a comment\n"),
    ("/ a / b", "undefined / a / b\n"),
    ("T /   led", "logical T /   led\n"),
    ("T /   ", "logical T /\n"),
    ("T x / c", NONE),
    ("x", NONE),
    ("\xe9", NONE),
]

# A header of keywords, and what one of them says.
KEYWORDS = (
    "SIMPLE  = T / conforms|BITPIX  = 8|NAXIS   = 0|KEY       5|"
    "KEY     = 'one&' / first|CONTINUE  'two&'|CONTINUE  'three' / last|KEY     = 'later'|"
    "BAD     = 1e3|BAD     = 1|COMMENT = 5|EMPTY   = / nothing|END"
)
SAID = [
    ("SIMPLE", "logical T / conforms\n"),
    ("KEY", "string 'onetwothree' / last\n"),
    ("BAD", "line 1: refused 8 BadValue\n"),
    ("EMPTY", "undefined / nothing\n"),
    ("COMMENT", "line 1: refused 3 NoKey\n"),
    ("CONTINUE", "line 1: refused 3 NoKey\n"),
    ("ABSENT", "line 1: refused 3 NoKey\n"),
]


def cases():
    shortest = header(P0)
    for script, answers, status in SHORTEST:
        yield script, edited, shortest, script, answers, status, shortest
    for before, script, answers, status, after in CHANGED:
        yield script, edited, header(before), script, answers, status, header(after)
    for card, answer in VALUES:
        of_card = header("SIMPLE|BITPIX  = 8|NAXIS   = 0", card, "END")
        yield card, edited, of_card, "get 1 KEY\n", answer, 0, of_card
    for before, script, answers, status, after in FILES:
        yield script, edited, file(before), script, answers, status, file(after)
    for before, script, times, answers, after, more in GROWN:
        rest = file((more, ""))
        name = f"{times} times {script}"
        yield name, edited, header(*before) + rest, script * times, answers, 0, header(*after) + rest
    for field, answer in FIELDS:
        of_field = header(f"{MANDATORY}|KEY     = {field}|END")
        yield field, edited, of_field, "get 1 KEY", answer, int(answer == NONE), of_field
    keywords = header(KEYWORDS)
    for name, answer in SAID:
        yield name, edited, keywords, f"get 1 {name}", answer, int("refused" in answer), keywords
