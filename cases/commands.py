"""Commands over several files, and their forms: a script in words and files, cards, statistics, wrong sums, names of files."""
import contextlib
import glob
import os
import pathlib
import pty
import re
import subprocess
import tempfile

from extended import SUBJECT as CALLED
from fits import MANDATORY, P0, PIXEL, THREE_PIXELS, changed, file
from program import Ran, differences
from sums import CHANGED, STAMPED, WRONG_SUM

EMPTY = file(([(P0, 0)], ""))
IMAGES = file(([(THREE_PIXELS, 1), (PIXEL, 1)], ""))
STAMP = file(([(STAMPED, 0)], ""))
LATER = file(([(CHANGED, 0)], ""))
WRONG = file(([(WRONG_SUM, 1)], ""))

# A string that goes on in two cards, and one that CONTINUE can't go on with.
LONG = (
    "SIMPLE  =                    T|BITPIX  =                    8|NAXIS   =                    0|"
    "LONGSTR = 'one &'|CONTINUE  'two &'|CONTINUE  'three'|OBJECT  = 'M31     '|CONTINUE  'alone'|"
    "COMMENT|HISTORY a  b|END"
)
LONGS = file(([(LONG, 0)], ""))
NAMES = [
    "1 1 SIMPLE  =                    T",
    "1 2 BITPIX  =                    8",
    "1 3 NAXIS   =                    0",
    "1 4 LONGSTR = 'one &'",
    "1 5 CONTINUE  'two &'",
    "1 6 CONTINUE  'three'",
    "1 7 OBJECT  = 'M31     '",
    "1 8 CONTINUE  'alone'",
    "1 9 COMMENT",
    "1 10 HISTORY a  b",
]

# A byte that isn't text in its fourth card.
ODD = changed(file(([(P0.replace("|END", "|COMMENT ab|END"), 0)], "")), {3 * 80 + 9: 7})

# Three pixels of 16 bits, 1 2 and 772 before 1286, and one of them alone, as `fits.data` fills them.
STATS = "1 defined 3 blank 0 min 1 max 1029 sum 1545\n2 defined 1 blank 0 min 1 max 1 sum 1\n"

# Pixels that are stored numbers, scaled, and unsigned ones.
SCALED = file(([(THREE_PIXELS.replace("|END", "|BSCALE  = 0.5|BZERO   = 1500.0|END"), 1)], ""))
UNSIGNED = file(([(THREE_PIXELS.replace("|END", "|BSCALE  = 1.0|BZERO   = 32768|END"), 1)], ""))

# Files whose second HDU has no END, and no shape.
CUT = file(([(P0, 0)], "")) + file(([("XTENSION= 'IMAGE   '|BITPIX  = 8", 0)], ""))
SHAPELESS = file(([(P0, 0)], "")) + file(([("XTENSION= 'IMAGE   '|BITPIX  = 9|END", 0)], ""))
NO_AXIS = file(([(P0.replace("0|END", "1|OBJECT  = 'M31'|END"), 0)], ""))
NO_NAXIS = file(([(P0.split("|NAXIS")[0] + "|END", 0)], ""))
FIRST = "1 1 SIMPLE  =                    T\n1 2 BITPIX  =                    8\n1 3 NAXIS   =                    0\n"


def with_cards(cards):
    """The shortest file with more cards."""
    return file(([(P0.replace("|END", f"|{cards}|END"), 0)], ""))


# A date of no day, which is an error.
DATED = with_cards("DATE    = '2024-02-30'")

# The cards of an extension without data.
EXTENSION = MANDATORY.replace("SIMPLE  =                    T", "XTENSION= 'IMAGE   '") + "|PCOUNT  =                    0|GCOUNT  =                    1"

# An extension whose GCOUNT counts nothing.
BAD_COUNT = file(([(P0, 0), (f"{EXTENSION.rpartition('|')[0]}|GCOUNT  = 'x'|END", 0)], ""))

# A date of no day in each of two HDUs, at one place; in the second a card with a byte that isn't text, and one that ends in
# its last byte. END isn't blank in the first, and bytes follow the second.
TWO_DATES = file(
    (
        [
            (f"{MANDATORY}|EXTEND  =                    T|COMMENT|DATE    = '2024-02-30'|END     x", 0),
            (f"{EXTENSION}|DATE    = '2023-02-29' / no leap year|OBJECT  = 'a\x7fb'|KEY     ={' ' * 70}x|END", 0),
        ],
        "x",
    )
)
FIRST_DATE = "E12 1 6 bad date: DATE    = '2024-02-30'\n"
SECOND_DATE = "E12 2 6 bad date: DATE    = '2023-02-29' / no leap year\n"
ODD_OBJECT = "E01 2 7 byte outside ASCII text: OBJECT  = 'a?b'\n"
NO_VALUE = f"E03 2 8 unreadable value: KEY     ={' ' * 70}x\n"
ERRORS = f"E14 1 0 END card not blank\n{FIRST_DATE}{SECOND_DATE}{ODD_OBJECT}{NO_VALUE}"

# Names that a shell, a terminal or a printed line could take for something else.
ODD_NAMES = ["with space.fits", "it's.fits", "a|b.fits", "a&b.fits", "a\nb.fits", 'say "so".fits', "$HOME.fits"]

# A name that isn't UTF-8, and what is told where that ends the run.
ODD_NAME = "na\udcefve.fits"
ODD_WORD = "fitsed: an argument is not UTF-8\n"

# A file with an object.
TOLD = with_cards("OBJECT  = 'M31     '")

# A folder with files, in it and below it, and what is none of a night's files.
NIGHT = {"night/b.fits.fz": EMPTY, "night/a.fits": EMPTY, "night/notes.txt": b"", "night/a/z.fts": STAMP, "night/a/y.fit": EMPTY, "b.txt": EMPTY}

# An extension whose name goes on in a second card, after a primary HDU of that name.
GOES_ON = file(([(P0.replace("|END", "|EXTNAME = 'LONG'|END"), 0), (f"{EXTENSION}|EXTNAME = 'LO&'|CONTINUE  'NG'|EXTVER  = 'x'|END", 0)], ""))

# A line that makes such an error.
UNDATED = "set 1 DATE '2024-02-30'"

# What is typed, the files, standard input, the status, and what is printed and reported.
ROWS = [
    # a script in words, in files, and both in the order in which they are typed
    (["ask", "-e", "get 1 BITPIX", "a.fits"], {"a.fits": EMPTY}, "", 0, "integer 8\n", ""),
    (["ask", "-e", "get 1 BITPIX", "-e", "get 1 NAXIS", "a.fits"], {"a.fits": EMPTY}, "off\n", 0, "integer 8\ninteger 0\n", ""),
    (["ask", "--line", "get 1 NAXIS", "--file", "s", "a.fits"], {"a.fits": EMPTY, "s": b"get 1 BITPIX"}, "", 0, "integer 0\ninteger 8\n", ""),
    (["ask", "-f", "s", "-e", "get 1 NAXIS", "a.fits"], {"a.fits": EMPTY, "s": b"get 1 BITPIX"}, "", 0, "integer 8\ninteger 0\n", ""),
    (["ask", "-f", "-", "-e", "get 1 NAXIS", "a.fits"], {"a.fits": EMPTY}, "get 1 BITPIX", 0, "integer 8\ninteger 0\n", ""),
    (["ask", "-e", "get 1 BITPIX\nget 1 NAXIS\n", "a.fits"], {"a.fits": EMPTY}, "", 0, "integer 8\ninteger 0\n", ""),
    (["ask", "-e", "", "a.fits"], {"a.fits": EMPTY}, "get 1 NAXIS\n", 0, "", ""),
    # an empty piece is a line, wherever it stands
    (["ask", "-e", "get 1 NAXIS", "-e", "", "-e", "frob", "a.fits"], {"a.fits": EMPTY}, "", 1, "integer 0\nline 3: not a command\n", ""),
    (["ask", "-e", "", "-e", "", "-e", "frob", "a.fits"], {"a.fits": EMPTY}, "", 1, "line 3: not a command\n", ""),
    (["ask", "-e", "get 1 NAXIS", "-f", "s", "-e", "frob", "a.fits"], {"a.fits": EMPTY, "s": b""}, "", 1, "integer 0\nline 3: not a command\n", ""),
    (["ask", "-f", "s", "-e", "frob", "a.fits"], {"a.fits": EMPTY, "s": b"get 1 NAXIS\n"}, "", 1, "integer 0\nline 2: not a command\n", ""),
    # a line may begin with a hyphen
    (["ask", "-e", "-5", "a.fits"], {"a.fits": EMPTY}, "", 1, "line 1: not a command\n", ""),
    (["ask", "-e", "-v", "-e", "--line", "a.fits"], {"a.fits": EMPTY}, "", 1, "line 1: not a command\nline 2: not a command\n", ""),
    (["ask", "-f", "none", "a.fits"], {"a.fits": EMPTY}, "", 3, "", "fitsed: read failed\n"),
    (["ask", "a.fits"], {"a.fits": EMPTY}, "get 1 NAXIS\nget 1 X\n", 1, "integer 0\nline 2: refused 3 NoKey\n", ""),
    # what was asked is not saved
    (["ask", "-e", "del 1 1", "-e", "set 1 OBJECT 'M31'", "-e", "get 1 OBJECT", "a.fits"], {"a.fits": EMPTY}, "", 1, None, ""),
    # several files: their names stand before each line
    (["ask", "-e", "get 1 BITPIX", "a.fits", "b.fits"], {"a.fits": EMPTY, "b.fits": IMAGES}, "", 0, "a.fits:integer 8\nb.fits:integer 16\n", ""),
    (["ask", "-H", "-e", "get 1 BITPIX", "a.fits"], {"a.fits": EMPTY}, "", 0, "a.fits:integer 8\n", ""),
    (["ask", "-H", "a.fits"], {"a.fits": EMPTY}, "get 1 BITPIX\n", 0, "a.fits:integer 8\n", ""),
    (["ask", "a.fits", "b.fits"], {"a.fits": EMPTY, "b.fits": IMAGES}, "get 1 BITPIX\n", 0, "a.fits:integer 8\nb.fits:integer 16\n", ""),
    (["list", "a.fits", "b.fits"], {"a.fits": EMPTY, "b.fits": EMPTY}, "", 0, "a.fits:hdu 1 PRIMARY bitpix 8 axes - cards 3 at 0 2880 2880\nb.fits:hdu 1 PRIMARY bitpix 8 axes - cards 3 at 0 2880 2880\n", ""),
    (["list", "--with-filename", "a.fits"], {"a.fits": EMPTY}, "", 0, "a.fits:hdu 1 PRIMARY bitpix 8 axes - cards 3 at 0 2880 2880\n", ""),
    # a folder stands for the files below it, in the order of their paths; a path that is no folder for itself, whatever its name
    (["sum", "-r", "night", "b.txt"], NIGHT, "", 0, "night/a.fits:1 0 0 0\nnight/a/y.fit:1 0 0 0\nnight/a/z.fts:1 0 1 1\nnight/b.fits.fz:1 0 0 0\nb.txt:1 0 0 0\n", ""),
    (["sum", "--recursive", "night/a/"], NIGHT, "", 0, "night/a/y.fit:1 0 0 0\nnight/a/z.fts:1 0 1 1\n", ""),
    (["ask", "-r", "night/a"], NIGHT, "get 1 BITPIX\n", 0, "night/a/y.fit:integer 8\nnight/a/z.fts:integer 8\n", ""),
    (["sum", "-r", "b.txt"], NIGHT, "", 0, "b.txt:1 0 0 0\n", ""),
    (["sum", "-r", "none", "b.txt"], NIGHT, "", 3, "b.txt:1 0 0 0\n", "fitsed: none: read failed\n"),
    (["verify", "-lr", "night"], {"night/a.fits": EMPTY, "night/b.fits": b"no"}, "", 2, "night/b.fits\n", "fitsed: night/b.fits: open refused O1 NotFits\n"),
    (["sum", "night"], NIGHT, "", 3, "", "fitsed: read failed\n"),
    (["sum", "a.fits", "none.fits", "b.fits"], {"a.fits": EMPTY, "b.fits": STAMP}, "", 3, "a.fits:1 0 0 0\nb.fits:1 0 1 1\n", "fitsed: none.fits: read failed\n"),
    (["sum", "a.fits", "b.fits"], {"a.fits": b"no", "b.fits": STAMP}, "", 2, "b.fits:1 0 1 1\n", "fitsed: a.fits: open refused O1 NotFits\n"),
    (["verify", "-q", "a.fits", "b.fits"], {"a.fits": EMPTY, "b.fits": EMPTY}, "", 0, "a.fits:errors 0 warnings 0\nb.fits:errors 0 warnings 0\n", ""),
    # a file that doesn't open is told as before where it is alone
    (["sum", "a.fits"], {"a.fits": b"no"}, "", 2, "", "fitsed: open refused O1 NotFits\n"),
    (["sum", "-H", "a.fits"], {"a.fits": b"no"}, "", 2, "", "fitsed: a.fits: open refused O1 NotFits\n"),
    (["sum", "none.fits"], {}, "", 3, "", "fitsed: read failed\n"),
    # a table of keywords: a line of names, then one for each file; a field is empty where the header says nothing
    (["keys", "-k", "OBJECT", "-k", "BITPIX", "-k", "SIMPLE", "a.fits", "b.fits"], {"a.fits": TOLD, "b.fits": EMPTY}, "", 0, "file\tOBJECT\tBITPIX\tSIMPLE\na.fits\tM31\t8\tT\nb.fits\t\t8\tT\n", ""),
    (["keys", "-u", "2", "-k", "BITPIX", "a.fits", "b.fits"], {"a.fits": IMAGES, "b.fits": EMPTY}, "", 0, "file\tBITPIX\na.fits\t16\nb.fits\t\n", ""),
    (["keys", "--name", "TEXT", "--name", "PAIR", "a.fits"], {"a.fits": with_cards("TEXT    = 'it''s &'|CONTINUE  'long'|PAIR    = (1, -2.5)|TEXT    = 'no'")}, "", 0, "file\tTEXT\tPAIR\na.fits\tit's long\t(1, -2.5)\n", ""),
    (["keys", "-k", "A", "-k", "B", "-k", "C", "a.fits"], {"a.fits": with_cards("A       =|B       = 1 2|C       = 'x'")}, "", 0, "file\tA\tB\tC\na.fits\t\t\tx\n", ""),
    (["keys", "-k", "A", "a.fits", "none.fits", "b.fits"], {"a.fits": b"no", "b.fits": EMPTY}, "", 3, "file\tA\nb.fits\t\n", "fitsed: a.fits: open refused O1 NotFits\nfitsed: none.fits: read failed\n"),
    (["keys", "-k", "A*", "a.fits"], {"a.fits": EMPTY}, "", 2, "", "fitsed: not a keyword name: A*\n"),
    (["keys", "-k", "LONGNAMES", "a.fits"], {"a.fits": EMPTY}, "", 2, "", "fitsed: not a keyword name: LONGNAMES\n"),
    (["keys", "-u", "@SCI,2", "-k", "BUNIT", "-k", "EXTVER", "a.fits", "b.fits"], {"a.fits": CALLED, "b.fits": EMPTY}, "", 0, "file\tBUNIT\tEXTVER\na.fits\tadu\t2\nb.fits\t\t\n", ""),
    (["keys", "-u", "@NONE", "-k", "EXTVER", "a.fits"], {"a.fits": CALLED}, "", 0, "file\tEXTVER\na.fits\t\n", ""),
    (["keys", "-u", "@", "-k", "A", "a.fits"], {"a.fits": EMPTY}, "", 2, "", "fitsed: not the number of an HDU: @\n"),
    (["keys", "-u", "x", "-k", "A", "a.fits"], {"a.fits": EMPTY}, "", 2, "", "fitsed: not the number of an HDU: x\n"),
    (["keys", "a.fits"], {"a.fits": EMPTY}, "", 2, "", None),
    # cards
    (["cards", "a.fits"], {"a.fits": LONGS}, "", 0, "\n".join(NAMES) + "\n", ""),
    (["cards", "-k", "OBJECT", "a.fits"], {"a.fits": LONGS}, "", 0, NAMES[6] + "\n", ""),
    (["cards", "-k", "LONGSTR", "-k", "HISTORY", "a.fits"], {"a.fits": LONGS}, "", 0, "\n".join([*NAMES[3:6], NAMES[9]]) + "\n", ""),
    (["cards", "-k", "CONTINUE", "a.fits"], {"a.fits": LONGS}, "", 0, "\n".join([*NAMES[4:6], NAMES[7]]) + "\n", ""),
    (["cards", "-k", "NAX*", "-u", "1", "a.fits"], {"a.fits": IMAGES}, "", 0, "1 3 NAXIS   =                    1\n1 4 NAXIS1  =                    3\n", ""),
    (["cards", "--name", "NAXIS", "--hdu", "2", "a.fits"], {"a.fits": IMAGES}, "", 0, "2 3 NAXIS   =                    1\n", ""),
    (["cards", "-u", "3", "a.fits"], {"a.fits": IMAGES}, "", 1, "", ""),
    (["cards", "-u", "0", "a.fits"], {"a.fits": IMAGES}, "", 1, "", ""),
    (["cards", "-k", "NONE", "a.fits"], {"a.fits": IMAGES}, "", 1, "", ""),
    (["cards", "-k", "bitpix", "a.fits"], {"a.fits": IMAGES}, "", 1, "", ""),
    (["cards", "-k", "NAXIS", "a.fits", "b.fits"], {"a.fits": EMPTY, "b.fits": EMPTY}, "", 0, "a.fits:1 3 NAXIS   =                    0\nb.fits:1 3 NAXIS   =                    0\n", ""),
    (["cards", "-k", "COMMENT", "a.fits"], {"a.fits": ODD}, "", 1, "1 4 COMMENT ?b\n", "fitsed: a.fits: hdu 1 card 4: bytes that are not text are printed as ?\n"),
    (["cards", "a.fits"], {"a.fits": CUT}, "", 2, FIRST, "fitsed: open refused O2 NoEnd hdu 2\n"),
    (["cards", "a.fits"], {"a.fits": SHAPELESS}, "", 2, FIRST + "2 1 XTENSION= 'IMAGE   '\n2 2 BITPIX  = 9\n", "fitsed: open refused O3 BadShape hdu 2 card 2\n"),
    (["cards", "a.fits", "b.fits"], {"a.fits": b"no", "b.fits": EMPTY}, "", 2, FIRST.replace("1 ", "b.fits:1 ", 1).replace("\n1 ", "\nb.fits:1 "), "fitsed: a.fits: open refused O1 NotFits\n"),
    (["cards", "-u", "x", "a.fits"], {"a.fits": EMPTY}, "", 2, "", "fitsed: not the number of an HDU: x\n"),
    # the first extension of a name, and of a version: 1 where EXTVER isn't there, or is no number
    (["cards", "-u", "@SCI", "-k", "EXTNAME", "a.fits"], {"a.fits": CALLED}, "", 0, "2 7 EXTNAME = 'SCI'\n", ""),
    (["cards", "--hdu", "@SCI,2", "-k", "EXTNAME", "a.fits"], {"a.fits": CALLED}, "", 0, "4 7 EXTNAME = 'SCI     '\n", ""),
    (["cards", "-u", "@SCI,01", "-k", "EXTNAME", "a.fits"], {"a.fits": CALLED}, "", 0, "2 7 EXTNAME = 'SCI'\n", ""),
    (["cards", "-u", "@a,b", "-k", "EXTVER", "a.fits"], {"a.fits": CALLED}, "", 0, "6 8 EXTVER  = 3.0\n", ""),
    (["cards", "-H", "-u", "@ERR", "-u", "6", "-k", "EXTVER", "a.fits"], {"a.fits": CALLED}, "", 0, "a.fits:3 8 EXTVER  = 1\na.fits:6 8 EXTVER  = 3.0\n", ""),
    (["cards", "-u", "@LONG", "-k", "EXTNAME", "a.fits"], {"a.fits": GOES_ON}, "", 0, "2 6 EXTNAME = 'LO&'\n2 7 CONTINUE  'NG'\n", ""),
    (["cards", "-u", "@LONG,1", "-k", "EXTVER", "a.fits"], {"a.fits": GOES_ON}, "", 0, "2 8 EXTVER  = 'x'\n", ""),
    # none is called so
    (["cards", "-u", "@SCI,3", "a.fits"], {"a.fits": CALLED}, "", 1, "", ""),
    (["cards", "-u", "@sci", "a.fits"], {"a.fits": CALLED}, "", 1, "", ""),
    (["cards", "-u", "@a,b,3", "a.fits"], {"a.fits": CALLED}, "", 1, "", ""),
    (["cards", "-u", "@LO", "a.fits"], {"a.fits": GOES_ON}, "", 1, "", ""),
    (["cards", "-u", "@NONE", "-u", "3", "-k", "EXTVER", "a.fits"], {"a.fits": CALLED}, "", 0, "3 8 EXTVER  = 1\n", ""),
    (["cards", "-u", "@SCI", "-k", "BUNIT", "a.fits", "b.fits"], {"a.fits": CALLED, "b.fits": EMPTY}, "", 1, "a.fits:2 8 BUNIT   = 'adu     '\n", ""),
    (["cards", "-u", "@", "a.fits"], {"a.fits": EMPTY}, "", 2, "", "fitsed: not the number of an HDU: @\n"),
    (["cards", "-k", "NINECHARS", "a.fits"], {"a.fits": EMPTY}, "", 2, "", "fitsed: not a keyword name: NINECHARS: more than 8 characters\n"),
    # one of few characters that has many bytes
    (["cards", "-k", "\u00c4\u00c4\u00c4\u00c4\u00c4", "a.fits"], {"a.fits": EMPTY}, "", 2, "", "fitsed: not a keyword name: \u00c4\u00c4\u00c4\u00c4\u00c4: more than 8 bytes\n"),
    # statistics
    (["stat", "a.fits"], {"a.fits": EMPTY}, "", 0, "1 -\n", ""),
    (["stat", "a.fits"], {"a.fits": IMAGES}, "", 0, STATS, ""),
    (["stat", "a.fits", "b.fits"], {"a.fits": EMPTY, "b.fits": EMPTY}, "", 0, "a.fits:1 -\nb.fits:1 -\n", ""),
    # wrong sums alone
    (["sum", "-c", "a.fits"], {"a.fits": STAMP}, "", 0, "", ""),
    (["sum", "-c", "a.fits"], {"a.fits": EMPTY}, "", 0, "", ""),
    (["sum", "--check", "a.fits"], {"a.fits": LATER}, "", 1, "1 0 1 -1\n", ""),
    (["sum", "-c", "a.fits", "b.fits", "c.fits"], {"a.fits": STAMP, "b.fits": WRONG, "c.fits": LATER}, "", 1, "b.fits:1 1867394316 -1 0\nc.fits:1 0 1 -1\n", ""),
    # warnings that count for the status
    (["verify", "-q", "d.fits"], {"d.fits": LATER}, "", 0, "errors 0 warnings 1\n", ""),
    (["verify", "-q", "-w", "d.fits"], {"d.fits": LATER}, "", 1, "errors 0 warnings 1\n", ""),
    (["verify", "-q", "--warnings", "d.fits"], {"d.fits": STAMP}, "", 0, "errors 0 warnings 0\n", ""),
    # the card of each place; an HDU as a whole, and what follows the last, has none
    (["verify", "-p", "a.fits"], {"a.fits": EMPTY}, "", 0, "errors 0 warnings 0\n", ""),
    (["verify", "-p", "b.fits"], {"b.fits": DATED}, "", 1, "E12 1 4 bad date: DATE    = '2024-02-30'\nerrors 1 warnings 0\n", ""),
    (["verify", "--print-cards", "b.fits"], {"b.fits": ODD}, "", 1, "E01 1 4 byte outside ASCII text: COMMENT ?b\nerrors 1 warnings 0\n", ""),
    (["verify", "-p", "d.fits"], {"d.fits": LATER}, "", 0, "W24 1 0 CHECKSUM is wrong\nerrors 0 warnings 1\n", ""),
    (["verify", "-p", "t.fits"], {"t.fits": TWO_DATES}, "", 1, f"{ERRORS}W26 3 0 bytes after the last HDU\nerrors 5 warnings 1\n", ""),
    (["verify", "-p", "-e", "t.fits"], {"t.fits": TWO_DATES}, "", 1, f"{ERRORS}errors 5 warnings 1\n", ""),
    (["verify", "-pq", "t.fits"], {"t.fits": TWO_DATES}, "", 1, "errors 5 warnings 1\n", ""),
    (["verify", "-p", "-w", "d.fits"], {"d.fits": LATER}, "", 1, "W24 1 0 CHECKSUM is wrong\nerrors 0 warnings 1\n", ""),
    (["verify", "-p", "-w", "a.fits"], {"a.fits": EMPTY}, "", 0, "errors 0 warnings 0\n", ""),
    (["verify", "-pH", "b.fits"], {"b.fits": DATED}, "", 1, "b.fits:E12 1 4 bad date: DATE    = '2024-02-30'\nb.fits:errors 1 warnings 0\n", ""),
    (["verify", "-p", "b.fits", "c.fits", "a.fits"], {"a.fits": EMPTY, "b.fits": DATED, "c.fits": CUT}, "", 2, "b.fits:E12 1 4 bad date: DATE    = '2024-02-30'\nb.fits:errors 1 warnings 0\na.fits:errors 0 warnings 0\n", "fitsed: c.fits: open refused O2 NoEnd hdu 2\n"),
    (["verify", "-p", "-l", "a.fits", "b.fits"], {"a.fits": EMPTY, "b.fits": DATED}, "", 1, "b.fits\n", ""),
    (["verify", "-p", "none.fits"], {}, "", 3, "", "fitsed: read failed\n"),
    # names of files from a file or from standard input, after those that are typed
    (["sum", "--files0-from", "names", "c.fits"], {"names": b"a.fits\0b.fits\0", "a.fits": EMPTY, "b.fits": STAMP, "c.fits": EMPTY}, "", 0, "c.fits:1 0 0 0\na.fits:1 0 0 0\nb.fits:1 0 1 1\n", ""),
    (["sum", "--files0-from", "-"], {"a.fits": EMPTY}, "a.fits", 0, "a.fits:1 0 0 0\n", ""),
    (["sum", "--files0-from", "names"], {"names": b""}, "", 0, "", ""),
    (["sum", "--files0-from", "none", "a.fits"], {"a.fits": EMPTY}, "", 3, "a.fits:1 0 0 0\n", "fitsed: none: read failed\n"),
    (["sum", "--files0-from", "names", "a.fits"], {"a.fits": EMPTY, "names": b"\xff\0"}, "", 3, "a.fits:1 0 0 0\n", "fitsed: names: a name is not UTF-8\n"),
    # the names of files that lack a card of one of the names
    (["cards", "-L", "-k", "OBJECT", "a.fits", "b.fits", "c.fits"], {"a.fits": TOLD, "b.fits": EMPTY, "c.fits": b"no"}, "", 2, "b.fits\n", "fitsed: c.fits: open refused O1 NotFits\n"),
    (["cards", "-L0", "-k", "OBJECT", "-k", "BITPIX", "a.fits", "b.fits"], {"a.fits": TOLD, "b.fits": EMPTY}, "", 1, "b.fits\0", ""),
    (["cards", "--files-without", "-k", "BITPIX", "-u", "2", "a.fits", "b.fits"], {"a.fits": IMAGES, "b.fits": EMPTY}, "", 1, "b.fits\n", ""),
    (["cards", "-L", "-u", "@SCI,2", "-k", "BUNIT", "-k", "EXTVER", "a.fits", "b.fits"], {"a.fits": CALLED, "b.fits": EMPTY}, "", 1, "b.fits\n", ""),
    (["cards", "-L", "-u", "@ERR", "-k", "OBJECT", "a.fits"], {"a.fits": CALLED}, "", 1, "a.fits\n", ""),
    (["cards", "-L", "-k", "COMMENT", "a.fits"], {"a.fits": ODD}, "", 0, "", ""),
    (["cards", "-L", "a.fits"], {"a.fits": EMPTY}, "", 2, "", None),
    (["verify", "-l0", "a.fits", "b.fits"], {"a.fits": DATED, "b.fits": EMPTY}, "", 1, "a.fits\0", ""),
    (["verify", "-0", "a.fits"], {"a.fits": EMPTY}, "", 2, "", None),
    # the names of files with errors, and of those that don't open
    (["verify", "-l", "a.fits", "b.fits", "c.fits", "d.fits"], {"a.fits": EMPTY, "b.fits": DATED, "c.fits": b"no", "d.fits": LATER}, "", 2, "b.fits\nc.fits\n", "fitsed: c.fits: open refused O1 NotFits\n"),
    (["verify", "-l", "-w", "a.fits", "d.fits"], {"a.fits": EMPTY, "d.fits": LATER}, "", 1, "d.fits\n", ""),
    (["verify", "--files-with-errors", "a.fits"], {"a.fits": EMPTY}, "", 0, "", ""),
    (["verify", "-l", "none.fits"], {}, "", 3, "", "fitsed: none.fits: read failed\n"),
    (["verify", "-l", "none.fits", "b.fits"], {"b.fits": DATED}, "", 3, "b.fits\n", "fitsed: none.fits: read failed\n"),
    # lines that weren't done keep a file from being saved
    (["edit", "-a", "-e", "set 1 OBJECT 'M31'", "-e", "del 1 1", "a.fits", "b.fits"], {"a.fits": EMPTY}, "", 1, "line 2: refused 6 Shape\n", "fitsed: b.fits: not saved: 1 line was not done\n"),
    (["edit", "-a", "-e", "frob", "-e", "del 1 1", "a.fits", "b.fits"], {"a.fits": EMPTY}, "", 1, None, "fitsed: b.fits: not saved: 2 lines were not done\n"),
    # new errors do: their lines follow the answers
    (["edit", "-c", "-e", "ins 1 4 bad", "a.fits", "b.fits"], {"a.fits": EMPTY}, "", 1, "+E02 1 4 bad keyword name\n", "fitsed: b.fits: not saved: 1 new error\n"),
    (["edit", "--check", "a.fits", "b.fits"], {"a.fits": EMPTY}, f"get 1 NAXIS\nins 1 4 bad\n{UNDATED}\n", 1, "integer 0\n+E02 1 4 bad keyword name\n+E12 1 5 bad date\n", "fitsed: b.fits: not saved: 2 new errors\n"),
    (["edit", "-c", "-e", "frob", "-e", "ins 1 4 bad", "a.fits", "a.fits"], {"a.fits": EMPTY}, "", 1, "line 1: not a command\n+E02 1 4 bad keyword name\n", "fitsed: a.fits: not saved: 1 new error\n"),
    # also where another error went, and where one that was there moved
    (["edit", "-c", "-e", "put 1 4 bad", "a.fits", "b.fits"], {"a.fits": DATED}, "", 1, "+E02 1 4 bad keyword name\n", "fitsed: b.fits: not saved: 1 new error\n"),
    (["edit", "-c", "-e", "ins 1 4 COMMENT", "-e", "set 1 DATE-OBS '2024-02-30'", "a.fits", "b.fits"], {"a.fits": DATED}, "", 1, "+E12 1 5 bad date\n+E12 1 6 bad date\n", "fitsed: b.fits: not saved: 2 new errors\n"),
    (["edit", "-c", "-e", "set 1 DATE-OBS '2024-02-30'", "a.fits", "b.fits"], {"a.fits": DATED}, "", 1, "+E12 1 5 bad date\n", "fitsed: b.fits: not saved: 1 new error\n"),
    # lines that weren't done come first
    (["edit", "-a", "-c", "-e", "frob", "-e", "ins 1 4 bad", "a.fits", "b.fits"], {"a.fits": EMPTY}, "", 1, None, "fitsed: b.fits: not saved: 1 line was not done\n"),
    (["edit", "-ac", "-e", "ins 1 4 bad", "a.fits", "b.fits"], {"a.fits": EMPTY}, "", 1, "+E02 1 4 bad keyword name\n", "fitsed: b.fits: not saved: 1 new error\n"),
    (["edit", "-ci", "-e", "ins 1 4 bad", "a.fits", "b.fits"], {"a.fits": EMPTY, "b.fits": EMPTY}, "", 1, "a.fits:+E02 1 4 bad keyword name\nb.fits:+E02 1 4 bad keyword name\n", "fitsed: a.fits: not saved: 1 new error\nfitsed: b.fits: not saved: 1 new error\n"),
    (["edit", "-c", "-e", "off", "a.fits", "b.fits"], {"a.fits": b"no"}, "", 2, "", "fitsed: open refused O1 NotFits\n"),
    # the name of IN before answers and faults of one file
    (["edit", "-H", "-e", "get 1 NAXIS", "-e", "frob", "a.fits", "b.fits"], {"a.fits": EMPTY, "b.fits": EMPTY}, "", 1, "a.fits:integer 0\na.fits:line 2: not a command\n", ""),
    (["edit", "-H", "-v", "-e", "off 1", "a.fits", "/dev/null"], {"a.fits": EMPTY}, "", 1, "a.fits:line 1: not a command\n", "fitsed: a.fits: line 1: a word too many: 1\n"),
    (["edit", "-i", "-H", "-e", "get 1 NAXIS", "a.fits"], {"a.fits": EMPTY}, "", 0, "a.fits:integer 0\n", ""),
    (["edit", "-iH", "-e", "off", "a.fits"], {"a.fits": b"no"}, "", 2, "", "fitsed: a.fits: open refused O1 NotFits\n"),
    (["edit", "-H", "none.fits", "b.fits"], {}, "", 3, "", "fitsed: none.fits: read failed\n"),
    # an OUT that stands stays
    (["edit", "-n", "-e", "get 1 NAXIS", "a.fits", "b.fits"], {"a.fits": EMPTY, "b.fits": STAMP}, "", 2, "", "fitsed: b.fits: stands there\n"),
    (["edit", "-n", "-e", "get 1 NAXIS", "none.fits", "a.fits"], {"a.fits": EMPTY}, "", 2, "", "fitsed: a.fits: stands there\n"),
    (["edit", "--no-clobber", "a.fits", "a.fits"], {"a.fits": EMPTY}, "frob\n", 2, "", "fitsed: a.fits: stands there\n"),
    (["edit", "-n", "-i", "-e", "off", "a.fits"], {"a.fits": EMPTY}, "", 2, "", None),
    # a path that isn't UTF-8: the others are done
    (["sum", "a.fits", ODD_NAME, "b.fits"], {"a.fits": EMPTY, ODD_NAME: EMPTY, "b.fits": STAMP}, "", 2, "a.fits:1 0 0 0\nb.fits:1 0 1 1\n", "fitsed: argument 3 is not UTF-8: na\\xefve.fits\n"),
    (["verify", "-l", "b.fits", "-w", ODD_NAME], {ODD_NAME: EMPTY, "b.fits": DATED}, "", 2, "b.fits\n", "fitsed: argument 5 is not UTF-8: na\\xefve.fits\n"),
    (["ask", "-e", "get 1 NAXIS", ODD_NAME, "\udcff", "none.fits", "a.fits"], {ODD_NAME: EMPTY, "a.fits": EMPTY}, "", 3, "a.fits:integer 0\n", "fitsed: argument 4 is not UTF-8: na\\xefve.fits\nfitsed: argument 5 is not UTF-8: \\xff\nfitsed: none.fits: read failed\n"),
    (["edit", "-i", "-e", "get 1 NAXIS", ODD_NAME, "a.fits"], {ODD_NAME: EMPTY, "a.fits": EMPTY}, "", 2, "a.fits:integer 0\n", "fitsed: argument 5 is not UTF-8: na\\xefve.fits\n"),
    (["sum", "--", f"-{ODD_NAME}", "a.fits"], {"a.fits": EMPTY}, "", 2, "a.fits:1 0 0 0\n", "fitsed: argument 3 is not UTF-8: -na\\xefve.fits\n"),
    # any other word, and one path alone: nothing is done
    (["sum", ODD_NAME], {ODD_NAME: EMPTY}, "", 2, "", ODD_WORD),
    (["sum", "-v", ODD_NAME], {ODD_NAME: EMPTY}, "", 2, "", f"{ODD_WORD}fitsed: argument 3 is not UTF-8: na\\xefve.fits\n"),
    (["edit", "-i", "-e", "off", ODD_NAME], {ODD_NAME: EMPTY}, "", 2, "", ODD_WORD),
    (["edit", "-e", "off", "a.fits", ODD_NAME], {"a.fits": EMPTY}, "", 2, "", ODD_WORD),
    (["edit", "-e", "off", ODD_NAME, "b.fits"], {ODD_NAME: EMPTY}, "", 2, "", ODD_WORD),
    (["ask", "-e", "off \udcef", "a.fits", "b.fits"], {"a.fits": EMPTY, "b.fits": EMPTY}, "", 2, "", ODD_WORD),
    (["ask", "-f", ODD_NAME, "a.fits", "b.fits"], {"a.fits": EMPTY, "b.fits": EMPTY}, "", 2, "", ODD_WORD),
    (["cards", "-k", "\udcef", "a.fits", "b.fits"], {"a.fits": EMPTY, "b.fits": EMPTY}, "", 2, "", ODD_WORD),
    (["sum", "-\udcef", "a.fits", "b.fits"], {"a.fits": EMPTY, "b.fits": EMPTY}, "", 2, "", ODD_WORD),
    (["\udcef", "a.fits"], {"a.fits": EMPTY}, "", 2, "", ODD_WORD),
    # words that clap refuses
    (["edit", "-e", "off", "a.fits"], {"a.fits": EMPTY}, "", 2, "", None),
    (["edit", "-e", "off", "a.fits", "b.fits", "c.fits"], {"a.fits": EMPTY}, "", 2, "", None),
    (["cards"], {}, "", 2, "", None),
    (["stat"], {}, "", 2, "", None),
    (["frob", "a.fits"], {}, "", 2, "", None),
    # a name that begins with a hyphen
    (["sum", "--", "-c"], {"-c": STAMP}, "", 0, "1 0 1 1\n", ""),
]

# What more is told with -v, or where standard error is a terminal: the words, the files, the status, what is printed, the
# lines that are reported always, and those that are then.
NO_FILE = "No such file or directory"
GZIP = bytes.fromhex("1f8b0800000000000003")
MORE = [
    (["sum", "none.fits"], {}, 3, "", "fitsed: read failed\n", f"fitsed: none.fits: {NO_FILE}\n"),
    (["sum", "a.fits", "none.fits"], {"a.fits": EMPTY}, 3, "a.fits:1 0 0 0\n", "fitsed: none.fits: read failed\n", f"fitsed: none.fits: {NO_FILE}\n"),
    (["list", ""], {}, 3, "", "fitsed: read failed\n", f"fitsed: : {NO_FILE}\n"),
    (["list", "."], {}, 3, "", "fitsed: read failed\n", "fitsed: .: Is a directory\n"),
    (["cards", "a.fits/b.fits"], {"a.fits": EMPTY}, 3, "", "fitsed: read failed\n", "fitsed: a.fits/b.fits: Not a directory\n"),
    (["stat", "-"], {}, 3, "", "fitsed: read failed\n", f"fitsed: -: {NO_FILE}\n"),
    (["verify", "-l", "none.fits"], {}, 3, "", "fitsed: none.fits: read failed\n", f"fitsed: none.fits: {NO_FILE}\n"),
    (["ask", "none.fits"], {}, 3, "", "fitsed: read failed\n", f"fitsed: none.fits: {NO_FILE}\n"),
    (["ask", "-f", "none", "a.fits"], {"a.fits": EMPTY}, 3, "", "fitsed: read failed\n", f"fitsed: none: {NO_FILE}\n"),
    (["edit", "-i", "-e", "off", "-f", ".", "a.fits"], {"a.fits": EMPTY}, 3, "", "fitsed: read failed\n", "fitsed: .: Is a directory\n"),
    (["edit", "-e", "off", "none.fits", "b.fits"], {}, 3, "", "fitsed: read failed\n", f"fitsed: none.fits: {NO_FILE}\n"),
    # what begins as no FITS file does
    (["verify", "a.fits.gz"], {"a.fits.gz": GZIP}, 2, "", "fitsed: open refused O1 NotFits\n", "fitsed: a.fits.gz: compressed by gzip: gzip -dc a.fits.gz | fitsed verify /dev/stdin\n"),
    (["edit", "-i", "-e", "off", "a.fits.gz"], {"a.fits.gz": GZIP}, 2, "", "fitsed: open refused O1 NotFits\n", "fitsed: a.fits.gz: compressed by gzip: gzip -dc a.fits.gz | fitsed edit /dev/stdin OUT\n"),
    (["list", "a.fits"], {"a.fits": b""}, 2, "", "fitsed: open refused O1 NotFits\n", "fitsed: a.fits: the file is empty\n"),
    (["list", "a.fits"], {"a.fits": b"no"}, 2, "", "fitsed: open refused O1 NotFits\n", ""),
    # where a file goes wrong, and what is there
    (["sum", "a.fits"], {"a.fits": IMAGES[:-2880]}, 2, "", "fitsed: open refused O4 ShortData hdu 2\n", "fitsed: a.fits: hdu 2: 2880 bytes described, 0 there\n"),
    (["sum", "a.fits"], {"a.fits": IMAGES[:-1]}, 2, "", "fitsed: open refused O4 ShortData hdu 2\n", "fitsed: a.fits: hdu 2: 2880 bytes described, 2879 there\n"),
    (["list", "a.fits"], {"a.fits": CUT}, 2, "", "fitsed: open refused O2 NoEnd hdu 2\n", "fitsed: a.fits: hdu 2: no END in the 2880 bytes from byte 2880 on\n"),
    (["list", "a.fits"], {"a.fits": CUT[:4000]}, 2, "", "fitsed: open refused O2 NoEnd hdu 2\n", "fitsed: a.fits: hdu 2: no END in the 1120 bytes from byte 2880 on\n"),
    (["list", "a.fits"], {"a.fits": SHAPELESS}, 2, "", "fitsed: open refused O3 BadShape hdu 2 card 2\n", "fitsed: a.fits: hdu 2 card 2: BITPIX is wanted, there is BITPIX  = 9\n"),
    (["list", "a.fits"], {"a.fits": NO_AXIS}, 2, "", "fitsed: open refused O3 BadShape hdu 1 card 4\n", "fitsed: a.fits: hdu 1 card 4: NAXIS1 is wanted, there is OBJECT  = 'M31'\n"),
    (["list", "a.fits"], {"a.fits": NO_NAXIS}, 2, "", "fitsed: open refused O3 BadShape hdu 1 card 3\n", "fitsed: a.fits: hdu 1 card 3: NAXIS is wanted, there is END\n"),
    (["list", "a.fits"], {"a.fits": BAD_COUNT}, 2, "", "fitsed: open refused O3 BadShape hdu 2 card 5\n", "fitsed: a.fits: hdu 2 card 5: GCOUNT is wanted, there is GCOUNT  = 'x'\n"),
    # numbers that stand for others; not those of unsigned integers
    (["stat", "a.fits"], {"a.fits": SCALED}, 0, "1 defined 3 blank 0 min 1 max 1029 sum 1545\n", "", "fitsed: hdu 1: stored numbers: BSCALE 0.5, BZERO 1500.0\n"),
    (["stat", "-H", "a.fits"], {"a.fits": SCALED}, 0, "a.fits:1 defined 3 blank 0 min 1 max 1029 sum 1545\n", "", "fitsed: a.fits: hdu 1: stored numbers: BSCALE 0.5, BZERO 1500.0\n"),
    (["stat", "a.fits"], {"a.fits": UNSIGNED}, 0, "1 defined 3 blank 0 min 32769 max 33797 sum 99849\n", "", ""),
    (["ask", "-e", "rect 1 1:1", "a.fits", "b.fits"], {"a.fits": SCALED, "b.fits": EMPTY}, 1, "a.fits:1\nb.fits:line 1: refused 9 NotImage\n", "", None),
    (["ask", "-e", "get 1 NAXIS", "-e", "stat 1", "a.fit"], {"a.fit": SCALED}, 0, "integer 1\ndefined 3 blank 0 min 1 max 1029 sum 1545\n", "", "fitsed: hdu 1: stored numbers: BSCALE 0.5, BZERO 1500.0\n"),
    (["ask", "-e", "get 1 NAXIS", "a.fits"], {"a.fits": SCALED}, 0, "integer 1\n", "", ""),
    (["edit", "-i", "-e", "fill 1 1:1 1", "a.fits"], {"a.fits": SCALED}, 0, "", "", "fitsed: hdu 1: stored numbers: BSCALE 0.5, BZERO 1500.0\n"),
    (["list", "a.fits"], {"a.fits": SCALED}, 0, "hdu 1 PRIMARY bitpix 16 axes 3 cards 6 at 0 2880 5760\n", "", ""),
    # what is saved: over another file, over IN, as a new file, as one with an odd name
    (["edit", "-e", "off", "a.fits", "b.fits"], {"a.fits": EMPTY, "b.fits": EMPTY}, 0, "1 0 2880 2880\n", "", "fitsed: b.fits: replaced\n"),
    (["edit", "-e", "off", "a.fits", "a.fits"], {"a.fits": EMPTY}, 0, "1 0 2880 2880\n", "", ""),
    (["edit", "-i", "-e", "off", "a.fits"], {"a.fits": EMPTY}, 0, "1 0 2880 2880\n", "", ""),
    (["edit", "-e", "off", "a.fits", "/dev/null"], {"a.fits": EMPTY}, 0, "1 0 2880 2880\n", "", ""),
    (["edit", "-a", "-e", "del 1 9", "a.fits", "b.fits"], {"a.fits": EMPTY, "b.fits": EMPTY}, 1, "line 1: refused 2 NoCard\n", "fitsed: b.fits: not saved: 1 line was not done\n", None),
    (["sum", "-H", "a.fits"], {"a.fits": EMPTY}, 0, "a.fits:1 0 0 0\n", "", ""),
]

# The same where lines of a script aren't done: why is told with -v, and on a terminal that it is.
UNDONE = [
    (["ask", "-e", "off 1", "a.fits"], {"a.fits": EMPTY}, 1, "line 1: not a command\n", "fitsed: 1 line was not done: -v says why\n"),
    (["ask", "-e", "off 1", "-e", "frob", "-e", "del 1 9", "a.fits"], {"a.fits": EMPTY}, 1, "line 1: not a command\nline 2: not a command\nline 3: refused 2 NoCard\n", "fitsed: 3 lines were not done: -v says why\n"),
    (["ask", "-e", "off 1", "a.fits", "b.fits"], {"a.fits": EMPTY, "b.fits": EMPTY}, 1, "a.fits:line 1: not a command\nb.fits:line 1: not a command\n", "fitsed: 2 lines were not done: -v says why\n"),
    (["edit", "-i", "-a", "-e", "off 1", "a.fits"], {"a.fits": EMPTY}, 1, "line 1: not a command\n", "fitsed: a.fits: not saved: 1 line was not done\nfitsed: 1 line was not done: -v says why\n"),
    (["ask", "-e", "off", "a.fits"], {"a.fits": EMPTY}, 0, "1 0 2880 2880\n", ""),
    (["ask", "-v", "-e", "off 1", "a.fits"], {"a.fits": EMPTY}, 1, "line 1: not a command\n", "fitsed: line 1: a word too many: 1\n"),
]

# A line of a script over the three pixels of IMAGES, its answer, and what `edit -v` says of it.
NOT = "not a command"
REMARKS = [
    ("set 1 OBJECT M31", NOT, "not a value: a string stands in quotes: 'M31'"),
    ("set 1 EXPTIME 1.5e3", NOT, "not a value: an exponent is a capital E or D"),
    ("set 1 FLAG true", NOT, "not a value: T or F"),
    ("set 1 OBJECT 'it's'", NOT, "not a value: a quote in a string is doubled"),
    ("set 1 EXPTIME 5 seconds", NOT, "text after the value: a comment begins with a slash"),
    ("set 1 LONGKEYWORD 5", NOT, "not a keyword name: more than 8 characters"),
    ("ins 1 5 HISTORY " + 100 * "x", NOT, "a card of 108 bytes, at most 80"),
    ("ins 1 end HISTORY x", NOT, "not a place: end"),
    ("get 1 EXPTIME ", NOT, "a space too many at byte 14"),
    ("get  1 EXPTIME", NOT, "a space too many at byte 5"),
    ("INS 1 5 HISTORY", NOT, "not a command: INS; commands are in lower case"),
    ("insert 1 5 HISTORY", NOT, "not a command: insert"),
    ("rep\r", NOT, "a carriage return at the end"),
    ("unset 1", NOT, "a word is missing"),
    ("off 1", NOT, "a word too many: 1"),
    ("get one NAXIS", NOT, "not an HDU: one"),
    ("fill 1 1-2 5", NOT, "not a rectangle: 1-2"),
    ("fill 1 1:1 five", NOT, "not a pixel value: five"),
    ("reshape 1 i7 3", NOT, "not a kind of pixels: i7"),
    ("reshape 1 i16 three", NOT, "not axes: three"),
    (100001 * "x", "too long", "a line has at most 100000 bytes"),
    ("get 9 NAXIS", "refused 1 NoHdu", "refused 1 NoHdu: the number of the HDU is 0 or too great"),
    ("del 1 99", "refused 2 NoCard", "refused 2 NoCard: a place is 0 or too great"),
    ("get 1 EXPTIME", "refused 3 NoKey", "refused 3 NoKey: no card of this name has a value"),
    ("get 1 naxis", "refused 3 NoKey", "refused 3 NoKey: keyword names have capital letters"),
    ("pos 1 naxis", "refused 3 NoKey", "refused 3 NoKey: keyword names have capital letters"),
    ("unset 1 naxis", "refused 7 BadName", "refused 7 BadName: keyword names have capital letters"),
    # a carriage return is named where it is a byte of the name or the card
    ("get 9 NAXIS\r", "refused 1 NoHdu", "refused 1 NoHdu: the number of the HDU is 0 or too great"),
    ("get 1 NAXIS\r", "refused 3 NoKey", "refused 3 NoKey: a carriage return at the end"),
    ("ins 1 5 HISTORY\r", "refused 4 BadText", "refused 4 BadText: a carriage return at the end"),
    ("ins 1 5 HISTORY \a", "refused 4 BadText", "refused 4 BadText: a byte of the card is no character of text"),
    ("ins 1 5 END", "refused 5 EndCard", "refused 5 EndCard: the card is named END"),
    ("del 1 1", "refused 6 Shape", "refused 6 Shape: the cards wouldn't describe the data"),
    ("set 1 exptime 5", "refused 7 BadName", "refused 7 BadName: keyword names have capital letters"),
    ("set 1 HISTORY 5", "refused 7 BadName", "refused 7 BadName: not the name of a keyword with a value"),
    # the space after the slash is a byte of the comment
    ("set 1 OBJECT 'x' / " + 60 * "c", "refused 8 BadValue", "refused 8 BadValue: the comment has 61 bytes, 48 fit"),
    ("set 1 EXPTIME " + 71 * "1", "refused 8 BadValue", "refused 8 BadValue: the value has more than 70 bytes"),
    ("fill 1 3:1 5", "refused 10 BadRect", "refused 10 BadRect: the rectangle isn't lo:hi in each axis"),
    ("write 1 1:2 5", "refused 11 WrongCount", "refused 11 WrongCount: more or fewer values than pixels"),
    ("fill 1 1:1 99999", "refused 12 Range", "refused 12 Range: a value that no pixel of this kind can have"),
    ("rm 1", "refused 13 PrimaryStays", "refused 13 PrimaryStays: the primary HDU stays where it is"),
]
ROWS += [
    (["edit", "-v", "-e", line, "a.fits", "/dev/null"], {"a.fits": IMAGES}, "", 1, f"line 1: {answer}\n", f"fitsed: line 1: {why}\n")
    for line, answer, why in REMARKS
]
ROWS += [
    # lines that are done, and others; without -v nothing is said of them
    (["edit", "-v", "-e", "off 1", "-e", "get 1 BITPIX", "-e", "rep 1", "a.fits", "/dev/null"], {"a.fits": EMPTY}, "", 1, "line 1: not a command\ninteger 8\nline 3: not a command\n", "fitsed: line 1: a word too many: 1\nfitsed: line 3: a word too many: 1\n"),
    (["edit", "-e", "off 1", "a.fits", "/dev/null"], {"a.fits": EMPTY}, "", 1, "line 1: not a command\n", ""),
    (["edit", "-v", "-e", "stat 1", "a.fits", "/dev/null"], {"a.fits": EMPTY}, "", 1, "line 1: refused 9 NotImage\n", "fitsed: line 1: refused 9 NotImage: the HDU is no image of integers\n"),
    (["edit", "--verbose", "a.fits", "/dev/null"], {"a.fits": EMPTY}, "off 1", 1, "line 1: not a command\n", "fitsed: line 1: a word too many: 1\n"),
    # of several files each is named, and what isn't saved is said last
    # --done names each file that is saved, and no other
    (["edit", "-i", "--done", "-e", "off", "a.fits", "b.fits"], {"a.fits": EMPTY, "b.fits": EMPTY}, "", 0, "a.fits:1 0 2880 2880\nb.fits:1 0 2880 2880\n", "a.fits\nb.fits\n"),
    (["edit", "-i", "-a", "--done", "-e", "frob", "a.fits"], {"a.fits": EMPTY}, "", 1, "line 1: not a command\n", "fitsed: a.fits: not saved: 1 line was not done\n"),
    (["edit", "-i", "-v", "-a", "-e", "off 1", "a.fits", "b.fits"], {"a.fits": EMPTY, "b.fits": EMPTY}, "", 1, "a.fits:line 1: not a command\nb.fits:line 1: not a command\n", "fitsed: a.fits: line 1: a word too many: 1\nfitsed: a.fits: not saved: 1 line was not done\nfitsed: b.fits: line 1: a word too many: 1\nfitsed: b.fits: not saved: 1 line was not done\n"),
    # --done names each file that is saved, and no other
    (["edit", "-i", "--done", "-e", "off", "a.fits", "b.fits"], {"a.fits": EMPTY, "b.fits": EMPTY}, "", 0, "a.fits:1 0 2880 2880\nb.fits:1 0 2880 2880\n", "a.fits\nb.fits\n"),
    (["edit", "-i", "-a", "--done", "-e", "frob", "a.fits"], {"a.fits": EMPTY}, "", 1, "line 1: not a command\n", "fitsed: a.fits: not saved: 1 line was not done\n"),
]

# A script of `edit`, its files, the words, and what they have then; a file that isn't named stays.
SET = "set 1 OBJECT 'M31'"
EDITS = [
    (["edit", "-e", SET, "a.fits", "b.fits"], {"a.fits": EMPTY}, 0, {"b.fits": TOLD}),
    (["edit", "-e", SET, "a.fits", "a.fits"], {"a.fits": EMPTY}, 0, {"a.fits": TOLD}),
    (["edit", "-i", "-e", SET, "a.fits"], {"a.fits": EMPTY}, 0, {"a.fits": TOLD}),
    (["edit", "--in-place", "-e", SET, "a.fits", "b.fits"], {"a.fits": EMPTY, "b.fits": EMPTY}, 0, {"a.fits": TOLD, "b.fits": TOLD}),
    (["edit", "-i", "-e", SET, "a.fits", "b.fits", "c.fits", "d.fits"], dict.fromkeys(["a.fits", "b.fits", "c.fits", "d.fits"], EMPTY), 0, dict.fromkeys(["a.fits", "b.fits", "c.fits", "d.fits"], TOLD)),
    (["edit", "-e", SET, "-i", "a.fits", "b.fits", "c.fits"], {"a.fits": EMPTY, "b.fits": b"no", "c.fits": EMPTY}, 2, {"a.fits": TOLD, "c.fits": TOLD}),
    (["edit", "-ir", "-e", SET, "night"], {"night/a.fits": EMPTY, "night/b/c.fit": EMPTY, "night/d": EMPTY}, 0, {"night/a.fits": TOLD, "night/b/c.fit": TOLD}),
    (["edit", "-r", "-e", SET, "night", "b.fits"], NIGHT, 2, {}),
    (["edit", "-a", "-e", SET, "a.fits", "b.fits"], {"a.fits": EMPTY}, 0, {"b.fits": TOLD}),
    (["edit", "-a", "-e", SET, "-e", "frob", "a.fits", "b.fits"], {"a.fits": EMPTY}, 1, {}),
    (["edit", "-a", "-i", "-e", SET, "-e", "del 1 4", "a.fits"], {"a.fits": EMPTY}, 0, {}),
    (["edit", "-a", "-i", "-e", "frob", "-e", SET, "a.fits"], {"a.fits": EMPTY}, 1, {}),
    (["edit", "-e", SET, "-e", "frob", "a.fits", "b.fits"], {"a.fits": EMPTY}, 1, {"b.fits": TOLD}),
    (["ask", "-e", SET, "a.fits"], {"a.fits": EMPTY}, 0, {}),
    # no error is new: there is none, it is a warning, it moved, or one of its code went
    (["edit", "-c", "-e", SET, "a.fits", "b.fits"], {"a.fits": EMPTY}, 0, {"b.fits": TOLD}),
    (["edit", "-c", "-e", SET, "-e", "frob", "a.fits", "b.fits"], {"a.fits": EMPTY}, 1, {"b.fits": TOLD}),
    (["edit", "-c", "-e", "ins 1 4 CONTINUE  'x'", "a.fits", "b.fits"], {"a.fits": EMPTY}, 0, {"b.fits": with_cards("CONTINUE  'x'")}),
    (["edit", "-c", "-e", "ins 1 4 COMMENT", "a.fits", "b.fits"], {"a.fits": DATED}, 0, {"b.fits": with_cards("COMMENT|DATE    = '2024-02-30'")}),
    (["edit", "-c", "-e", "put 1 4 COMMENT", "-e", "ins 1 5 DATE-OBS= '2024-02-30'", "a.fits", "b.fits"], {"a.fits": DATED}, 0, {"b.fits": with_cards("COMMENT|DATE-OBS= '2024-02-30'")}),
    (["edit", "-c", "-e", "ins 1 4 bad", "-e", "del 1 4", "a.fits", "b.fits"], {"a.fits": EMPTY}, 0, {"b.fits": EMPTY}),
    (["edit", "-c", "-a", "-e", SET, "a.fits", "b.fits"], {"a.fits": EMPTY}, 0, {"b.fits": TOLD}),
    (["edit", "-i", "-c", "-e", SET, "-e", UNDATED, "a.fits", "b.fits"], {"a.fits": EMPTY, "b.fits": DATED}, 1, {"b.fits": with_cards("DATE    = '2024-02-30'|OBJECT  = 'M31     '")}),
]


# With --progress: the words, the files, the status, what is printed, the names of the files, and what else is reported.
PROGRESS = [
    (["list", "--progress", "a.fits", "none.fits", "b.fits"], {"a.fits": EMPTY, "b.fits": EMPTY}, 3, None, ["a.fits", "none.fits", "b.fits"], "fitsed: none.fits: read failed\n"),
    (["cards", "--progress", "-k", "NAXIS", "a.fits"], {"a.fits": EMPTY}, 0, "1 3 NAXIS   =                    0\n", ["a.fits"], ""),
    (["keys", "--progress", "-k", "NAXIS", "a.fits", "b.fits"], {"a.fits": EMPTY, "b.fits": EMPTY}, 0, "file\tNAXIS\na.fits\t0\nb.fits\t0\n", ["a.fits", "b.fits"], ""),
    (["sum", "--progress", "-r", "night"], NIGHT, 0, None, ["night/a.fits", "night/a/y.fit", "night/a/z.fts", "night/b.fits.fz"], ""),
    (["verify", "-l", "--progress", "a.fits", "b.fits"], {"a.fits": DATED, "b.fits": EMPTY}, 1, "a.fits\n", ["a.fits", "b.fits"], ""),
    (["cards", "-L", "--progress", "-k", "OBJECT", "a.fits", "b.fits"], {"a.fits": TOLD, "b.fits": EMPTY}, 1, "b.fits\n", ["a.fits", "b.fits"], ""),
    (["ask", "--progress", "-e", "get 1 NAXIS", "a.fits", "b.fits"], {"a.fits": EMPTY, "b.fits": EMPTY}, 0, "a.fits:integer 0\nb.fits:integer 0\n", ["a.fits", "b.fits"], ""),
    (["edit", "-i", "--progress", "--done", "-e", "get 1 NAXIS", "a.fits", "b.fits"], {"a.fits": EMPTY, "b.fits": EMPTY}, 0, "a.fits:integer 0\nb.fits:integer 0\n", ["a.fits", "b.fits"], "a.fits\nb.fits\n"),
    # one whose name isn't UTF-8 counts, and isn't named
    (["stat", "--progress", ODD_NAME, "a.fits"], {ODD_NAME: EMPTY, "a.fits": EMPTY}, 2, "a.fits:1 -\n", [None, "a.fits"], "fitsed: argument 3 is not UTF-8: na\\xefve.fits\n"),
]
ROWS += [
    (["edit", "--progress", "-e", "off", "a.fits", "b.fits"], {"a.fits": EMPTY}, "", 2, "", None),
    (["diff", "--progress", "a.fits", "b.fits"], {"a.fits": EMPTY, "b.fits": EMPTY}, "", 2, "", None),
    (["ask", "--progress", "a.fits"], {"a.fits": EMPTY}, "get 1 NAXIS\n", 0, "integer 0\n", ""),
]


def cases():
    for words, files, status, printed, names, others in PROGRESS:
        yield f"{' '.join(words)}, how far it is", tells_progress, words, files, status, printed, names, others
    for words, files, script, status, printed, reported in ROWS:
        yield " ".join(words), run, words, files, script, status, printed, reported
    for words, files, status, after in EDITS:
        yield " ".join(words), changes, words, files, status, after
    for name in ODD_NAMES:
        printed = f"{name}:1 0 0 0\n"
        yield f"sum -H {name!r}", run, ["sum", "-H", name], {name: EMPTY}, "", 0, printed, ""
        words = ["edit", "-i", "-e", SET, name]
        yield f"edit -i {name!r}", changes, words, {name: EMPTY}, 0, {name: TOLD}
    for words, files, status, printed, reported, more in MORE:
        title = " ".join(words)
        yield title, run, words, files, "", status, printed, reported
        if more is not None:
            yield f"{title}, with -v", run, [words[0], "-v", *words[1:]], files, "", status, printed, reported + more
            yield f"{title}, on a terminal", on_terminal, words, files, status, printed, reported + more
    for words, files, status, printed, reported in UNDONE:
        yield f"{' '.join(words)}, on a terminal", on_terminal, words, files, status, printed, reported
    yield "ask answers a terminal line by line", typed_in
    for path in public_files():
        yield f"cards {path} beside CFITSIO", beside_cfitsio, path


def run(program, words, files, script, status, printed, reported):
    """Where words over these files print or report something else, end otherwise, or change a file. None is any text."""
    ran, after = program.over(words, files, script.encode("latin-1"))
    wanted = {"status": status}
    wanted |= {} if printed is None else {"printed": printed.encode("latin-1")}
    wanted |= {} if reported is None else {"reported": reported.encode()}
    yield from differences(ran, **wanted)
    if after != files:
        yield f"the files are {sorted(after)}, or have other bytes"


def tells_progress(program, words, files, status, printed, names, others):
    """Where the first of these files isn't told as it is begun, or anything is told but later ones, in their order, and these others."""
    ran, _ = program.over(words, files, b"")
    yield from differences(ran, status=status, **({} if printed is None else {"printed": printed.encode()}))
    lines = ran.reported.decode().splitlines(keepends=True)
    told = [line for line in lines if re.match(r"[0-9]+/[0-9]+ ", line)]
    all_names = [f"{number}/{len(names)} {name}\n" for number, name in enumerate(names, 1) if name]
    if told[:1] != all_names[:1] or [line for line in all_names if line in told] != told:
        yield f"it tells {told}"
    if "".join(line for line in lines if line not in told) != others:
        yield f"it reports {lines}"


def changes(program, words, files, status, wanted):
    """Where words over these files end otherwise, or leave others than these."""
    ran, after = program.over(words, files, b"")
    yield from differences(ran, status=status)
    for name in sorted(after.keys() | files.keys() | wanted.keys()):
        if after.get(name) != wanted.get(name, files.get(name)):
            yield f"{name!r} has {after.get(name)!r:.200}"


def on_terminal(program, words, files, status, printed, reported):
    """Where words over these files print something else, or tell a terminal something else, or end otherwise."""
    with program.room(files) as room:
        ours, theirs = pty.openpty()
        ran = subprocess.run([program.path, *words], cwd=room, stdin=subprocess.DEVNULL, stdout=subprocess.PIPE, stderr=theirs, timeout=60)
        os.close(theirs)
        told = b""
        with contextlib.suppress(OSError):
            while piece := os.read(ours, 65536):
                told += piece
        os.close(ours)
    found = Ran(ran.returncode, ran.stdout, told.replace(b"\r\n", b"\n"), None)
    yield from differences(found, status=status, printed=printed.encode("latin-1"), reported=reported.encode("latin-1"))


def typed_in(program):
    """Where a line at a terminal isn't answered before the next one is typed."""
    with program.room({"a.fits": EMPTY}) as room:
        ours, theirs = pty.openpty()
        ran = subprocess.Popen([program.path, "ask", "a.fits"], cwd=room, stdin=theirs, stdout=subprocess.PIPE)
        os.close(theirs)
        for line, answer in [(b"get 1 BITPIX\n", b"integer 8\n"), (b"get 1 NAXIS\n", b"integer 0\n")]:
            os.write(ours, line)
            found = ran.stdout.readline()
            if found != answer:
                yield f"{line!r} is answered {found!r}"
        os.write(ours, b"\x04")
        with contextlib.suppress(subprocess.TimeoutExpired):
            if ran.wait(timeout=10) != 0:
                yield f"it ends with {ran.returncode}"
        ran.kill()
        os.close(ours)


HERE = os.path.dirname(os.path.abspath(__file__))
ROOM = tempfile.TemporaryDirectory()


def public_files():
    """The files of examples/, and those that astropy's tests have, where these and CFITSIO are installed."""
    built = subprocess.run(["cc", "-O1", "-o", f"{ROOM.name}/cards", f"{HERE}/cards.c", "-lcfitsio"], capture_output=True)
    if built.returncode != 0:
        return []
    folders = [os.path.join(HERE, "..", "examples"), *glob.glob("/usr/lib/python3*/*-packages/astropy")]
    return sorted(path for folder in folders for path in glob.glob(f"{folder}/**/*.fits", recursive=True))


def beside_cfitsio(program, path):
    """Where `cards` prints others than CFITSIO reads, of a file that both open."""
    content = pathlib.Path(path).read_bytes()
    ran, _ = program.over(["cards", "a.fits"], {"a.fits": content}, b"")
    theirs = subprocess.run([f"{ROOM.name}/cards", path], capture_output=True, timeout=60)
    if ran.status == 2 or theirs.returncode != 0:
        return
    ours = [line.split(" ", 2) for line in ran.printed.decode().splitlines()]
    # CFITSIO counts the blank cards before END as free room
    cards = {tuple(words[:2]): words[2] for words in ours if len(words) == 3}
    last = {hdu: place for hdu, place in cards}
    read = {}
    for line in theirs.stdout.decode("latin-1").split("\n")[:-1]:
        hdu, place, card = line.split(" ", 2)
        shown = "".join(byte if " " <= byte <= "~" else "?" for byte in card).rstrip(" ")
        if shown or int(place) < int(last.get(hdu, 0)):
            read[hdu, place] = shown
    # CFITSIO stops at a table that it doesn't open
    if {hdu for hdu, _ in read} < {hdu for hdu, _ in cards}:
        return
    blank = {(words[0], words[1]): "" for words in ours if len(words) == 2 and int(words[1]) < int(last.get(words[0], 0))}
    if cards | blank != read:
        yield f"CFITSIO reads {sorted(read.items() ^ (cards | blank).items())!r:.300}"
