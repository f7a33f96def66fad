"""Lines of a script: what they say, counted and measured."""
import itertools

from fits import P0, file, header
from program import differences, edited, shown

# A line, and a line of the plainest form that says the same, if the first is a command.
LINES = [
    ("", ""),
    ("#", ""),
    ("#x", ""),
    ("# off", ""),
    ("#\r", ""),
    ("off", "off"),
    ("rep", "rep"),
    ("rep ", None),
    ("rep 1", None),
    ("repo", None),
    ("ins 1 4 CARD", "ins 1 4 CARD"),
    ("ins 1 4", "ins 1 4 "),
    ("ins 1 4 ", "ins 1 4 "),
    # the rest of the line, spaces and all
    ("ins 1 4  X", "ins 1 4  X"),
    ("ins 1 4 X  Y ", "ins 1 4 X  Y"),
    ("ins 1 4 X\r", "ins 1 4 X\r"),
    ("ins 1 4 #", "ins 1 4 #"),
    # 18 digits, zeros too
    ("ins 999999999999999999 123456789012345678 X", "ins 999999999999999999 123456789012345678 X"),
    ("ins 000000000000000000 000000000000000012", "ins 0 12 "),
    ("ins 0 0 X", "ins 0 0 X"),
    ("ins 1 4 ins 1 4", "ins 1 4 ins 1 4"),
    ("put 1 4 CARD", "put 1 4 CARD"),
    ("put 1 4", "put 1 4 "),
    ("put 0 0  X ", "put 0 0  X "),
    ("del 1 4", "del 1 4"),
    ("del 000000000000000000 999999999999999999", "del 0 999999999999999999"),
    ("mov 1 4 5", "mov 1 4 5"),
    ("mov 0 000000000000000012 0", "mov 0 12 0"),
    # a field is read at any length, spaces before it too
    ("set 1 KEY 5", "set 1 KEY 5"),
    ("set 1 KEY  5", "set 1 KEY 5"),
    ("set 1 KEY 5 / c ", "set 1 KEY 5 / c"),
    ("set 1 KEY 5 /", "set 1 KEY 5 /"),
    ("set 1 KEY 5/", "set 1 KEY 5 /"),
    ("set 1 KEY T", "set 1 KEY T"),
    ("set 1 KEY -1.5D3", "set 1 KEY -1.5D3"),
    ("set 1 KEY (1, 2.)", "set 1 KEY (1, 2.)"),
    ("set 1 KEY 'it''s  ' / x", "set 1 KEY 'it''s' / x"),
    ("set 1 KEY 'ab&'", "set 1 KEY 'ab&'"),
    ("set 1 KEY=5 7", "set 1 KEY=5 7"),
    # it may be empty without the space before it
    ("set 1 KEY", "set 1 KEY"),
    ("set 1 KEY ", "set 1 KEY"),
    ("set 1 KEY    ", "set 1 KEY"),
    ("set 1 KEY=5", "set 1 KEY=5"),
    ("set 1 KEY / c", "set 1 KEY / c"),
    ("unset 1 KEY", "unset 1 KEY"),
    ("unset 0 END", "unset 0 END"),
    ("pos 1 KEY", "pos 1 KEY"),
    ("pos 0 #=/'", "pos 0 #=/'"),
    # a name is filled up with spaces
    ("get 1 KEY", "get 1 KEY"),
    ("get 2 K", "get 2 K"),
    ("get 0 DATE-OBS", "get 0 DATE-OBS"),
    ("get 000000000000000012 1", "get 12 1"),
    ("get 999999999999999999 get", "get 999999999999999999 get"),
    ("get 1 #=/'\t\xc3\xbf\x00", "get 1 #=/'\t\xc3\xbf\x00"),
    ("get 1 KEY\r", "get 1 KEY\r"),
    # no command
    ("off ", None),
    (" off", None),
    ("off\r", None),
    ("off\t", None),
    ("OFF", None),
    ("offs", None),
    ("of", None),
    ("off 1", None),
    (" ", None),
    ("\r", None),
    (" #", None),
    ("\xef\xbb\xbfoff", None),
    ("\x00", None),
    ("frob", None),
    ("ins", None),
    ("ins ", None),
    ("ins 1", None),
    ("ins 1 ", None),
    ("ins  1 4 X", None),
    ("ins 1  4 X", None),
    (" ins 1 4 X", None),
    ("ins\t1 4 X", None),
    ("ins 1 x", None),
    ("ins 1 x X", None),
    ("ins x 4 X", None),
    ("ins 1 4\r", None),
    ("ins 1 4x X", None),
    ("ins +1 4 X", None),
    ("ins -1 4 X", None),
    ("ins 1 +4 X", None),
    ("ins 0x1 4 X", None),
    # 19 digits, zeros too
    ("ins 1000000000000000000 4 X", None),
    ("ins 1 1000000000000000000 X", None),
    ("ins 0000000000000000001 4 X", None),
    ("ins 1 0000000000000000000 X", None),
    ("INS 1 4 X", None),
    ("get", None),
    ("get ", None),
    ("get 1", None),
    ("get 1 ", None),
    ("get 1  ", None),
    ("get KEY", None),
    ("get KEY 1", None),
    ("get  1 KEY", None),
    ("get 1  KEY", None),
    (" get 1 KEY", None),
    ("get\t1 KEY", None),
    # a further space, or a further word
    ("get 1 KEY ", None),
    ("get 1 KEY 2", None),
    # 9 bytes
    ("get 1 DATE-OBS2", None),
    ("get x KEY", None),
    ("get -1 KEY", None),
    ("get +1 KEY", None),
    ("get 1000000000000000000 KEY", None),
    ("gets 1 KEY", None),
    ("ge 1 KEY", None),
    ("GET 1 KEY", None),
    ("put", None),
    ("put 1", None),
    ("put 1 x X", None),
    ("PUT 1 4 X", None),
    ("del", None),
    ("del 1", None),
    ("del 1 ", None),
    ("del 1 4 ", None),
    ("del 1 4 5", None),
    ("del 1 4\r", None),
    ("del  1 4", None),
    ("mov 1 4", None),
    ("mov 1 4 ", None),
    ("mov 1 4 5 ", None),
    ("mov 1 4 5 6", None),
    ("mov 1 4  5", None),
    ("mov 1 4 x", None),
    ("mov 1 4 1000000000000000000", None),
    ("set", None),
    ("set 1", None),
    ("set 1 ", None),
    ("set 1  KEY 5", None),
    ("set x KEY 5", None),
    ("set 1 DATE-OBS2 5", None),
    # a field without a reading
    ("set 1 KEY junk", None),
    ("set 99 KEY junk", None),
    ("set 1 KEY 5 6", None),
    ("set 1 KEY 1e3", None),
    ("set 1 KEY 5\r", None),
    ("set 1 KEY 5 / \x80", None),
    ("set 1 KEY 'open", None),
    ("set 1 KEY (1)", None),
    ("unset 1", None),
    ("unset 1 KEY ", None),
    ("unset 1 KEY 5", None),
    ("unset 1 DATE-OBS2", None),
    ("pos 1", None),
    ("pos 1 KEY ", None),
    ("pos KEY", None),
    # rectangles and values
    ("fill 1 1:1 5", "fill 1 1:1 5"),
    ("fill 12 1:2,3:4,0:999999999999999999 -0", "fill 12 1:2,3:4,0:999999999999999999 0"),
    ("fill 1 1:1 -123456789012345678901234567890", "fill 1 1:1 -123456789012345678901234567890"),
    ("fill 1 1:1 1234567890123456789012345678901", None),
    ("fill 1 1:1 +1", None),
    ("fill 1 1:1 -", None),
    ("fill 1 1:1 --1", None),
    ("fill 1 1:1", None),
    ("fill 1 1:1 ", None),
    ("fill 1 1:1 5 ", None),
    ("fill 1 1:1 5 6", None),
    ("fill 1 1:1  5", None),
    ("fill 1 1: 5", None),
    ("fill 1 :1 5", None),
    ("fill 1 1 5", None),
    ("fill 1 1:1:1 5", None),
    ("fill 1 1:1, 5", None),
    ("fill 1 1:1,,1:1 5", None),
    ("fill 1 -1:1 5", None),
    ("fill 1 1234567890123456789:1 5", None),
    ("fill 99 1:x 5", None),
    ("fill 1 5", None),
    ("fill x 1:1 5", None),
    ("write 1 2:2,1:2 7 8", "write 1 2:2,1:2 7 8"),
    ("write 1 1:1 -7", "write 1 1:1 -7"),
    ("write 1 1:1", None),
    ("write 1 1:1 ", None),
    ("write 1 1:1 7  8", None),
    ("write 1 1:1 7 8 ", None),
    ("write 1 1:1 7 x", None),
    ("rect 1 1:2,1:2", "rect 1 1:2,1:2"),
    ("rect 1", None),
    ("rect 1 1:2 ", None),
    ("rect 1 1:2 3", None),
    ("stat 1", "stat 1"),
    ("stat", None),
    ("stat 1 ", None),
    ("stat x", None),
    ("sum 1", "sum 1"),
    ("sum", None),
    ("sum 1 2", None),
    ("stamp 1", "stamp 1"),
    ("stamp", None),
    ("stamp 1 2", None),
    # HDUs kept stamped
    ("keep 1", "keep 1"),
    ("keep 000000000000000012", "keep 12"),
    ("keep", None),
    ("keep ", None),
    ("keep 1 ", None),
    ("keep 1 2", None),
    ("keep  1", None),
    ("keep x", None),
    ("keep -1", None),
    ("keep 1000000000000000000", None),
    ("keep 1\r", None),
    ("keeps 1", None),
    ("KEEP 1", None),
    ("release 1", "release 1"),
    ("release 0", "release 0"),
    ("release", None),
    ("release 1 ", None),
    ("release 1 2", None),
    ("release x", None),
    ("released 1", None),
    ("RELEASE 1", None),
    ("kept 1", "kept 1"),
    ("kept 2", "kept 2"),
    ("kept 12", "kept 12"),
    ("kept", None),
    ("kept ", None),
    ("kept 1 ", None),
    ("kept 1 2", None),
    ("kept x", None),
    ("KEPT 1", None),
    # new images, and HDUs that go
    ("new 2 u8 -", "new 2 u8 -"),
    ("new 2 i8 0", "new 2 i8 0"),
    ("new 2 i16 1,2", "new 2 i16 1,2"),
    ("new 2 u16 00,01", "new 2 u16 0,1"),
    ("new 2 i32 3", "new 2 i32 3"),
    ("new 2 u32 4", "new 2 u32 4"),
    ("new 2 i64 5", "new 2 i64 5"),
    ("new 0 u64 999999999999999999,000000000000000007", "new 0 u64 999999999999999999,7"),
    ("new 999999999999999999 u8 -", "new 999999999999999999 u8 -"),
    ("new", None),
    ("new ", None),
    ("new 2", None),
    ("new 2 ", None),
    ("new 2 u8", None),
    ("new 2 u8 ", None),
    ("new 2 u8  -", None),
    ("new 2  u8 -", None),
    ("new  2 u8 -", None),
    ("new 2 u8 - ", None),
    ("new 2 u8 --", None),
    ("new 2 u8 -1", None),
    ("new 2 u8 +1", None),
    ("new 2 u8 -,1", None),
    ("new 2 u8 1,-", None),
    ("new 2 u8 3,", None),
    ("new 2 u8 ,3", None),
    ("new 2 u8 ,", None),
    ("new 2 u8 3,,4", None),
    ("new 2 u8 3, 4", None),
    ("new 2 u8 3 4", None),
    ("new 2 u8 3x4", None),
    ("new 2 u8 3 ", None),
    ("new 2 u8 3:4", None),
    ("new 2 u8 1000000000000000000", None),
    ("new 2 u8 9223372036854775808", None),
    ("new 2 u8 3,0000000000000000001", None),
    ("new 2 U8 -", None),
    ("new 2 8 -", None),
    ("new 2 u -", None),
    ("new 2 u88 -", None),
    ("new 2 u128 -", None),
    ("new 2 f32 -", None),
    ("new 2 -32 3", None),
    ("new x u8 -", None),
    ("new -1 u8 -", None),
    ("new u8 -", None),
    ("new 1000000000000000000 u8 -", None),
    ("new 2 u8 -\r", None),
    ("NEW 2 u8 -", None),
    ("rm 1", "rm 1"),
    ("rm 0", "rm 0"),
    ("rm 000000000000000012", "rm 12"),
    ("rm", None),
    ("rm ", None),
    ("rm 1 ", None),
    ("rm 1 2", None),
    ("rm  1", None),
    ("rm x", None),
    ("rm -1", None),
    ("rm 1000000000000000000", None),
    ("rm 1\r", None),
    ("RM 1", None),
    # 80 bytes, and 81
    ("ins 1 4 yyyyyyyyyyyyyyyyyyyyyyyyyyyyyyyyyyyyyyyyyyyyyyyyyyyyyyyyyyyyyyyyyyyyyyyyyyyyyyyy", "ins 1 4 yyyyyyyyyyyyyyyyyyyyyyyyyyyyyyyyyyyyyyyyyyyyyyyyyyyyyyyyyyyyyyyyyyyyyyyyyyyyyyyy"),
    ("ins 1 4 yyyyyyyyyyyyyyyyyyyyyyyyyyyyyyyyyyyyyyyyyyyyyyyyyyyyyyyyyyyyyyyyyyyyyyyyyyyyyyyyy", None),
    ("ins 1 4 yyyyyyyyyyyyyyyyyyyyyyyyyyyyyyyyyyyyyyyyyyyyyyyyyyyyyyyyyyyyyyyyyyyyyyyyyyyyyyyy ", None),
]

# The file that these lines are about.
ABOUT = (
    [
        ("SIMPLE|BITPIX  = 16|NAXIS   = 2|NAXIS1  = 2|NAXIS2  = 2|KEY     = 1|K|1       = 2|END", 1),
        ("XTENSION= 'IMAGE'|BITPIX  = 8|NAXIS   = 0|K       = 3|END", 0),
    ],
    "",
)

# A script over the shortest file: its parts, each so many times; its answers, and the status.
SCRIPTS = [
    ([("#", 100_000)], "", 0),
    ([("x", 100_000)], "line 1: not a command\n", 1),
    ([("#", 100_001)], "line 1: too long\n", 1),
    ([(" ", 100_001)], "line 1: too long\n", 1),
    ([("x", 100_001)], "line 1: too long\n", 1),
    ([("\x00", 100_001)], "line 1: too long\n", 1),
    # a line is measured without its line feed
    (
        [
            ("#", 100_000),
            ("\noff\n", 1),
            ("#", 100_001),
            ("\noff\n", 1),
            ("x", 100_000),
            ("\n", 1),
            ("x", 300_000),
            ("\noff", 1),
        ],
        "1 0 2880 2880\nline 3: too long\n1 0 2880 2880\nline 5: not a command\nline 6: too long\n1 0 2880 2880\n",
        1,
    ),
    # lines are counted from 1
    ([], "", 0),
    ([("\n", 1)], "", 0),
    ([("\n", 3)], "", 0),
    ([("off", 1)], "1 0 2880 2880\n", 0),
    ([("off\n", 1)], "1 0 2880 2880\n", 0),
    ([("frob", 1)], "line 1: not a command\n", 1),
    ([("frob\n", 1)], "line 1: not a command\n", 1),
    (
        [("\n#\n\nfrob\n\nfrob", 1)],
        "line 4: not a command\nline 6: not a command\n",
        1,
    ),
    (
        [("\n", 98), ("x\n", 2), ("\n", 9899), ("x", 1)],
        "line 99: not a command\nline 100: not a command\nline 10000: not a command\n",
        1,
    ),
]

# A comment, and one that is as long as a line may be.
COMMENT = "#" * 99_999
FULL = COMMENT + "\n"

# More than a script may have.
ENDLESS = 20_000
TOO_LONG = "fitsed: script too long\n"

# A script near the limit of 100,000,000 bytes: its parts, each so many times; its answers, and what is reported.
LONG_SCRIPTS = [
    # a line without end
    ([(COMMENT, ENDLESS)], "", TOO_LONG),
    # a script without end is answered as far as the limit
    ([("off\nfrob\n", 1), (FULL, ENDLESS)], "1 0 2880 2880\nline 2: not a command\n", TOO_LONG),
    # 100,000,000 bytes
    ([(FULL, 999), ("#" * 99_995, 1), ("\noff\n", 1)], "1 0 2880 2880\n", ""),
    # one byte more, the last of a line
    ([(FULL, 999), ("#" * 99_992, 1), ("\noff\noff\n", 1)], "1 0 2880 2880\n", TOO_LONG),
]


def cases():
    for line, plain in LINES:
        yield line, says, file(ABOUT), line, plain
    shortest = header(P0)
    for parts, answers, status in SCRIPTS:
        name = " ".join(f"{times} times {text!r}" for text, times in parts)
        script = "".join(text * times for text, times in parts)
        yield name, edited, shortest, script, answers, status, shortest
    for parts, answers, fault in LONG_SCRIPTS:
        name = " ".join(f"{times} times {text[-9:]!r}" for text, times in parts)
        yield name, long_script, shortest, parts, answers, fault


def says(program, about, line, plain):
    """Where a line is a command and shouldn't be, or comes to something else than its plainest form."""
    ran, after = program.edit(about, f"{line}\nfrob".encode("latin-1")), b"line 2: not a command\n"
    if plain is None:
        return differences(ran, status=1, printed=b"line 1: not a command\n" + after, reported=b"", saved=about)
    if b"line 1: not a command" in ran.printed or not ran.printed.endswith(after):
        return [f"it is not the command {shown(plain)}"]
    return differences(ran, **vars(program.edit(about, f"{plain}\nfrob".encode("latin-1"))))


def long_script(program, file, parts, answers, fault):
    """Where a long script isn't answered so, ends by another fault, or saves a file in spite of one."""
    pieces = [piece for text, times in parts for piece in itertools.repeat(text.encode("latin-1"), times)]
    ran = program.edit_by(file, pieces)
    status, saved = (2, None) if fault else (0, file)
    return differences(ran, status=status, printed=answers.encode("latin-1"), reported=fault.encode("latin-1"), saved=saved)
