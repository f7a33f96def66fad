"""Arrays made others: `reshape`, beside a plain program that packs numbers by `struct`."""
import struct

from fits import BLOCK_LEN, P0, header, zeros
from planes import datasum
from program import differences, edited

# The kinds of pixels: bits, how a stored number is packed, and the offset of a value.
KINDS = {
    "u8": (8, ">B", 0),
    "i8": (8, ">B", -128),
    "i16": (16, ">h", 0),
    "u16": (16, ">h", 2**15),
    "i32": (32, ">i", 0),
    "u32": (32, ">i", 2**31),
    "i64": (64, ">q", 0),
    "u64": (64, ">q", 2**63),
}

# Scripts over the shortest file: what is printed, and how the run ends.
SESSIONS = [
    (
        "new 2 u16 3\nwrite 2 1:3 0 65535 1\nreshape 2 i32 2,2\nrect 2 1:2,1:2\nsum 2\nget 2 BZERO",
        "0 65535 1 0\ndatasum 65536 verdicts 0 0\ninteger 0\n",
        0,
    ),
    ("new 2 u16 3\nwrite 2 1:3 0 65535 1\nreshape 2 u8 4\nrect 2 1:3", "line 3: refused 12 Range\n0 65535 1\n", 1),
    (
        "new 2 u16 3\nwrite 2 1:3 0 65535 1\nreshape 2 u16 5\nrect 2 1:5\nsum 2",
        "0 65535 1 32768 32768\ndatasum 98304 verdicts 0 0\n",
        0,
    ),
    (
        "new 2 u16 3\nwrite 2 1:3 0 65535 1\nreshape 2 i32 2,2\nreshape 2 u16 5\nrect 2 1:5\nsum 2\n"
        "reshape 2 u16 1\nreshape 1 u8 2\noff",
        "0 65535 1 0 32768\ndatasum 131072 verdicts 0 0\n1 0 2880 5760\n2 5760 8640 11520\n",
        0,
    ),
    # to no axes and back, and an axis of no length
    (
        "reshape 1 i16 4\nfill 1 1:4 -5\nreshape 1 i16 -\noff\nstat 1\nreshape 1 i16 4\nrect 1 1:4\n"
        "reshape 1 i64 4,0,999999999999999999\noff\nstat 1\nrep",
        "1 0 2880 2880\nline 5: refused 9 NotImage\n0 0 0 0\n1 0 2880 2880\n"
        "defined 0 blank 0 min - max - sum 0\nerrors 0 warnings 0\n",
        1,
    ),
    # blank pixels keep their number, and BLANK stays
    (
        "new 2 i16 3\nset 2 BLANK 7 / undefined\nwrite 2 1:3 7 1 7\nreshape 2 i32 4\nstat 2\nget 2 BLANK\n"
        "reshape 2 u8 2\nstat 2\nreshape 2 i64 1,1,1\nrect 2 1:1,1:1,1:1\nstat 2",
        "defined 2 blank 2 min 0 max 1 sum 1\ninteger 7 / undefined\ndefined 1 blank 1 min 1 max 1 sum 1\n7\n"
        "defined 0 blank 1 min - max - sum 0\n",
        0,
    ),
    # also where no pixel of the new kind can store it
    (
        "new 2 i16 2\nset 2 BLANK -5\nfill 2 1:1 -5\nreshape 2 u8 2\nreshape 2 u8 -\nreshape 2 i16 2\nreshape 2 u8 2\nstat 2\nget 2 BLANK",
        "line 4: refused 12 Range\ndefined 2 blank 0 min 0 max 0 sum 0\ninteger -5\n",
        1,
    ),
    # the range is tested before the size
    (
        "new 2 i16 2\nfill 2 2:2 256\nreshape 2 u8 999999999999999999\nreshape 2 u8 1\nreshape 2 i16 999999999999999999\noff",
        "line 3: refused 12 Range\nline 5: refused 14 TooLarge\n1 0 2880 2880\n2 2880 5760 8640\n",
        1,
    ),
    # 11,520,000,000 bytes less the shortest file and a header is the most
    (
        "new 2 i16 2\nreshape 2 u8 11519994241\nreshape 2 u64 576460752303423488,8\nreshape 2 u8 4294967296,4294967296\noff",
        "line 2: refused 14 TooLarge\nline 3: refused 14 TooLarge\nline 4: refused 14 TooLarge\n"
        "1 0 2880 2880\n2 2880 5760 8640\n",
        1,
    ),
    # a number that isn't there comes first, and words that say none before
    (
        "reshape 2 u8 1\nreshape 1 u8 9223372036854775808\nreshape 1 f32 1\nreshape 1 u8\nreshape 1 u8 1 1",
        "line 1: refused 1 NoHdu\n" + "".join(f"line {k}: not a command\n" for k in (2, 3, 4, 5)),
        1,
    ),
    # what is called so stays so, and the table of names with it
    (
        "new 2 i16 2\nset 2 EXTNAME 'A'\nnew 3 i16 2\nset 3 EXTNAME 'A'\nreshape 2 u32 1\nrep\nset 3 EXTVER 2\nrep\nget 2 EXTNAME",
        "".join(f"W25 {k} 0 two extensions of one type, name and version\n" for k in (2, 3))
        + "errors 0 warnings 2\nerrors 0 warnings 0\nstring 'A'\n",
        0,
    ),
]

# Cards of an array of two pixels, less the first: what a reshape is refused for, or nothing.
CARDS = [
    # an offset comes over cards that scale or add
    ("BITPIX  = 16|NAXIS   = 1|NAXIS1  = 2|BSCALE  = 2", "u16 1", "6 Shape"),
    ("BITPIX  = 16|NAXIS   = 1|NAXIS1  = 2|BSCALE  = 2", "i32 1", ""),
    ("BITPIX  = 16|NAXIS   = 1|NAXIS1  = 2|BZERO   = 1", "u16 1", "6 Shape"),
    ("BITPIX  = 16|NAXIS   = 1|NAXIS1  = 2|BZERO   = 1", "i16 1", ""),
    ("BITPIX  = 16|NAXIS   = 1|NAXIS1  = 2|BSCALE  = 'a'", "u16 1", "6 Shape"),
    ("BITPIX  = 16|NAXIS   = 1|NAXIS1  = 2|BSCALE  = 1.0|BZERO   = 0.0E1", "u16 1", ""),
    # the offset of another width is one there
    ("BITPIX  = 16|NAXIS   = 1|NAXIS1  = 2|BZERO   = 2147483648", "i32 1", "6 Shape"),
    ("BITPIX  = 16|NAXIS   = 1|NAXIS1  = 2|BZERO   = 2147483648", "u32 1", "6 Shape"),
    ("BITPIX  = 16|NAXIS   = 1|NAXIS1  = 2|BZERO   = 2147483648", "i64 1", ""),
    # real numbers, groups, and what would be groups
    ("BITPIX  = -32|NAXIS   = 1|NAXIS1  = 2", "u8 1", "9 NotImage"),
    ("BITPIX  = 16|NAXIS   = 2|NAXIS1  = 0|NAXIS2  = 2|GROUPS  = T|PCOUNT  = 0|GCOUNT  = 1", "i16 2", "9 NotImage"),
    ("BITPIX  = 16|NAXIS   = 1|NAXIS1  = 2|GROUPS  = T", "i16 0,2", "6 Shape"),
    ("BITPIX  = 16|NAXIS   = 1|NAXIS1  = 2|GROUPS  = T", "i16 2,0", ""),
]

# Extensions, less the first card and END.
EXTENSIONS = [
    ("TABLE", "BITPIX  = 8|NAXIS   = 2|NAXIS1  = 1|NAXIS2  = 1|PCOUNT  = 0|GCOUNT  = 1|TFIELDS = 0", "9 NotImage"),
    ("IMAGE", "BITPIX  = 8|NAXIS   = 1|NAXIS1  = 1|PCOUNT  = 1|GCOUNT  = 1", "9 NotImage"),
    ("IMAGE", "BITPIX  = 8|NAXIS   = 1|NAXIS1  = 1|PCOUNT  = 0|GCOUNT  = 2", "9 NotImage"),
    ("IMAGE", "BITPIX  = 8|NAXIS   = 1|NAXIS1  = 1|PCOUNT  = 0|GCOUNT  = 1", ""),
]

# So many axes more than one, and what is answered.
AXES = [(998, ""), (999, "6 Shape")]

# How many pixels there are, and how many after.
COUNTS = [(0, 3), (1, 1), (3, 0), (3, 2), (2, 3), (1441, 2882), (2880, 361), (5000, 5001)]


def cases():
    for script, printed, status in SESSIONS:
        yield script, answers, script, printed, status
    for of_header, words, refused in CARDS:
        yield f"{of_header}: {words}", takes, header(f"SIMPLE  = T|{of_header}|END") + zeros(1), 1, words, refused
    for name, of_header, refused in EXTENSIONS:
        before = header(P0) + header(f"XTENSION= '{name}   '|{of_header}|END") + zeros(1)
        yield f"{name} {of_header}", takes, before, 2, "u8 1", refused
    for more, refused in AXES:
        yield f"{more + 1} axes", takes, header(P0), 1, "u8 1" + ",1" * more, refused
    for old in KINDS:
        for new in KINDS:
            beside = [end + step for end in ends(old) + ends(new) for step in (-1, 0, 1)]
            for value in sorted({it for it in beside if is_in(old, it)}):
                yield f"{old} to {new}: {value}", made, old, new, [*common(old, new, 1), value], 3
    for count, after in COUNTS:
        for old, new in [("i16", "i32"), ("u16", "u16"), ("u8", "i64"), ("u32", "u64"), ("i64", "i8"), ("i8", "u8")]:
            kept = common(old, new, min(count, after))
            gone = [ends(old)[k % 2] for k in range(count - len(kept))]
            yield f"{count} {old} to {after} {new}", made, old, new, kept + gone, after


def answers(program, script, printed, status):
    """Where a script over the shortest file doesn't print this, or doesn't end so."""
    ran = program.edit(header(P0), script.encode("latin-1"))
    return differences(ran, status=status, printed=printed.encode("latin-1"), reported=b"")


def takes(program, before, hdu, words, refused):
    """Where a reshape isn't refused so, or not taken."""
    ran = program.edit(before, f"reshape {hdu} {words}".encode("latin-1"))
    printed = f"line 1: refused {refused}\n" if refused else ""
    return differences(ran, status=int(refused != ""), printed=printed.encode("latin-1"), reported=b"")


def made(program, old, new, values, after):
    """Where values that stay aren't kept, or refused, or other bytes are saved than a plain program stores."""
    kept = values[:after]
    before = image(old, len(values), scaling(old)) + unit(old, values)
    script = f"reshape 2 {new} {after}\nsum 2\n" + (f"rect 2 1:{after}\n" if after else "")
    if all(is_in(new, value) for value in kept):
        offset = KINDS[new][2]
        now = scaling(old) if KINDS[old][2] == offset else f"{number('BSCALE', 1)}|{number('BZERO', offset)}|"
        numbers = kept + [offset] * (after - len(kept))
        data = unit(new, numbers)
        printed = f"datasum {datasum(data)} verdicts 0 0\n" + (" ".join(map(str, numbers)) + "\n" if after else "")
        return edited(program, header(P0) + before, script, printed, 0, header(P0) + image(new, after, now) + data)
    ran = program.edit(header(P0) + before, script.split("\n")[0].encode("latin-1"))
    return differences(ran, status=1, printed=b"line 1: refused 12 Range\n", reported=b"", saved=header(P0) + before)


def ends(kind):
    """The least and the greatest value of a kind."""
    bits, packed, offset = KINDS[kind]
    least = 0 if packed == ">B" else -(2 ** (bits - 1))
    return [least + offset, least + 2**bits - 1 + offset]


def is_in(kind, value):
    """Whether a pixel of a kind can have a value."""
    least, greatest = ends(kind)
    return least <= value <= greatest


def common(old, new, count):
    """So many values that both kinds have, those at the ends first."""
    least, greatest = max(ends(old)[0], ends(new)[0]), min(ends(old)[1], ends(new)[1])
    some = [least, greatest, least + 1, greatest - 1, (least + greatest) // 2]
    return [some[k % 5] for k in range(count)]


def number(name, value):
    """The card of a number in fixed format."""
    return f"{name:8}= {value:>20}"


def scaling(kind):
    """The cards of a kind's offset, where it has one."""
    offset = KINDS[kind][2]
    return f"{number('BSCALE', 1)}|{number('BZERO', offset)}|" if offset else ""


def image(kind, axis, cards):
    """The header of an image of a kind and of one axis, with these cards before END."""
    shape = f"{number('BITPIX', KINDS[kind][0])}|{number('NAXIS', 1)}|{number('NAXIS1', axis)}"
    return header(f"XTENSION= 'IMAGE   '|{shape}|{number('PCOUNT', 0)}|{number('GCOUNT', 1)}|{cards}END")


def unit(kind, values):
    """The data unit that stores values, packed one by one."""
    _, packed, offset = KINDS[kind]
    front = b"".join(struct.pack(packed, value - offset) for value in values)
    return front + bytes(-len(front) % BLOCK_LEN)
