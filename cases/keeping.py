"""HDUs that are kept stamped, beside plain sums over what is saved, and CFITSIO's verdicts where that is installed."""
import os
import pathlib
import subprocess
import tempfile

from fits import BLOCK_LEN, CARD_LEN, MANDATORY, P0, PIXEL, file, header
from planes import datasum
from program import differences, shown

# The shortest header with its stamp.
STAMPED = f"{MANDATORY}|CHECKSUM= 'BpFiDoFgBoFgBoFg'|DATASUM = '0       '|END"

# Scripts over the shortest file: what is printed, and how the run ends.
SESSIONS = [
    # right after an edit, and no longer once it is released
    (
        "kept 1\nkeep 1\nkept 1\nset 1 OBJECT 'M31'\nsum 1\nrep\nrelease 1\nkept 1\nset 1 OBJECT 'M33'\nrep\nsum 1",
        "no\nyes\ndatasum 0 verdicts 1 1\nerrors 0 warnings 0\nno\nW24 1 0 CHECKSUM is wrong\n"
        "errors 0 warnings 1\ndatasum 0 verdicts 1 -1\n",
        0,
    ),
    # a sum that goes comes again, after the last card
    (
        "keep 1\nunset 1 CHECKSUM\npos 1 DATASUM\npos 1 CHECKSUM\nget 1 CHECKSUM\nsum 1",
        "4\n5\nstring 'BpFiDoFgBoFgBoFg'\ndatasum 0 verdicts 1 1\n",
        0,
    ),
    # marks go with their HDUs; a new one has none, and one that goes takes its own away
    (
        "new 2 u8 4\nkeep 2\nnew 2 u8 -\nfill 3 1:4 1\nsum 3\nsum 2\nkept 2\nkept 3\nrm 3\nkept 2",
        "datasum 16843009 verdicts 1 1\ndatasum 0 verdicts 0 0\nno\nyes\nno\n",
        0,
    ),
    # a mark behind an HDU that goes moves down, and the place of the last is free for another
    (
        "new 2 u8 1\nnew 3 u8 1\nkeep 3\nrm 2\nkept 2\nnew 3 u8 1\nkept 3\nkept 2\nkept 1",
        "yes\nno\nyes\nno\n",
        0,
    ),
    # sums written by hand, or taken out, are right again
    (
        "keep 1\nset 1 CHECKSUM 'x'\nsum 1\nunset 1 DATASUM\nsum 1\nset 1 DATASUM '7' / old\nsum 1\nget 1 DATASUM\n"
        "put 1 4 COMMENT x\nsum 1\ndel 1 5\nsum 1",
        "datasum 0 verdicts 1 1\n" * 3 + "string '0'\n" + "datasum 0 verdicts 1 1\n" * 2,
        0,
    ),
    # kept twice, released twice, and stamped by hand meanwhile
    (
        "release 1\nkeep 1\nkeep 1\nstamp 1\nkept 1\nrelease 1\nrelease 1\nkept 1\nsum 1",
        "yes\nno\ndatasum 0 verdicts 1 1\n",
        0,
    ),
    # a refused edit leaves all as it was
    (
        "keep 1\nins 1 2 X\nfill 1 1:1 0\nset 1 NAXIS 1\ndel 1 99\nreshape 1 f32 1\nsum 1\nkept 1",
        "line 2: refused 6 Shape\nline 3: refused 9 NotImage\nline 4: refused 6 Shape\nline 5: refused 2 NoCard\n"
        "line 6: not a command\ndatasum 0 verdicts 1 1\nyes\n",
        1,
    ),
    # the tests of pixels come before that of the size, and a number that isn't there before all
    (
        "new 2 u8 2\nkeep 2\nfill 2 1:1 256\nfill 2 3:3 1\nwrite 2 1:2 1\nwrite 2 1:2 1 2\nsum 2\nkeep 3\nrelease 0\nkept 3",
        "line 3: refused 12 Range\nline 4: refused 10 BadRect\nline 5: refused 11 WrongCount\n"
        "datasum 16908288 verdicts 1 1\nline 8: refused 1 NoHdu\nline 9: refused 1 NoHdu\nline 10: refused 1 NoHdu\n",
        1,
    ),
    # 35 cards fill a block: with two more, as many as a stamp may bring, the HDU has a block more, and passes the limit
    (
        "new 2 u8 1\nkeep 2\n" + "ins 2 7 COMMENT\n" * 27 + "off\nreshape 2 u8 11519994240\nsum 2",
        "1 0 2880 2880\n2 2880 5760 8640\nline 31: refused 14 TooLarge\ndatasum 0 verdicts 1 1\n",
        1,
    ),
]

# Lines of which the n-th edits HDU n modulo some number, where that is there: words before its number and after it.
LINES = [
    ("keep", ""),
    ("set", " OBJECT 'M31' / c"),
    ("new", " u16 3,2"),
    ("keep", ""),
    ("ins", " 4 COMMENT x"),
    ("write", " 1:3,2:2 1 2 65535"),
    ("fill", " 1:1 7"),
    ("put", " 4 HISTORY y"),
    ("mov", " 4 5"),
    ("unset", " CHECKSUM"),
    ("reshape", " i32 3,3"),
    ("rm", ""),
    ("keep", ""),
    ("set", " DATASUM '1'"),
    ("del", " 4"),
    ("fill", " 1:2,1:1 40000"),
    ("new", " i8 -"),
    ("stamp", ""),
    ("set", " CHECKSUM ' '"),
    ("keep", ""),
    ("unset", " DATASUM"),
    ("reshape", " u8 1441"),
    ("fill", " 3:1441 200"),
    ("release", ""),
    ("ins", " 7 KEY     = 'a&'"),
    ("keep", ""),
    ("set", " KEY 'a string of more than sixty-eight characters, which goes on in a second card'"),
    ("frob", ""),
    ("unset", " KEY"),
]

# How many extensions of one pixel a file has, how far the numbers of HDUs go round, and how many lines there are.
SCRIPTS = [(0, 4, 174), (2, 5, 174), (3, 3, 116)]


def cases():
    for script, printed, status in SESSIONS:
        yield script, answers, script, printed, status
    yield "what keep saves", saves, "keep 1", header(STAMPED)
    yield "marks aren't saved", saves, "keep 1\nrelease 1", header(STAMPED)
    yield "a mark of a run before", answers_over, header(STAMPED), "kept 1\nset 1 OBJECT 'x'\nsum 1", "no\ndatasum 0 verdicts 1 -1\n", 0
    verdicts = by_cfitsio()
    for extensions, hdus, count in SCRIPTS:
        before = file(([(P0, 0)] + [(PIXEL, 1)] * extensions, "tail"))
        lines = [f"{word} {k % hdus}{rest}" for k, (word, rest) in enumerate(LINES * (count // len(LINES)))]
        yield f"{count} lines over {extensions + 1} HDUs", stays_right, before, lines, extensions + 1, verdicts


def answers(program, script, printed, status):
    """Where a script over the shortest file doesn't print this, or doesn't end so."""
    return answers_over(program, header(P0), script, printed, status)


def answers_over(program, before, script, printed, status):
    """The same over another file."""
    ran = program.edit(before, script.encode("latin-1"))
    return differences(ran, status=status, printed=printed.encode("latin-1"), reported=b"")


def saves(program, script, after):
    """Where a script over the shortest file saves something else."""
    return differences(program.edit(header(P0), script.encode("latin-1")), saved=after, reported=b"")


def stays_right(program, before, lines, count, verdicts):
    """Where after a line an HDU that is kept hasn't both sums right, or another is said to be kept."""
    kept = [False] * count
    for k in range(1, len(lines) + 1):
        asked = [*lines[:k], *(f"kept {h}" for h in range(1, len(kept) + 3)), "off"]
        ran = program.edit(before, "\n".join(asked).encode("latin-1"))
        said = ran.printed.decode("latin-1").splitlines()
        if not any(line.startswith(f"line {k}: ") for line in said):
            follow(kept, lines[k - 1])
        told = [line for line in said if line in ("yes", "no")]
        if told != ["yes" if it else "no" for it in kept]:
            yield f"after line {k}, {lines[k - 1]!r}: kept {told}, and not {kept}"
        offsets = [list(map(int, line.split())) for line in said[-len(kept):]]
        for h, header_start, data_start, end in offsets:
            if kept[h - 1] and not is_right(ran.saved[header_start:data_start], ran.saved[data_start:end]):
                yield f"after line {k}, {lines[k - 1]!r}: HDU {h}, {shown(ran.saved[header_start:data_start])}"
        for line in verdicts(ran.saved, [h for h, it in enumerate(kept, 1) if it]):
            yield f"after line {k}, {lines[k - 1]!r}: {line}"


def follow(kept, line):
    """Which HDUs are kept after a line that was done."""
    word, h, *_ = line.split(" ")
    index = int(h) - 1
    if word == "keep":
        kept[index] = True
    elif word == "release":
        kept[index] = False
    elif word == "new":
        kept.insert(index, False)
    elif word == "rm":
        kept.pop(index)


def is_right(of_header, of_data):
    """Whether DATASUM says the sum of the data, and the whole sums to all ones."""
    cards = [of_header[at : at + CARD_LEN] for at in range(0, len(of_header), CARD_LEN)]
    said = next((card for card in cards if card.startswith(b"DATASUM = '")), b"")
    return (
        len(of_header) % BLOCK_LEN == 0
        and said.rstrip() == b"DATASUM = '%s'" % str(datasum(of_data)).encode().ljust(8)
        and datasum(of_header + of_data) == 2**32 - 1
    )


ROOM = tempfile.TemporaryDirectory()


def by_cfitsio():
    """What asks CFITSIO for its verdicts on HDUs of a file, and says where one isn't 1 and 1; nothing where it isn't there."""
    program, source = f"{ROOM.name}/verdicts", os.path.join(os.path.dirname(os.path.abspath(__file__)), "verdicts.c")
    built = subprocess.run(["cc", "-O1", "-o", program, source, "-lcfitsio"], capture_output=True)
    if built.returncode != 0:
        return lambda saved, hdus: []
    return lambda saved, hdus: wrong_by(program, saved, hdus)


def wrong_by(program, saved, hdus):
    """Where that program doesn't say 1 and 1 of each of these HDUs."""
    with tempfile.NamedTemporaryFile(dir=ROOM.name, suffix=".fits") as file:
        pathlib.Path(file.name).write_bytes(saved)
        ran = subprocess.run([program, file.name, *map(str, hdus)], capture_output=True, timeout=60)
    if ran.stdout != b"1 1\n" * len(hdus) or ran.returncode != 0:
        yield f"CFITSIO says {ran.stdout} of HDUs {hdus}, and {ran.stderr}"
