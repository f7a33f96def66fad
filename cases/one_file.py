"""OUT that is IN, by its own name or by another: what is saved is right, whatever of IN is read when it is written.

A file with two names is written over once the whole result stands beside it, one that is reached by a descriptor, and one beside
which no new file can be made, are written in their places; any other is replaced."""
import os
import pathlib
import subprocess

from faults import preloaded
from fits import PIXEL, THREE_PIXELS, header, pixels
from program import Ran, differences, shown

# An image whose data are more than a call reads, and in which no two blocks are the same.
MANY = PIXEL.replace("NAXIS1  =                    1|", "NAXIS1  =               100000|")
MANY_PIXELS = pixels(2, range(100_000), 0)

# The HDUs of a file, and what follows them.
FIRST = header(THREE_PIXELS) + pixels(2, [5, 9, 9], 0)
SECOND = header(MANY) + MANY_PIXELS
THIRD = header(PIXEL) + pixels(2, [7], 0)
TAIL = b"tail"
BEFORE = FIRST + SECOND + THIRD + TAIL

# The first with another card, or 36 of them and so a block more; and an image that is put in.
WITH_OBJECT = header(THREE_PIXELS.replace("|END", "|OBJECT  = 'M31     '|END")) + FIRST[2880:]
WITH_COMMENTS = header(THREE_PIXELS.replace("|END", f"|{'COMMENT|' * 36}END")) + FIRST[2880:]
NEW = header(
    "XTENSION= 'IMAGE   '|BITPIX  =                    8|NAXIS   =                    1|"
    "NAXIS1  =                    3|PCOUNT  =                    0|GCOUNT  =                    1|END"
)

# Scripts without answers, and what is saved: no line of the first needs a pixel that was there, each of the others does.
COPIED = [
    ("", BEFORE),
    ("set 1 OBJECT 'M31'", WITH_OBJECT + SECOND + THIRD + TAIL),
    ("ins 1 5 COMMENT\n" * 36, WITH_COMMENTS + SECOND + THIRD + TAIL),
    ("new 2 u8 3\nwrite 2 1:3 1 2 3", FIRST + NEW + pixels(1, [1, 2, 3], 0) + SECOND + THIRD + TAIL),
]
LOADED = [
    ("write 3 1:1 8", FIRST + SECOND + header(PIXEL) + pixels(2, [8], 0) + TAIL),
    (
        "fill 2 2:99999 -1\nset 1 OBJECT 'M31'",
        WITH_OBJECT + header(MANY) + pixels(2, [0, *[-1] * 99_998, 99_999], 0) + THIRD + TAIL,
    ),
]
SCRIPTS = [*COPIED, ("rm 2", FIRST + THIRD + TAIL), *LOADED]

# What is typed of `in.fits`, a link to it, another name that it has, or a descriptor by which it is open: OUT is replaced.
REPLACED = [
    ["edit", "in.fits", "in.fits"],
    ["edit", "in.fits", "./in.fits"],
    ["edit", "in.fits", "link.fits"],
    ["edit", "link.fits", "in.fits"],
    ["edit", "/dev/fd/{it}", "in.fits"],
    ["edit", "-i", "in.fits"],
    ["edit", "-i", "link.fits"],
]

# OUT is written over once all of the result stands beside it; and emptied and written in its place.
OVERWRITTEN = [
    ["edit", "in.fits", "other.fits"],
    ["edit", "other.fits", "other.fits"],
    ["edit", "link.fits", "other.fits"],
    ["edit", "/dev/fd/{it}", "other.fits"],
    ["edit", "-i", "other.fits"],
]
EMPTIED = [
    ["edit", "in.fits", "/dev/fd/{it}"],
    ["edit", "in.fits", "/proc/self/fd/{it}"],
    ["edit", "/dev/fd/{it}", "/proc/self/fd/{it}"],
]

# What can't be done with a file beside OUT, so that OUT isn't replaced: it is made, or gets the permissions of the old one.
DENIED = ["create", "liken"]


def cases():
    shim = preloaded()
    for script, after in SCRIPTS:
        for words in REPLACED:
            # a file of which no edit was accepted stays
            yield f"{words} {script}", in_place, words, script, after, not script, {}
        for words in OVERWRITTEN + EMPTIED:
            yield f"{words} {script}", in_place, words, script, after, True, {}
        for denied in DENIED:
            row = {"LD_PRELOAD": shim, "DENIED": denied}
            yield f"{denied} denied, {script}", in_place, REPLACED[0], script, after, True, row


def in_place(program, words, script, after, is_written, environment, fault=b""):
    """Where a script over a file that is IN and OUT doesn't end well, or by this fault, leaves other bytes than these, or other
    files."""
    with program.room({"in.fits": BEFORE}) as room, open(f"{room}/in.fits", "r+b") as it:
        path = pathlib.Path(room)
        (path / "link.fits").symlink_to("in.fits")
        if "other.fits" in words:
            (path / "other.fits").hardlink_to(path / "in.fits")
        before = kinds(path)
        typed = [program.path, *(word.format(it=it.fileno()) for word in words)]
        how = {"cwd": room, "env": {**os.environ, **environment}, "pass_fds": [it.fileno()]}
        ran = subprocess.run(typed, input=script.encode("latin-1"), capture_output=True, timeout=60, **how)
        yield from differences(Ran(ran.returncode, ran.stdout, ran.stderr, None), status=3 if fault else 0, printed=b"", reported=fault)
        if kinds(path) != before:
            yield f"there are {kinds(path)}, and not {before}"
        if os.path.samestat(os.fstat(it.fileno()), (path / "in.fits").stat()) != is_written:
            yield "it is replaced" if is_written else "it is written in its place"
        for name in before:
            if (path / name).read_bytes() != after:
                yield f"{name} has other bytes: {shown((path / name).read_bytes())}"


def kinds(path):
    """The names in a folder: of a file how many it has, of a link where it leads."""
    return {it.name: os.readlink(it) if it.is_symlink() else it.stat().st_nlink for it in sorted(path.iterdir())}
