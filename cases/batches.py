"""Slips and single faults among many files: OUT that stands, a name that isn't text, a file that can't be written.

What is the fault of one file is told of it, and the others are done; what is told beside is told where it is asked for, or at a
terminal."""
import os
import pathlib

from again import apart, contents
from commands import EMPTY, IMAGES, with_cards
from held import ANOTHER, BEFORE, FULL, RESULT, Scene, begun, ended, left_out, preloaded, rights_count, run_at_terminal, run_in

LINE = "set 1 OBJECT 'M31'"
DONE = with_cards("OBJECT  = 'M31     '")

# A name in Latin-1, as Python has it, and as it is told.
ODD = os.fsdecode(b"na\xefve.fits")
TOLD = r"na\xefve.fits"

# What each command prints of the shortest file, with its name.
PRINTED = {
    ("verify",): "errors 0 warnings 0\n",
    ("verify", "-q"): "errors 0 warnings 0\n",
    ("list",): "hdu 1 PRIMARY bitpix 8 axes - cards 3 at 0 2880 2880\n",
    ("sum",): "1 0 0 0\n",
    ("stat",): "1 -\n",
    ("cards", "-k", "NAXIS"): "1 3 NAXIS   =                    0\n",
    ("ask", "-e", "get 1 NAXIS"): "integer 0\n",
    ("edit", "-i", "-e", "get 1 NAXIS"): "integer 0\n",
}


def cases():
    yield from of_standing()
    yield from of_replaced()
    yield from of_odd_names()
    yield from of_rights()
    if preloaded():
        yield "edit -i of several, no room for the second", second_is_full


def of_standing():
    for option in ("-n", "--no-clobber"):
        for of in (EMPTY, b"no file", None):
            files = {"b.fits": IMAGES, **({"a.fits": of} if of else {})}
            row = ["edit", option, "-e", LINE, "a.fits", "b.fits"], files, 2, "", "fitsed: b.fits: stands there\n", files
            yield f"{option} over {of and of[:7]}", comes_to, *row
        row = ["edit", option, "-e", LINE, "a.fits", "b.fits"], {"a.fits": EMPTY}, 0, "", "", {"a.fits": EMPTY, "b.fits": DONE}
        yield f"{option}, a new OUT", comes_to, *row
    row = ["edit", "-n", "-e", LINE, "a.fits", "a.fits"], {"a.fits": EMPTY}, 2, "", "fitsed: a.fits: stands there\n", {"a.fits": EMPTY}
    yield "-n, OUT that is IN", comes_to, *row
    yield "-n, a link that leads to no file", stands_as_link


def of_replaced():
    both = {"a.fits": EMPTY, "b.fits": IMAGES}
    into, told = ["-e", LINE, "a.fits", "b.fits"], "fitsed: b.fits: replaced\n"
    after = {"a.fits": EMPTY, "b.fits": DONE}
    yield "OUT that stands", comes_to, ["edit", *into], both, 0, "", "", after
    yield "OUT that stands, -v", comes_to, ["edit", "-v", *into], both, 0, "", told, after
    yield "OUT that stands, at a terminal", comes_to_at_terminal, ["edit", *into], both, 0, "", told, after
    for words in (["-i", "a.fits"], ["a.fits", "a.fits"], ["a.fits", "./a.fits"]):
        row = ["edit", "-v", "-e", LINE, *words], {"a.fits": EMPTY}, 0, "", "", {"a.fits": DONE}
        yield f"OUT that is IN, -v {words}", comes_to, *row
    yield "a new OUT, -v", comes_to, ["edit", "-v", *into], {"a.fits": EMPTY}, 0, "", "", after
    yield "a new OUT, at a terminal", comes_to_at_terminal, ["edit", *into], {"a.fits": EMPTY}, 0, "", "", after
    row = ["edit", "-v", "-a", "-e", "off 1", *into], both, 1, "line 1: not a command\n"
    told = "fitsed: line 1: a word too many: 1\nfitsed: b.fits: not saved: 1 line was not done\n"
    yield "OUT that stands and isn't saved, -v", comes_to, *row, told, both


def of_odd_names():
    files = {"a.fits": EMPTY, ODD: EMPTY, "c.fits": EMPTY}
    for words, printed in PRINTED.items():
        for names in (["a.fits", ODD, "c.fits"], [ODD, "a.fits", "c.fits"], ["a.fits", "c.fits", ODD]):
            told = f"fitsed: argument {len(words) + names.index(ODD) + 1} is not UTF-8: {TOLD}\n"
            lines = "".join(f"{name}:{printed}" for name in names if name != ODD)
            yield f"{words} of {names}", comes_to, [*words, *names], files, 2, lines, told, files
    after = {"a.fits": DONE, ODD: EMPTY, "c.fits": DONE}
    told = f"fitsed: argument 5 is not UTF-8: {TOLD}\n"
    yield "edit -i of several", comes_to, ["edit", "-i", "-e", LINE, ODD, "a.fits", "c.fits"], files, 2, "", told, after
    other = os.fsdecode(b"\xc3\xa9\xff.fits")
    told = f"fitsed: argument 2 is not UTF-8: {TOLD}\n" + "fitsed: argument 4 is not UTF-8: \\xc3\\xa9\\xff.fits\n"
    yield "two names", comes_to, ["sum", ODD, "a.fits", other], {"a.fits": EMPTY}, 2, "a.fits:1 0 0 0\n", told, {"a.fits": EMPTY}
    told = f"fitsed: argument 4 is not UTF-8: {TOLD}\n"
    yield "after --", comes_to, ["sum", "--", "a.fits", ODD], {"a.fits": EMPTY}, 2, "a.fits:1 0 0 0\n", told, {"a.fits": EMPTY}
    told = f"fitsed: argument 3 is not UTF-8: {TOLD}\nfitsed: none.fits: read failed\n"
    yield "beside one that isn't there", comes_to, ["sum", "a.fits", ODD, "none.fits"], {"a.fits": EMPTY}, 3, "a.fits:1 0 0 0\n", told, {"a.fits": EMPTY}


def of_rights():
    if not rights_count():
        left_out("rows of files that can't be written", "permissions bind no user that this can be")
        return
    names = ["a.fits", "b.fits", "c.fits"]
    for mode in (0o444, 0o400):
        row = "edit", mode, "fitsed: b.fits: write failed\n", {"a.fits": DONE, "b.fits": EMPTY, "c.fits": DONE}
        yield f"edit -i of several, of which one has the mode {mode:o}", is_not_writable, names, *row
    row = "edit", 0o000, "fitsed: b.fits: read failed\n", {"a.fits": DONE, "b.fits": EMPTY, "c.fits": DONE}
    yield "edit -i of several, of which one can't be read", is_not_writable, names, *row
    row = "edit", 0o444, "fitsed: write failed\n", {"b.fits": EMPTY}
    yield "edit -i of one that can't be written", is_not_writable, ["b.fits"], *row


def comes_to(program, words, files, status, printed, reported, wanted):
    """Where words over these files end otherwise, print or report something else, or leave other files."""
    ran, after = program.under().over(words, files, b"")
    return apart(ran, after, {"status": status, "printed": printed.encode(), "reported": reported.encode()}, wanted)


def comes_to_at_terminal(program, words, files, status, printed, reported, wanted):
    """The same where standard error is a terminal."""
    ran, after = run_at_terminal(program, words, files)
    return apart(ran, after, {"status": status, "printed": printed.encode(), "reported": reported.encode()}, wanted)


def stands_as_link(program):
    """Where a link that leads to no file isn't what stands at OUT."""
    with program.room({"a.fits": EMPTY}) as room:
        os.symlink("none.fits", f"{room}/b.fits")
        with begun(program, room, ["edit", "-n", "-e", LINE, "a.fits", "b.fits"]) as ran:
            came = ended(ran)
        ends = {"status": 2, "printed": b"", "reported": b"fitsed: b.fits: stands there\n"}
        yield from apart(came, contents(pathlib.Path(room)), ends, {"a.fits": EMPTY, "b.fits": None})


def second_is_full(program):
    """Where a file is edited after there was no room for the one before, or one is lost."""
    files = dict.fromkeys(["a.fits", "b.fits", "c.fits"], BEFORE)
    scene = Scene("several", ("-i", *files), files, "b.fits")
    _, ran, after = run_in(program, scene, FAIL=f"2 {FULL} write b.fits.fitsed-0")
    ends = {"status": 3, "printed": b"", "reported": b"fitsed: b.fits: write failed\n"}
    return apart(ran, after, ends, {**files, "a.fits": RESULT})


def is_not_writable(program, names, command, mode, reported, wanted):
    """Where a file with such a mode keeps others from being edited, or ends the run otherwise."""
    is_of_another = os.geteuid() == 0
    with program.room(dict.fromkeys(names, EMPTY)) as room:
        for it in [room, *(f"{room}/{name}" for name in names)] if is_of_another else []:
            os.chown(it, ANOTHER, ANOTHER)
        os.chmod(f"{room}/b.fits", mode)
        with begun(program, room, [command, "-i", "-e", LINE, *names], is_of_another) as ran:
            came = ended(ran)
        os.chmod(f"{room}/b.fits", 0o644)
        yield from apart(came, contents(pathlib.Path(room)), {"status": 3, "printed": b"", "reported": reported.encode()}, wanted)
