"""A file that is edited where it stands, and of whose lines none was an edit that was done: nothing is written. It is the same
file, with the times that it had, and so has its folder. Another OUT is written whatever is done."""
import os
import pathlib

from again import apart, contents
from held import ALONE, BEFORE, BOTH, IN_PLACE, RESULT, LINE, Scene, begun, ended

# Scripts of which no line is an edit that is done: what they print, and the status.
SCRIPTS = [
    ("", "", 0),
    ("get 1 NAXIS", "integer 1\n", 0),
    ("off\nrep\nsum 1\nstat 1\nrect 1 1:3\nkept 1\npos 1 NAXIS", None, 0),
    ("# note\n\n", "", 0),
    ("frob", "line 1: not a command\n", 1),
    ("del 1 1", "line 1: refused 6 Shape\n", 1),
    ("fill 1 1:1 99999\nset 9 OBJECT 'x'", "line 1: refused 12 Range\nline 2: refused 1 NoHdu\n", 1),
]

SCENES = [
    Scene("-i", IN_PLACE, ALONE, "in.fits"),
    Scene("one name", ("in.fits", "in.fits"), ALONE, "in.fits"),
    Scene("two paths", ("in.fits", "./in.fits"), ALONE, "in.fits"),
    Scene("two names", IN_PLACE, ALONE, "in.fits", linked=("other.fits", "in.fits")),
    Scene("-c", ("-c", *IN_PLACE), ALONE, "in.fits"),
]

# A time that is long past.
LONG_AGO = 10**18


def cases():
    for scene in SCENES:
        for row in SCRIPTS:
            yield f"{scene.name}, {row[0]!r}", is_spared, scene, *row
    for script in ("frob", f"{LINE}\nfrob"):
        scene = Scene("-a", ("-a", *IN_PLACE), ALONE, "in.fits")
        yield f"-a, {script!r}", is_spared, scene, script, f"line {len(script.splitlines())}: not a command\n", 1
    yield "several, of which one is edited", one_of_several
    yield "another OUT", is_written
    yield "an edit that is done, and one that isn't", is_edited


def times(path):
    """Which file it is, and when it was written."""
    return path.stat().st_ino, path.stat().st_mtime_ns


def is_spared(program, scene, script, printed, status):
    """Where the file is another one then, or was written."""
    with scene.laid(program) as path:
        os.utime(path / "in.fits", ns=(LONG_AGO, LONG_AGO))
        before = times(path / "in.fits")
        with begun(program, path, ["edit", "-e", script, *scene.typed]) as ran:
            came = ended(ran)
        told = {"status": status} if printed is None else {"status": status, "printed": printed.encode()}
        yield from apart(came, contents(path), told, scene.undone())
        if times(path / "in.fits") != before:
            yield "it is written"


def one_of_several(program):
    """Where of several files one that a line edits isn't saved, or another is written."""
    short = BEFORE.replace(b"NAXIS1  =                    3", b"NAXIS1  =                    2")
    with program.room({"a.fits": short, "b.fits": BEFORE}) as room:
        path = pathlib.Path(room)
        os.utime(path / "a.fits", ns=(LONG_AGO, LONG_AGO))
        before = times(path / "a.fits")
        with begun(program, path, ["edit", "-i", "-e", "fill 1 3:3 1", "a.fits", "b.fits"]) as ran:
            came = ended(ran)
        after = BEFORE[:2884] + b"\0\1" + BEFORE[2886:]
        yield from apart(came, contents(path), {"status": 1, "printed": b"a.fits:line 1: refused 10 BadRect\n"}, {"a.fits": short, "b.fits": after})
        if times(path / "a.fits") != before:
            yield "it is written"


def is_written(program):
    """Where another OUT isn't written, though nothing was edited."""
    for script, status in (("get 1 NAXIS", 0), ("frob", 1)):
        for files in (ALONE, BOTH):
            ran, after = program.over(["edit", "-e", script, "in.fits", "out.fits"], files, b"")
            yield from apart(ran, after, {"status": status}, {"in.fits": BEFORE, "out.fits": BEFORE})


def is_edited(program):
    """Where an edit that is done isn't saved for one that isn't."""
    for script in (f"{LINE}\nfrob", f"frob\n{LINE}", f"del 1 1\n{LINE}\nget 1 NAXIS"):
        ran, after = program.over(["edit", "-e", script, "-i", "in.fits"], ALONE, b"")
        yield from apart(ran, after, {"status": 1}, {"in.fits": RESULT})
