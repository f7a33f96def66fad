"""What `edit -S` refuses to save, which could be lost while it is saved, and what `edit -b` keeps of the old file."""
import os
import pathlib
import signal
import subprocess

from again import apart, contents
from held import (
    ALONE,
    ANOTHER,
    BEFORE,
    LINE,
    NAMED_TWICE,
    NEW,
    OF_ANOTHER,
    OLD,
    REPLACED,
    RESULT,
    Scene,
    begun,
    calls_of,
    can_be_another,
    closed_folder,
    ended,
    preloaded,
    rights_count,
    run_in,
)
from program import differences, shown

DONE = {"status": 0, "printed": b"", "reported": b""}
NOT_WHOLE = {"status": 3, "printed": b"", "reported": b"fitsed: a.fits: not saved: it can't be replaced whole\n"}
STANDS = {"status": 3, "printed": b"", "reported": b"fitsed: a.fits: not saved: a.fits.bak stands there\n"}

# A query and an edit, of which neither is done where a file isn't to be saved.
ASKED = ["-e", "get 1 NAXIS", "-e", LINE]

# The words by which a.fits is saved, where it stands.
WAYS = [["-i", "a.fits"], ["a.fits", "a.fits"], ["in.fits", "a.fits"]]
FILES = {"in.fits": BEFORE, "a.fits": BEFORE}


def cases():
    yield from of_safety()
    yield from of_backups()


def of_safety():
    for scene in [*REPLACED, *NEW, *NAMED_TWICE, *(OF_ANOTHER if can_be_another() else [])]:
        for option in ("-S", "--safe"):
            yield f"{scene.name}, {option}", is_saved, scene, option
    for out in ("/dev/null", "/dev/fd/{it}"):
        yield f"-S to {out}", is_passed_on, out
    for words in WAYS if rights_count() else []:
        yield f"-S {words} in a folder that takes no file", is_refused, words
    if rights_count():
        yield "-S of several, of which one can't be replaced", one_is_refused
    if preloaded():
        for words in WAYS:
            yield f"-S {words}, no file can be made beside it", none_is_made, words


def is_saved(program, scene, *options):
    """Where OUT isn't saved that is whole at every moment."""
    with scene.laid(program) as path, begun(program, path, scene.words(*options), scene.of_another) as ran:
        return list(apart(ended(ran), contents(path), DONE, scene.done()))


def is_passed_on(program, out):
    """Where the result doesn't go to a device or a pipe, which keeps nothing."""
    reading, writing = os.pipe()
    with program.room(ALONE) as room, open(reading, "rb") as pipe:
        typed = [program.path, "edit", "-S", "-e", LINE, "in.fits", out.format(it=writing)]
        how = {"cwd": room, "pass_fds": [writing], "stdin": subprocess.DEVNULL, "stdout": subprocess.PIPE, "stderr": subprocess.PIPE}
        with subprocess.Popen(typed, **how) as ran:
            os.close(writing)
            passed = pipe.read()
            yield from differences(ended(ran), **DONE)
    if passed != (RESULT if "fd" in out else b""):
        yield f"what comes is {shown(passed)}"


def is_refused(program, words):
    """Where a file that can only be written in its place is written, or a line is answered."""
    with closed_folder(program, FILES) as (path, is_of_another):
        before = (path / "a.fits").stat().st_mtime_ns
        with begun(program, path, ["edit", "-S", *ASKED, *words], is_of_another) as ran:
            came = ended(ran)
        yield from apart(came, contents(path), NOT_WHOLE, FILES)
        if (path / "a.fits").stat().st_mtime_ns != before:
            yield "it is written"


def one_is_refused(program):
    """Where of several files one that can't be replaced keeps the others from being saved."""
    with program.room({"b.fits": BEFORE, "c.fits": BEFORE}) as room, closed_folder(program, {"a.fits": BEFORE}) as (closed, is_of_another):
        for it in (room, f"{room}/b.fits", f"{room}/c.fits") if is_of_another else ():
            os.chown(it, ANOTHER, ANOTHER)
        where = f"{closed}/a.fits"
        with begun(program, room, ["edit", "-i", "-S", "-e", LINE, "b.fits", where, "c.fits"], is_of_another) as ran:
            came = ended(ran)
        reported = f"fitsed: {where}: not saved: it can't be replaced whole\n".encode()
        files = {**contents(closed), **contents(pathlib.Path(room))}
        yield from apart(came, files, {"status": 3, "printed": b"", "reported": reported}, {"a.fits": BEFORE, "b.fits": RESULT, "c.fits": RESULT})


def none_is_made(program, words):
    """Where a file is written in its place since its folder takes no other."""
    for error in (13, 30):
        scene = Scene("closed", ("-S", *ASKED, *words), FILES, "a.fits")
        _, ran, after = run_in(program, scene, FAIL=f"1 {error} create")
        for line in apart(ran, after, NOT_WHOLE, FILES):
            yield f"error {error}: {line}"


def of_backups():
    for option in ("-b", "--backup"):
        for words in WAYS:
            yield f"{option} {words}", is_kept, option, words
    yield "-b of a new OUT", is_saved, NEW[0], "-b", ".bak"
    for scene in [*NAMED_TWICE, *(OF_ANOTHER if can_be_another() else [])]:
        yield f"-b, {scene.name}", is_not_kept, scene
    for words in WAYS:
        for taken in (stands, leads_nowhere, is_folder):
            yield f"-b {words}, {taken.__name__} under the name", is_taken, words, taken
        yield f"-a -b {words}, a line isn't done", not_done, words
        if preloaded():
            yield f"-b {words}, killed at each call", kept_anywhere, words
        if rights_count():
            yield f"-b {words} in a folder that takes no file", not_in_closed, words


def is_kept(program, option, words):
    """Where the old file doesn't stand under its second name, or the result isn't saved."""
    with program.room(FILES) as room:
        before = os.stat(f"{room}/a.fits")
        with begun(program, room, ["edit", option, ".bak", "-e", LINE, *words]) as ran:
            came = ended(ran)
        yield from apart(came, contents(pathlib.Path(room)), DONE, {**FILES, "a.fits": RESULT, "a.fits.bak": BEFORE})
        if not os.path.samestat(before, os.stat(f"{room}/a.fits.bak")):
            yield "a.fits.bak isn't the old file"


def is_not_kept(program, scene):
    """Where a file that can't be replaced is saved though its old bytes can't be kept."""
    with scene.laid(program) as path, begun(program, path, scene.words("-b", ".bak"), scene.of_another) as ran:
        reported = f"fitsed: {scene.out}: not saved: it can't be replaced whole\n".encode()
        return list(apart(ended(ran), contents(path), {"status": 3, "printed": b"", "reported": reported}, scene.undone()))


def stands(path):
    """A file stands there."""
    path.write_bytes(OLD)


def leads_nowhere(path):
    """A link that leads to no file stands there."""
    path.symlink_to("none.fits")


def is_folder(path):
    """A folder stands there."""
    path.mkdir()


def is_taken(program, words, taken):
    """Where something is done though the second name of the old file is taken."""
    scene = Scene("taken", (*ASKED, *words), FILES, "a.fits")
    with scene.laid(program) as path:
        taken(path / "a.fits.bak")
        before = [what_stands(path / name) for name in ("a.fits", "a.fits.bak")]
        with begun(program, path, ["edit", "-b", ".bak", *scene.typed]) as ran:
            came = ended(ran)
        now = [what_stands(path / name) for name in ("a.fits", "a.fits.bak")]
        yield from apart(came, {}, STANDS, {})
        if before != now or sorted(os.listdir(path)) != ["a.fits", "a.fits.bak", "in.fits"]:
            yield f"there are {sorted(os.listdir(path))}, {now}, and not {before}"


def what_stands(path):
    """Which file stands at a path, not behind a link, how many names it has, and when it was changed."""
    it = os.lstat(path)
    return it.st_ino, it.st_nlink, it.st_mtime_ns, it.st_ctime_ns


def not_done(program, words):
    """Where a file that isn't saved gets a second name."""
    ran, after = program.over(["edit", "-a", "-b", ".bak", "-e", LINE, "-e", "frob", *words], FILES, b"")
    return apart(ran, after, {"status": 1, "printed": b"line 2: not a command\n"}, FILES)


def not_in_closed(program, words):
    """Where a file is saved that can't keep its old bytes."""
    with closed_folder(program, FILES) as (path, is_of_another):
        with begun(program, path, ["edit", "-b", ".bak", *ASKED, *words], is_of_another) as ran:
            return list(apart(ended(ran), contents(path), NOT_WHOLE, FILES))


def kept_anywhere(program, words):
    """Where a run that is killed at its first, second .. call leaves neither name with the old bytes."""
    scene = Scene("kept", ("-b", ".bak", *words), FILES, "a.fits")
    for k, call in enumerate(calls_of(program, scene), 1):
        _, _, after = run_in(program, scene, by=signal.SIGKILL, HALT=f"{k} ")
        if after.get("a.fits") not in (BEFORE, RESULT) or BEFORE not in (after.get("a.fits"), after.get("a.fits.bak")):
            yield f"killed at call {k}, {call}: there are {sorted(after)}"
        if after.get("a.fits.bak", BEFORE) != BEFORE or after["in.fits"] != BEFORE:
            yield f"killed at call {k}, {call}: a file has other bytes"
