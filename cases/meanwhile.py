"""A file that another program, or another run, writes while it is edited where it stands: it isn't replaced, and no edit is lost.

The run is held up once all of its result is on the disk beside the file; then the file changes."""
import contextlib
import errno
import fcntl
import os
import pathlib
import shutil
import tempfile

from again import apart, contents, conversing, spoken
from fits import THREE_PIXELS, header
from held import (
    ALONE,
    BEFORE,
    IN_PLACE,
    LINE,
    NAMED_TWICE,
    OF_ANOTHER,
    REPLACED,
    RESULT,
    Scene,
    begun,
    besides,
    can_be_another,
    ended,
    goes_on,
    is_held,
    preloaded,
    run_in,
)
from one_file import FIRST
from program import differences

CHANGED = b"fitsed: the file changed while it was read\n"
SAVED = {"status": 0, "printed": b"", "reported": b""}
NOT_SAVED = {"status": 3, "printed": b"", "reported": CHANGED}

# Another line, and the cards that it and LINE come to.
OTHER_LINE = "set 1 EXPTIME 99.0"
CARDS = {LINE: b"OBJECT  = 'M31     '", OTHER_LINE: b"EXPTIME =                 99.0"}

# How many pairs of runs are started together.
PAIRS = 20

# The ways in which IN is OUT.
IN_IS_OUT = [
    *(scene for scene in REPLACED if scene.out == "in.fits"),
    Scene("IN and OUT by one name", ("in.fits", "in.fits"), ALONE, "in.fits"),
    Scene("OUT by another path", ("in.fits", "./in.fits"), ALONE, "in.fits"),
    Scene("-a", ("-a", *IN_PLACE), ALONE, "in.fits"),
    Scene("-c", ("-c", *IN_PLACE), ALONE, "in.fits"),
]
WRITTEN_OVER = [
    *(scene for scene in NAMED_TWICE if scene.out == "in.fits"),
    Scene("IN and OUT by two names", ("in.fits", "other.fits"), ALONE, "in.fits", linked=("other.fits", "in.fits")),
]


def cases():
    if not preloaded():
        return
    another = [scene for scene in OF_ANOTHER if scene.out == "in.fits"] if can_be_another() else []
    for scene in [*IN_IS_OUT, *WRITTEN_OVER, *another]:
        for change in CHANGES:
            yield f"{scene.name}, {change.__name__}", changes, scene, change
        yield f"{scene.name}, only read meanwhile", stays, scene
        yield f"{scene.name}, another run ends meanwhile", another_run, scene
        yield f"{scene.name}, removed meanwhile", removed, scene
    for scene in IN_IS_OUT:
        for change in OTHER_FILES:
            yield f"{scene.name}, {change.__name__}", changes, scene, change
        yield f"{scene.name}, another run comes as it is replaced", comes_late, scene, "1 rename"
    # (runs by two names of a file don't see one another's lock)
    for scene in [it for it in WRITTEN_OVER if it.typed[-1] == "in.fits"]:
        yield f"{scene.name}, another run comes as it is written over", comes_late, scene, f"1 write {scene.typed[-1]}"
    for scene in [*IN_IS_OUT[:2], *WRITTEN_OVER]:
        yield f"{scene.name}, another holds a lock", is_locked, scene
        for error in (errno.ENOLCK, errno.EOPNOTSUPP):
            yield f"{scene.name}, no locks can be had, {os.strerror(error)}", without_locks, scene, error
    yield "one of several changes", one_of_several
    yield "in its place, changed once the script is read", in_its_place
    for k in range(PAIRS):
        yield f"pair {k + 1} of runs started together", pair
    yield "five runs started together", five


def written(path):
    """A byte of its header is another one."""
    write_byte(path)


def written_in_the_past(path):
    """The same, and its time is put back."""
    times = path.stat()
    write_byte(path)
    os.utime(path, ns=(times.st_atime_ns, times.st_mtime_ns))


def write_byte(path):
    """Another character in the fill of a header."""
    with open(path, "r+b") as file:
        file.seek(2879)
        file.write(b"x")


def written_anew(path):
    """It is written once more, with the bytes that it has."""
    with open(path, "r+b") as file:
        file.write(BEFORE)


def longer(path):
    """Bytes come to its end."""
    with open(path, "ab") as file:
        file.write(bytes(2880))


def cut(path):
    """It loses its end."""
    os.truncate(path, len(BEFORE) - 4)


def emptied(path):
    """It loses all."""
    os.truncate(path, 0)


def replaced(path):
    """Another file takes its place."""
    path.with_name("new").write_bytes(header(THREE_PIXELS) + FIRST[2880:])
    os.replace(path.with_name("new"), path)


def replaced_alike(path):
    """Another file with the same bytes and times takes its place."""
    shutil.copy2(path, path.with_name("new"))
    os.replace(path.with_name("new"), path)


CHANGES = [written, written_in_the_past, written_anew, longer, cut, emptied]
OTHER_FILES = [replaced, replaced_alike]


def changes(program, scene, change):
    """Where a file that changed is replaced or written over, or it isn't told."""
    left = {}

    def act(path):
        wait_for_time(path / "in.fits")
        change(path / "in.fits")
        left.update({name: what for name, what in contents(path).items() if not is_beside(name)})

    held, ran, after = run_in(program, scene, act=act, HALT="1 fsync")
    if not held:
        yield "nothing reaches the disk before it is replaced"
    yield from apart(ran, after, NOT_SAVED, left)


def wait_for_time(path):
    """Waits until what is written has another time than a file: the clock of files goes on by some milliseconds."""
    probe = path.with_name("probe")
    while True:
        probe.write_bytes(b"x")
        if probe.stat().st_ctime_ns > path.stat().st_ctime_ns:
            break
    probe.unlink()


def is_beside(name):
    """Whether a name is that of a file that a run makes beside another."""
    return ".fitsed-" in name


def stays(program, scene):
    """Where a file that is only read meanwhile isn't saved."""
    held, ran, after = run_in(program, scene, act=lambda path: (path / "in.fits").read_bytes(), HALT="1 fsync")
    if not held:
        yield "nothing reaches the disk before it is replaced"
    yield from apart(ran, after, SAVED, scene.done())


def removed(program, scene):
    """Where a file that was removed meanwhile is made again, or the run leaves another."""
    held, ran, after = run_in(program, scene, act=lambda path: os.remove(path / "in.fits"), HALT="1 fsync")
    if not held:
        yield "nothing reaches the disk before it is replaced"
    rest = {name: what for name, what in scene.undone().items() if name != "in.fits"}
    yield from apart(ran, after, {"status": 3, "printed": b""}, rest)


def another_run(program, scene):
    """Where of two runs the one that comes later loses what the other saved."""

    def act(path):
        wait_for_time(path / "in.fits")
        with begun(program, path, ["edit", "-i", "-e", OTHER_LINE, "in.fits"]) as ran:
            told.append(ended(ran))

    told = []
    held, ran, after = run_in(program, scene, act=act, HALT="1 fsync")
    if not held:
        yield "nothing reaches the disk before it is replaced"
    for other in told:
        yield from differences(other, **SAVED)
    yield from differences(ran, **NOT_SAVED)
    yield from lost_edits({OTHER_LINE}, after["in.fits"])
    if besides(scene, after):
        yield f"there are {sorted(after)}"


def lost_edits(lines, after):
    """Where a file hasn't the cards of these lines, or has those of others."""
    found = {line for line, card in CARDS.items() if card in after[:2880]}
    if found != lines:
        yield f"it has the edits {sorted(found)}, and not {sorted(lines)}"


def comes_late(program, scene, at):
    """Where a run that comes while another takes its place, and waits for it, loses what that saved."""
    with scene.laid(program) as path, contextlib.ExitStack() as runs:
        first = runs.enter_context(begun(program, path, scene.words(), HALT=at))
        if not is_held(first):
            yield f"it doesn't come to {at}"
        second = runs.enter_context(begun(program, path, ["edit", "-i", "-e", OTHER_LINE, "in.fits"], HALT="1 flock"))
        if not is_held(second):
            yield "the second doesn't ask for the file"
        for ran in (second, first):
            goes_on(ran)
        yield from differences(ended(first), **SAVED)
        yield from differences(ended(second), **NOT_SAVED)
        yield from apart(None, contents(path), {}, scene.done())


def is_locked(program, scene):
    """Where a run waits, or doesn't save, since the one that began it holds a lock on the file, as `flock` does."""
    for kind in (fcntl.LOCK_EX, fcntl.LOCK_SH):
        with scene.laid(program) as path, open(path / "in.fits", "rb") as file:
            fcntl.flock(file, kind)
            with begun(program, path, scene.words()) as ran:
                yield from apart(ended(ran), contents(path), SAVED, scene.done())


def without_locks(program, scene, error):
    """Where a file isn't saved by a file system that has no locks."""
    _, ran, after = run_in(program, scene, FAIL=f"1 {error} flock")
    return apart(ran, after, SAVED, scene.done())


def one_of_several(program):
    """Where of several files one that changes keeps the others from being saved, or isn't named."""
    files = dict.fromkeys(["a.fits", "b.fits", "c.fits"], BEFORE)
    scene = Scene("several", ("-i", *files), files, "b.fits")
    left = {}

    def act(path):
        longer(path / "b.fits")
        left["b.fits"] = (path / "b.fits").read_bytes()

    held, ran, after = run_in(program, scene, act=act, HALT="1 fsync b.fits.fitsed-0")
    if not held:
        yield "nothing reaches the disk before it is replaced"
    reported = CHANGED.replace(b"fitsed: ", b"fitsed: b.fits: ")
    yield from apart(ran, after, {**NOT_SAVED, "reported": reported}, {"a.fits": RESULT, "c.fits": RESULT, **left})


def in_its_place(program):
    """Where a file that is written in its place, since its folder takes no other, loses what another wrote once a line was
    answered."""
    row = {"LD_PRELOAD": preloaded(), "FAIL": f"1 {errno.EACCES} create"}
    for change in CHANGES:
        with program.room(ALONE) as room, conversing([program.path, "edit", "in.fits", "in.fits"], room, **row) as run:
            path = pathlib.Path(room) / "in.fits"
            came = spoken(run, "get 1 NAXIS", lambda: (wait_for_time(path), change(path)), LINE)
            left = dict.fromkeys(["in.fits"], path.read_bytes())
        change_of = {"in.fits": changed_so(change)}
        for line in apart(came, left, {**NOT_SAVED, "printed": b"integer 1\n"}, change_of):
            yield f"{change.__name__}: {line}"


def changed_so(change):
    """The file after a change of it alone."""
    with tempfile.TemporaryDirectory() as room:
        path = pathlib.Path(room) / "in.fits"
        path.write_bytes(BEFORE)
        change(path)
        return path.read_bytes()


def pair(program):
    """Where of two runs that are started together one loses what the other saved, and ends with 0."""
    yield from together(program, [LINE, OTHER_LINE])


def five(program):
    """The same of five."""
    yield from together(program, [LINE, OTHER_LINE, LINE, OTHER_LINE, LINE])


def together(program, lines):
    """Where runs of these lines that are started together over one small file end otherwise than saved or unsaved, leave
    another file, or a line of one that ended with 0 isn't in it."""
    with program.room({"in.fits": FIRST}) as room, contextlib.ExitStack() as runs:
        begun_runs = [runs.enter_context(begun(program, room, ["edit", "-i", "-e", line, "in.fits"])) for line in lines]
        came = [ended(ran) for ran in begun_runs]
        after = contents(pathlib.Path(room))
    for ran in came:
        yield from differences(ran, **(SAVED if ran.status == 0 else NOT_SAVED))
    done = {line for line, ran in zip(lines, came) if ran.status == 0}
    if not done:
        yield "none saves"
    yield from lost_edits(done, after["in.fits"])
    if set(after) != {"in.fits"}:
        yield f"there are {sorted(after)}"
