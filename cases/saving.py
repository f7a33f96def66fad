"""OUT is whole at every moment: whatever breaks a run off while it saves, what stood at OUT or the result is there.

A new OUT and one that is replaced are written under a name beside it, one that can't be replaced is written over once the
whole result stands beside it. A run is broken off at each of its calls in turn, by each signal, by a full disk."""
import errno
import os
import pathlib
import resource
import shutil
import signal
import subprocess
import tempfile

from again import apart, contents, image_at, in_little_memory, make_image, of_image
from held import (
    ALONE,
    ANOTHER,
    BEFORE,
    BOTH,
    FULL,
    LINE,
    NAMED_TWICE,
    NEW,
    OF_ANOTHER,
    OLD,
    REPLACED,
    RESULT,
    WRITE_FAILED,
    Scene,
    begun,
    besides,
    calls_of,
    can_be_another,
    ended,
    goes_on,
    is_held,
    left_out,
    lost,
    merged,
    preloaded,
    rights_count,
    run_at_terminal,
    run_in,
)
from program import Ran, differences

# What breaks a run off that is killed.
SIGNALS = [signal.SIGINT, signal.SIGTERM, signal.SIGHUP, signal.SIGKILL]

# How long a file of a run may get that is to be killed for its length.
SHORT = 20_000

# Names that are too long for the ending of the file beside them: of bytes that are a character each, and of characters that
# are two bytes, from either place.
LONG_NAMES = [*("n" * (count - 5) + ".fits" for count in (246, 247, 248, 251, 255)), "é" * 125 + ".fits", "n" + "é" * 124 + ".fits"]

# A hundred files that runs left which were broken off.
LEFT = {f"out.fits.fitsed-{number}": b"left" for number in range(100)}

# How many bytes an image has that there is no room for in memory, and how much there is.
LARGE = 2880 * 52_084


def cases():
    yield from of_scenes()
    yield from of_long_names()
    yield from of_leftovers()


def of_scenes():
    scenes = [*REPLACED, *NEW, *NAMED_TWICE, *(OF_ANOTHER if can_be_another() else [])]
    for scene in scenes if preloaded() else []:
        yield f"{scene.name}, killed at each call", killed_anywhere, scene
        yield f"{scene.name}, each call fails", fails_anywhere, scene
        yield f"{scene.name}, no room for the result", is_full, scene
        yield f"{scene.name}, too long for its limit", is_too_long, scene
        yield f"{scene.name}, its calls in their order", in_order, scene
        for by in SIGNALS:
            for at in moments(scene):
                yield f"{scene.name}, {by.name} at {at}", is_broken_off, scene, by, at
        if scene.is_written_over:
            yield f"{scene.name}, no room while it is written over", is_full_later, scene
            yield f"{scene.name}, in its place", is_written_over, scene
    for scene in [*NEW, *NAMED_TWICE] if preloaded() else []:
        for option in ("-a", "-c"):
            yield f"{scene.name}, {option}, killed at each call", killed_anywhere, scene, option
    for scene in [*REPLACED, *NEW, *NAMED_TWICE] if can_mount() else []:
        yield f"{scene.name}, on a small disk", on_a_small_disk, scene
    if preloaded():
        yield "a new OUT that comes meanwhile", comes_meanwhile
        yield "no file can be made beside OUT for want of room", none_can_be_made
        yield "a file of two names that no memory has room for", large_written_over
        for error in (errno.EPERM, errno.EOPNOTSUPP, errno.ENOSYS):
            yield f"a new OUT where no links can be made, {os.strerror(error)}", without_links, error
        yield "the new file stands beside what a link leads to", beside_its_place
    for scene in [*REPLACED, *NEW, *NAMED_TWICE] if rights_count() else []:
        yield f"{scene.name}, its folder can't be listed", in_unlisted, scene


def moments(scene):
    """The calls at which a run over a scene is broken off by each signal."""
    if scene.is_written_over:
        return ["3 write", f"2 write {scene.out}", f"1 fsync {scene.out}"]
    return ["3 write", "1 fsync", "1 rename"] if scene.old else ["3 write", "1 link", "1 unlink"]


def killed_anywhere(program, scene, *options):
    """Where a run that is killed at its first, second .. call leaves a file that is lost."""
    calls = calls_of(program, scene, *options)
    for k, call in enumerate(calls, 1):
        held, ran, after = run_in(program, scene, *options, by=signal.SIGKILL, HALT=f"{k} ")
        if not held:
            yield f"it doesn't come to call {k}, {call}"
        for line in lost(scene, after):
            yield f"killed at call {k}, {call}: {line}"


def fails_anywhere(program, scene):
    """Where a run whose first, second .. call fails ends otherwise than whole or by that, loses a file, or leaves another. Where
    OUT is written over the whole result may be left beside it."""
    for k, call in enumerate(calls_of(program, scene), 1):
        # a lock that can't be had fails nothing
        if call.startswith("flock"):
            continue
        _, ran, after = run_in(program, scene, FAIL=f"{k} {FULL} once ")
        found = [*lost(scene, after)]
        if ran.status == 0:
            found += apart(ran, {scene.out: after.get(scene.out)}, {"printed": b"", "reported": b""}, {scene.out: RESULT})
        else:
            found += differences(ran, status=3, printed=b"", reported=WRITE_FAILED)
        left = [name for name in besides(scene, after) if not (scene.is_written_over and ran.status and after[name] == RESULT)]
        if left and not call.startswith("unlink"):
            found += [f"beside it stand {left}"]
        for line in found:
            yield f"call {k} fails, {call}: {line}"


def is_full(program, scene):
    """Where a run that has no room for all of the result touches a file, or leaves one."""
    _, ran, after = run_in(program, scene, FAIL=f"3 {FULL} write")
    return apart(ran, after, {"status": 3, "printed": b"", "reported": WRITE_FAILED}, scene.undone())


def is_full_later(program, scene):
    """Where a run that has no room while OUT is written over doesn't leave the whole result beside it."""
    _, ran, after = run_in(program, scene, FAIL=f"2 {FULL} write {scene.out}")
    yield from differences(ran, status=3, printed=b"", reported=WRITE_FAILED)
    yield from lost(scene, after)


def is_too_long(program, scene):
    """Where a run that is killed since a file gets too long touches one that was there, or makes a new OUT."""

    def limited():
        resource.setrlimit(resource.RLIMIT_FSIZE, (SHORT, SHORT))

    with scene.laid(program) as path, begun(program, path, scene.words(), scene.of_another, limited) as ran:
        came, after = ended(ran), contents(path)
    yield from differences(came, status=-signal.SIGXFSZ, printed=b"", reported=b"")
    yield from lost(scene, after)
    yield from apart(came, {name: after.get(name) for name in scene.done()}, {}, scene.undone())


def is_broken_off(program, scene, by, at):
    """Where a run that a signal ends at a call loses a file."""
    held, ran, after = run_in(program, scene, by=by, HALT=at)
    if not held:
        yield "it makes no such call"
    yield from differences(ran, status=-by, printed=b"", reported=b"")
    yield from lost(scene, after)


def in_order(program, scene):
    """Where the result isn't whole before it takes its place, and on the disk where a file stands there, or something is done to
    OUT before."""
    calls, out, new = merged(calls_of(program, scene)), scene.out, f"{scene.out}.fitsed-0"
    written, settled = last(calls, f"write {new}"), last(calls, f"fsync {new}")
    touched = [k for k, call in enumerate(calls) if call in (f"create {out}", f"empty {out}", f"truncate {out}", f"write {out}")]
    if written < 0 or scene.old and settled < written:
        yield f"{new} isn't written and then on the disk: {calls}"
    if scene.is_written_over:
        wanted = [f"fsync {new}", f"write {out}", f"fsync {out}", f"unlink {new}"]
        if touched and touched[0] < settled:
            yield f"{out} is touched before: {calls}"
    else:
        wanted = [f"fsync {new}", f"rename {new} {out}"] if scene.old else [f"write {new}", f"link {new} {out}", f"unlink {new}"]
        if touched:
            yield f"{out} is touched: {calls}"
        # the name that went is free, and perhaps another run's
        if scene.old and last(calls, f"unlink {new}") > last(calls, wanted[-1]):
            yield f"{new} is removed after it took its place: {calls}"
    places = [last(calls, call) for call in wanted]
    if places != sorted(places) or -1 in places:
        yield f"these don't come in this order, {wanted}: {calls}"


def last(calls, call):
    """The place of a call's last time, or -1."""
    return max((k for k, it in enumerate(calls) if it == call), default=-1)


def is_written_over(program, scene):
    """Where OUT that is written over is another file then, has another owner, mode or name, or isn't the result."""
    with scene.laid(program) as path:
        before = (path / scene.out).stat()
        with begun(program, path, scene.words(), scene.of_another) as ran:
            came = ended(ran)
        after, now = contents(path), (path / scene.out).stat()
    yield from apart(came, after, {"status": 0, "printed": b"", "reported": b""}, scene.done())
    if [getattr(before, name) for name in KEPT] != [getattr(now, name) for name in KEPT]:
        yield f"{scene.out} was {before}, and is {now}"


# What of a file stays that is written over.
KEPT = ["st_dev", "st_ino", "st_mode", "st_nlink", "st_uid", "st_gid"]


def comes_meanwhile(program):
    """Where a file that comes to OUT while a new one is saved isn't there any more."""

    def comes(path):
        (path / "out.fits").write_bytes(OLD)

    held, ran, after = run_in(program, NEW[0], act=comes, HALT="1 link")
    if not held:
        yield "it makes no link"
    yield from apart(ran, after, {"status": 3, "printed": b"", "reported": WRITE_FAILED}, BOTH)


def none_can_be_made(program):
    """Where OUT is touched though a disk has no room for another file."""
    for scene in [*REPLACED, *NEW, *NAMED_TWICE]:
        _, ran, after = run_in(program, scene, FAIL=f"1 {FULL} create")
        for line in apart(ran, after, {"status": 3, "printed": b"", "reported": WRITE_FAILED}, scene.undone()):
            yield f"{scene.name}: {line}"


def without_links(program, error):
    """Where a new OUT isn't saved by a file system that has no hard links."""
    _, ran, after = run_in(program, NEW[0], FAIL=f"1 {error} link")
    return apart(ran, after, {"status": 0, "printed": b"", "reported": b""}, NEW[0].done())


def beside_its_place(program):
    """Where the new file doesn't stand in the folder of the file that a link leads to."""
    with program.room(BOTH) as room:
        path = pathlib.Path(room)
        (path / "night").mkdir()
        (path / "out.fits").rename(path / "night/real.fits")
        (path / "out.fits").symlink_to("night/real.fits")
        with begun(program, path, ["edit", "-e", LINE, "in.fits", "out.fits"], HALT="3 write") as ran:
            if not is_held(ran):
                yield "it isn't written in pieces"
            names = sorted(os.listdir(path)), sorted(os.listdir(path / "night"))
            goes_on(ran)
            yield from apart(ended(ran), contents(path / "night"), {"status": 0}, {"real.fits": RESULT})
    if names != (["in.fits", "night", "out.fits"], ["real.fits", "real.fits.fitsed-0"]):
        yield f"there are {names}"


def in_unlisted(program, scene):
    """Where OUT isn't saved in a folder that takes files and can't be listed."""
    is_of_another = os.geteuid() == 0
    with scene.laid(program) as path:
        for it in [*path.iterdir(), path] if is_of_another else []:
            os.chown(it, ANOTHER, ANOTHER)
        path.chmod(0o333)
        with begun(program, path, scene.words(), is_of_another) as ran:
            came = ended(ran)
        path.chmod(0o755)
        yield from apart(came, contents(path), {"status": 0, "printed": b"", "reported": b""}, scene.done())


def large_written_over(program):
    """Where a keyword of a large file of two names isn't set in little memory."""
    with program.room({}) as room:
        make_image(f"{room}/in.fits", LARGE)
        os.link(f"{room}/in.fits", f"{room}/other.fits")
        ran = in_little_memory(program, ["edit", "-i", "in.fits"], room, LINE)
        yield from differences(ran, status=0, printed=b"", reported=b"")
        yield from differences(image_at(f"{room}/other.fits"), **of_image(LARGE, "OBJECT  = 'M31     '"))


# How many bytes a small disk has; and how one is mounted in a folder, files are laid on it and a run begins there: its status,
# what it reports and the files then stand beside that folder.
DISK = 256 * 1024
MOUNTED = ["unshare", "-rm", "sh", "-c"]
SMALL_DISK = f"""mkdir disk && mount -t tmpfs -o size={DISK} none disk && cp -a given/. disk && cd disk || exit 99
"$0" "$@" 2>../reported; echo $? >../status; cp -a . ../left"""


def can_mount():
    """Whether small disks can be mounted here."""
    with tempfile.TemporaryDirectory() as room:
        typed = [*MOUNTED, 'mount -t tmpfs none "$0"', room]
        can = bool(shutil.which("unshare")) and subprocess.run(typed, capture_output=True, check=False).returncode == 0
    if not can:
        left_out("rows on a small disk", "none can be mounted")
    return can


def on_a_small_disk(program, scene):
    """Where a run on a disk that has no room for the result loses a file, or leaves one."""
    # a file more, so that a part of the result alone fits
    fill = bytes(DISK - sum(len(what) + -len(what) % 4096 for what in scene.files.values()) - 16_384)
    with program.room({}) as room, scene.laid(program) as path:
        (path / "fill").write_bytes(fill)
        shutil.copytree(path, f"{room}/given", copy_function=os.link)
        words = [*MOUNTED, SMALL_DISK, program.path, *scene.words()]
        subprocess.run(words, cwd=room, capture_output=True, check=False, timeout=60)
        here = pathlib.Path(room)
        status = int((here / "status").read_text(encoding="utf-8"))
        came, after = Ran(status, b"", (here / "reported").read_bytes(), None), contents(here / "left")
    yield from apart(came, after, {"status": 3, "reported": WRITE_FAILED}, {**scene.undone(), "fill": fill})


def of_long_names():
    for name in LONG_NAMES if preloaded() else []:
        scenes = [
            Scene("replaced", ("in.fits", name), {"in.fits": BEFORE, name: OLD}, name),
            Scene("IN", ("-i", name), {name: BEFORE}, name),
            Scene("new", ("in.fits", name), ALONE, name),
        ]
        for scene in scenes:
            about = f"a name of {len(name.encode())} bytes, {len(name)} characters, {scene.name}"
            yield about, replaced_whole, scene
            yield f"{about}, killed", killed_in_writing, scene
            yield f"{about}, no room", is_full, scene


def replaced_whole(program, scene):
    """Where OUT isn't another file then with the result, or something stands beside it."""
    with scene.laid(program) as path:
        before = (path / scene.out).stat().st_ino if scene.old else None
        kept = os.open(path / scene.out, os.O_RDONLY) if scene.old else None
        with begun(program, path, scene.words()) as ran:
            came = ended(ran)
        yield from apart(came, contents(path), {"status": 0, "printed": b"", "reported": b""}, scene.done())
        if (path / scene.out).stat().st_ino == before:
            yield "it is written in its place"
        if kept is not None:
            os.close(kept)


def killed_in_writing(program, scene):
    """Where a run that is killed in mid-save loses a file."""
    held, _, after = run_in(program, scene, by=signal.SIGKILL, HALT="3 write")
    if not held:
        yield "it isn't written in pieces"
    yield from lost(scene, after)


def of_leftovers():
    scenes = [*REPLACED[:1], *NEW, *NAMED_TWICE[:1]]
    for scene in scenes:
        yield f"{scene.name}, a hundred files are left", left_full, scene
        yield f"{scene.name}, 99 files are left", left_all_but_one, scene
    for words, script in ((["-i", "a.fits"], True), (["a.fits", "a.fits"], True), (["in.fits", "a.fits"], True)):
        yield f"edit {words}, a file is left", leftover_told, words
    yield "a file is left, nothing is told", leftover_untold
    yield "a file is left, at a terminal", leftover_at_terminal


def left_full(program, scene):
    """Where OUT is touched though a hundred files are left beside it."""
    left = {**scene.files, **LEFT}
    with Scene(scene.name, scene.typed, left, scene.out, scene.linked).laid(program) as path:
        before = (path / scene.out).stat().st_ino if scene.old else None
        with begun(program, path, scene.words()) as ran:
            came = ended(ran)
        yield from apart(came, contents(path), {"status": 3, "printed": b"", "reported": WRITE_FAILED}, {**scene.undone(), **LEFT})
        if before and (path / scene.out).stat().st_ino != before:
            yield "OUT is another file"


def left_all_but_one(program, scene):
    """Where the last name isn't taken, or a file that is left is touched."""
    left = {name: what for name, what in LEFT.items() if name != "out.fits.fitsed-99"}
    with Scene(scene.name, scene.typed, {**scene.files, **left}, scene.out, scene.linked).laid(program) as path:
        with begun(program, path, scene.words()) as ran:
            came = ended(ran)
        yield from apart(came, contents(path), {"status": 0, "printed": b"", "reported": b""}, {**scene.done(), **left})


LEFT_OVER = b"fitsed: a.fits: a.fits.fitsed-0 is left of a run that was broken off\n"
LEFT_FILES = {"in.fits": BEFORE, "a.fits": BEFORE, "a.fits.fitsed-0": BEFORE[:9000]}
LEFT_DONE = {**LEFT_FILES, "a.fits": RESULT}


def leftover_told(program, words):
    """Where -v doesn't tell what a run left, or that file isn't as it was."""
    ran, after = program.over(["edit", "-v", "-e", LINE, *words], LEFT_FILES, b"")
    if words[0] == "in.fits":
        # that OUT was replaced is told too
        ran = Ran(ran.status, ran.printed, ran.reported.replace(b"fitsed: a.fits: replaced\n", b""), None)
    return apart(ran, after, {"status": 0, "printed": b"", "reported": LEFT_OVER}, LEFT_DONE)


def leftover_untold(program):
    """Where it is told though nobody asked."""
    ran, after = program.over(["edit", "-i", "-e", LINE, "a.fits"], LEFT_FILES, b"")
    return apart(ran, after, {"status": 0, "printed": b"", "reported": b""}, LEFT_DONE)


def leftover_at_terminal(program):
    """Where it isn't told at a terminal."""
    ran, after = run_at_terminal(program, ["edit", "-i", "-e", LINE, "a.fits"], LEFT_FILES)
    return apart(ran, after, {"status": 0, "printed": b"", "reported": LEFT_OVER}, LEFT_DONE)
