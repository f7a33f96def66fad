"""Runs that are held up at a call of theirs, broken off there, or met by a call that fails, and what they leave in a folder.

`calls.c`, preloaded, tells the calls by which a run changes files, holds it up before one of them and lets calls fail. What is
done meanwhile is done while the run stands still."""
import contextlib
import dataclasses
import errno
import functools
import itertools
import os
import pathlib
import pty
import shutil
import signal
import subprocess
import sys
import tempfile
import termios
import threading
import tty

from again import contents
from faults import built
from fits import PIXEL, header, pixels
from one_file import FIRST, TAIL, THIRD, WITH_OBJECT
from program import Ran, shown

# A file of three images, of which the second is written in several pieces; a line, and the file after it.
MIDDLE = header(PIXEL.replace("NAXIS1  =                    1|", "NAXIS1  =                10000|")) + pixels(2, range(10_000), 0)
BEFORE = FIRST + MIDDLE + THIRD + TAIL
LINE = "set 1 OBJECT 'M31'"
RESULT = WITH_OBJECT + MIDDLE + THIRD + TAIL

# What stands at OUT before, where that isn't IN: a longer file than the result.
OLD = b"what was there" * 5000

# A user and a group that no file of this machine has.
ANOTHER = 42_424

WRITE_FAILED = b"fitsed: write failed\n"
FULL = errno.ENOSPC
TIMEOUT = 30

ROOM = tempfile.TemporaryDirectory()


@dataclasses.dataclass(frozen=True)
class Scene:
    """What stands in a folder before a run, what is typed, and how OUT is saved: it is replaced, new, or written over."""

    name: str
    typed: tuple
    files: dict
    out: str = "out.fits"
    # a further name of a file, and the file
    linked: tuple = ()
    # whether the folder and the file at OUT are of another owner, and of the group of the run
    of_another: bool = False

    @property
    def old(self):
        """What stands at OUT, if anything."""
        return self.files.get(self.out)

    @property
    def is_written_over(self):
        """Whether OUT can't be replaced, since a name or the owner would be lost."""
        return bool(self.linked) or self.of_another

    def words(self, *options):
        """What is typed, with these options."""
        return ["edit", *options, "-e", LINE, *self.typed]

    @contextlib.contextmanager
    def laid(self, program):
        """A new folder in which it all stands."""
        with program.room(self.files) as room:
            path = pathlib.Path(room)
            if self.linked:
                (path / self.linked[0]).hardlink_to(path / self.linked[1])
            if self.of_another:
                for it, mode in ((path, 0o775), (path / self.out, 0o664)):
                    os.chown(it, 0, ANOTHER)
                    it.chmod(mode)
                (path / "in.fits").chmod(0o664)
            yield path

    def done(self):
        """The files after a run that saved."""
        names = {self.out, *(self.linked if self.out in self.linked else ())}
        return {**self.files, **({self.linked[0]: self.files[self.linked[1]]} if self.linked else {}), **dict.fromkeys(names, RESULT)}

    def undone(self):
        """The files after one that saved nothing."""
        return {**self.files, **({self.linked[0]: self.files[self.linked[1]]} if self.linked else {})}


BOTH = {"in.fits": BEFORE, "out.fits": OLD}
ALONE = {"in.fits": BEFORE}
INTO, IN_PLACE = ("in.fits", "out.fits"), ("-i", "in.fits")

REPLACED = [Scene("an old OUT", INTO, BOTH), Scene("OUT that is IN", IN_PLACE, ALONE, "in.fits")]
NEW = [Scene("a new OUT", INTO, ALONE)]
NAMED_TWICE = [
    Scene("OUT with two names", INTO, BOTH, linked=("other.fits", "out.fits")),
    Scene("OUT that is IN, with two names", IN_PLACE, ALONE, "in.fits", linked=("other.fits", "in.fits")),
]
OF_ANOTHER = [
    Scene("OUT of another owner", INTO, BOTH, of_another=True),
    Scene("OUT that is IN, of another owner", IN_PLACE, ALONE, "in.fits", of_another=True),
]


@functools.cache
def preloaded():
    """The library of calls.c, built, which any user can read; None where there is no compiler."""
    if not shutil.which("cc"):
        left_out("rows that hold runs up", "there is no cc")
        return None
    os.chmod(ROOM.name, 0o755)
    return built("calls.c", ROOM.name)


@functools.cache
def can_be_another():
    """Whether runs can be those of another user, who can read what stands in a folder for temporary files."""
    if os.geteuid() != 0:
        left_out("rows of another owner", "this isn't root")
        return False
    with tempfile.NamedTemporaryFile() as file:
        os.chmod(file.name, 0o644)
        reads = subprocess.run(["test", "-r", file.name], **as_another(), check=False).returncode == 0
    if not reads:
        left_out("rows of another owner", f"other users can't read in {tempfile.gettempdir()}")
    return reads


def left_out(rows, why):
    """Says that some rows aren't run."""
    print(f"left out: {rows}: {why}", file=sys.stderr)


def as_another():
    """How a run is that of another user."""
    return {"user": ANOTHER, "group": ANOTHER, "extra_groups": []}


@functools.cache
def reachable(path):
    """A copy of the program that any user can run."""
    copy = f"{ROOM.name}/fitsed-{os.getpid()}"
    os.chmod(ROOM.name, 0o755)
    shutil.copy(path, copy)
    os.chmod(copy, 0o755)
    return copy


@contextlib.contextmanager
def begun(program, path, words, is_of_another=False, before=None, stdout=subprocess.PIPE, **environment):
    """A run in a folder, with these words in its environment; ended where it doesn't end by itself."""
    who = as_another() if is_of_another else {}
    typed = [reachable(program.path) if is_of_another else program.path, *words]
    named = {"LD_PRELOAD": preloaded()} if environment else {}
    how = {"cwd": path, "env": {**os.environ, **named, **environment}, "preexec_fn": lambda: begins(before), **who}
    ran = subprocess.Popen(typed, stdin=subprocess.DEVNULL, stdout=stdout, stderr=subprocess.PIPE, **how)
    timer = threading.Timer(TIMEOUT, ran.kill)
    timer.start()
    try:
        yield ran
    finally:
        timer.cancel()
        ran.kill()
        ran.wait()
        for pipe in (ran.stdout, ran.stderr):
            if pipe:
                pipe.close()


def begins(before):
    """What a run does first: it ends by signals also where whoever started this passes over them, as a shell has it for what runs
    beside it."""
    for number in (signal.SIGINT, signal.SIGHUP, signal.SIGTERM, signal.SIGQUIT):
        signal.signal(number, signal.SIG_DFL)
    if before:
        before()


def is_held(ran):
    """Whether a run comes to the call at which it is held up; not where it ends before."""
    met = os.waitid(os.P_PID, ran.pid, os.WSTOPPED | os.WEXITED | os.WNOWAIT)
    return met.si_code == os.CLD_STOPPED


def goes_on(ran):
    """Lets a run go on that was held up."""
    ran.send_signal(signal.SIGCONT)


def ended(ran):
    """What a run comes to."""
    printed, reported = ran.communicate()
    return Ran(ran.returncode, printed or b"", reported, None)


def broken_off(ran, by=signal.SIGKILL):
    """What a run comes to that gets this signal while it is held up."""
    ran.send_signal(by)
    goes_on(ran)
    return ended(ran)


def run_in(program, scene, *options, by=None, act=None, **environment):
    """A run over a scene: whether it was held up, what it came to, and the files then. While it is held up this is done, or
    it gets this signal."""
    with scene.laid(program) as path, begun(program, path, scene.words(*options), scene.of_another, **environment) as ran:
        held = is_held(ran) if "HALT" in environment else False
        if held and act:
            act(path)
        if held and by:
            came = broken_off(ran, by)
        else:
            goes_on(ran)
            came = ended(ran)
        return held, came, contents(path)


def calls_of(program, scene, *options):
    """The calls of a run over a scene, in their order."""
    with tempfile.TemporaryDirectory(dir=ROOM.name) as room:
        os.chmod(room, 0o777)
        run_in(program, scene, *options, CALLS=f"{room}/calls")
        return pathlib.Path(f"{room}/calls").read_text(encoding="utf-8").splitlines()


def lost(scene, after):
    """Where a run left OUT that is neither what it was nor the result. Where it is written over, the whole result may stand
    beside it instead."""
    besides = {name: what for name, what in after.items() if name not in scene.done()}
    whole = [*([scene.old] if scene.old else [None]), RESULT]
    if after.get(scene.out) not in whole and not (scene.is_written_over and RESULT in besides.values()):
        yield f"{scene.out} is {shown(after.get(scene.out))}, and beside it stand {sorted(besides)}"
    for name, what in besides.items():
        if not RESULT.startswith(what):
            yield f"{name} is {shown(what)}"
    for name, what in scene.undone().items():
        if name != scene.out and name not in scene.linked and after.get(name) != what:
            yield f"{name} is {shown(after.get(name))}"


def besides(scene, after):
    """What stands in a folder that didn't before, OUT not counted."""
    return sorted(set(after) - set(scene.done()))


def merged(calls):
    """Calls, of which those of one kind that follow one another are one."""
    return [line for line, _ in itertools.groupby(calls)]


@contextlib.contextmanager
def closed_folder(program, files):
    """A folder with these files that takes no new one, and whether a run there has to be another user's."""
    is_of_another = os.geteuid() == 0
    with program.room(files) as room:
        path = pathlib.Path(room)
        for it in [*path.iterdir(), path] if is_of_another else []:
            os.chown(it, ANOTHER, ANOTHER)
        path.chmod(0o555)
        try:
            yield path, is_of_another
        finally:
            path.chmod(0o755)


def rights_count():
    """Whether runs can be those of a user whom permissions bind."""
    return os.geteuid() != 0 or can_be_another()


def run_at_terminal(program, words, files):
    """A run whose standard error is a terminal, and the files then."""
    with program.room(files) as room:
        ours, theirs = pty.openpty()
        tty.setraw(theirs, termios.TCSANOW)
        how = {"cwd": room, "stdin": subprocess.DEVNULL, "stdout": subprocess.PIPE, "stderr": theirs, "timeout": TIMEOUT}
        ran = subprocess.run([program.path, *words], check=False, **how)
        os.write(theirs, b"\0")
        told = b""
        while not told.endswith(b"\0"):
            told += os.read(ours, 4096)
        os.close(ours)
        os.close(theirs)
        return Ran(ran.returncode, ran.stdout, told[:-1], None), contents(pathlib.Path(room))
