"""The program as a case runs it: what it is given, and what it comes to."""
import contextlib
import dataclasses
import os
import pathlib
import re
import subprocess
import tempfile
import threading

import library


@dataclasses.dataclass(frozen=True)
class Ran:
    """What a run came to. There is nothing saved where it made no file. `left` has the names of other files that it left."""

    status: int
    printed: bytes
    reported: bytes
    saved: bytes | None
    left: frozenset = frozenset()


class Program:
    """A built `fitsed`, run over files in a new folder each time; with these words in its environment beside our own.

    Where it is `piped`, the file of a script comes to it by a pipe."""

    def __init__(self, path, piped=False, **environment):
        self.path, self.piped, self.environment = os.path.abspath(path), piped, environment

    def under(self, **environment):
        """The same program, with more words in its environment."""
        return Program(self.path, self.piped, **self.environment, **environment)

    def by_pipe(self):
        """The same program, to which the file of a script comes by a pipe."""
        return Program(self.path, True, **self.environment)

    def edit(self, file, script, words=("edit",)):
        """A script over a file, saved to another."""
        return self._run([*words, "in.fits", "out.fits"], {"in.fits": file}, [script])

    def edit_over(self, file, script, old):
        """A script over a file, saved over one that stands there; over the file itself where `old` is none."""
        if old is None:
            return self._run(["edit", "out.fits", "out.fits"], {"out.fits": file}, [script])
        return self._run(["edit", "in.fits", "out.fits"], {"in.fits": file, "out.fits": old}, [script])

    def edit_by(self, file, pieces):
        """A script that comes in pieces, as far as it is read."""
        return self._run(["edit", "in.fits", "out.fits"], {"in.fits": file}, pieces)

    def tell(self, words, file):
        """A text of a file: these words and the file's name."""
        return self._run([*words, "in.fits"], {"in.fits": file}, [])

    @contextlib.contextmanager
    def room(self, files, at=None):
        """A new folder with these files, in one for such folders or at this path."""
        with tempfile.TemporaryDirectory(dir=at) as room:
            for name, what in files.items():
                path = pathlib.Path(room) / name
                path.parent.mkdir(parents=True, exist_ok=True)
                path.write_bytes(what)
            yield room

    def over(self, words, files, script):
        """These words in a folder with these files, and what it has then."""
        with self._given(words, files) as (room, how):
            ran = subprocess.run([self.path, *words], check=False, input=script, capture_output=True, timeout=60, **how)
            paths = {str(it.relative_to(room)): it for it in pathlib.Path(room).rglob("*") if it.is_symlink() or not it.is_dir()}
            after = {name: files[name] if it.is_symlink() else it.read_bytes() for name, it in paths.items()}
        return Ran(ran.returncode, ran.stdout, ran.stderr, None), after

    @contextlib.contextmanager
    def _given(self, words, files):
        """A new folder with these files, or pipes that they come by, and how the program is run there."""
        piped = inputs(words, files) if self.piped else []
        stored = {name: what for name, what in files.items() if name not in piped}
        with self.room(stored) as room, contextlib.ExitStack() as pipes:
            ends = [pipes.enter_context(pipe_at(f"{room}/{name}", files[name])) for name in piped]
            yield room, {"cwd": room, "env": {**os.environ, **self.environment}, "pass_fds": ends}

    def _run(self, words, files, pieces):
        with self._given(words, files) as (room, how):
            path = pathlib.Path(room)
            with open(path / "printed", "wb") as printed, open(path / "reported", "wb") as reported:
                ran = subprocess.Popen([self.path, *words], stdin=subprocess.PIPE, stdout=printed, stderr=reported, **how)
                status = fed(ran, pieces)
            out = path / "out.fits"
            texts = [(path / it).read_bytes() for it in ("printed", "reported")]
            left = frozenset(os.listdir(room)) - {"in.fits", "out.fits", "printed", "reported"}
            return Ran(status, *texts, out.read_bytes() if out.exists() else None, left)


def fed(ran, pieces):
    """The status of a run that is given these pieces, as far as it reads them."""
    with contextlib.suppress(BrokenPipeError):
        for piece in pieces:
            ran.stdin.write(piece)
    with contextlib.suppress(BrokenPipeError):
        ran.stdin.close()
    try:
        return ran.wait(timeout=60)
    finally:
        ran.kill()


class BothWays(Program):
    """A program that runs each script over the file, and again over a pipe that the file comes by. What it comes to is that of
    the first run; `apart` has, for each script, where the second comes to something else, and `by_library`, for each run that the
    library has, where that does."""

    def __init__(self, path):
        super().__init__(path)
        self.apart, self.by_library = [], []

    def over(self, words, files, script):
        ran, after = super().over(words, files, script)
        if inputs(words, files):
            piped, left = self.by_pipe().over(words, files, script)
            self.apart.append([*differences(piped, **vars(ran)), *(["it leaves other files"] if left != after else [])])
        return ran, after

    def _run(self, words, files, pieces):
        ran = super()._run(words, files, pieces)
        if inputs(words, files):
            self.apart.append(list(differences(self.by_pipe()._run(words, files, pieces), **vars(ran))))
        for name, came in library.runs(words, files, pieces):
            self.by_library.append([f"{name}: {line}" for line in differences(ran, **came)])
        return ran


def inputs(words, names):
    """Which of these names are files that a script is about, and that nothing is saved to."""
    command, *rest = words
    if command == "ask":
        return [word for word in rest if word in names and word.endswith(".fits")]
    if command != "edit" or any(re.fullmatch("-[a-z]*i[a-z]*|--in-place", word) for word in rest):
        return []
    from_, to = words[-2:]
    return [from_] if from_ in names and from_ != to else []


@contextlib.contextmanager
def pipe_at(path, content):
    """A path at which a program finds a pipe, if it inherits this descriptor; this content comes by it."""
    reading, writing = os.pipe()
    os.symlink(f"/dev/fd/{reading}", path)
    writer = threading.Thread(target=write, args=(writing, content))
    writer.start()
    try:
        yield reading
    finally:
        os.close(reading)
        writer.join()


def write(descriptor, content):
    """Writes this to a descriptor, as far as it is read, and closes it."""
    with contextlib.suppress(BrokenPipeError), open(descriptor, "wb") as pipe:
        pipe.write(content)


def differences(ran, **wanted):
    """Where a run came to something else: a line for each part that is named and not the same."""
    for part, what in wanted.items():
        found = getattr(ran, part)
        if found != what:
            yield f"{part}: {shown(found)}, and not {shown(what)}"


def shown(what):
    """A value as it is printed, in the length of a line."""
    text = repr(what)
    return text if len(text) <= 400 else f"{text[:200]} .. {text[-200:]}"


def edited(program, file, script, printed, status, saved):
    """Where a script over a file doesn't print this, end so, and save this."""
    ran = program.edit(file, script.encode("latin-1"))
    return differences(ran, status=status, printed=printed.encode("latin-1"), reported=b"", saved=saved)


def told(program, words, file, printed, status=0):
    """Where a text of a file isn't this, or doesn't end so."""
    ran = program.tell(words, file)
    return differences(ran, status=status, printed=printed.encode("latin-1"), reported=b"")


# What else reads a file from its beginning.
TELLINGS = [["list"], ["verify", "-q"], ["sum"]]


def closed(program, front, fault):
    """Where a file opens, or another fault is reported of it, or anything is answered or saved."""
    for ran in [program.edit(front, b"off\nfrob\n"), *(program.tell(words, front) for words in TELLINGS)]:
        yield from differences(ran, status=2, printed=b"", reported=f"fitsed: open refused {fault}\n".encode("latin-1"), saved=None)
