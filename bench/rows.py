"""Reads tables of workloads, and runs their rows."""
import contextlib
import dataclasses
import hashlib
import os
import shutil
import tempfile

import jobs
from running import Run, whole

BENCH = os.path.dirname(os.path.abspath(__file__))

# Where a folder is in memory on most machines, and how many bytes it needs to have free.
IN_MEMORY, ROOM = "/dev/shm", 2**30


def rows(name):
    """The words of each line of a file beside this one that has any and isn't a comment."""
    with open(os.path.join(BENCH, name), encoding="utf-8") as lines:
        split = [line.split() for line in lines if not line.startswith("#")]
    return [words for words in split if words]


def program(top, crate):
    """Where a crate's program stands once it is built."""
    return os.path.join(top, "crates", crate, "out", crate)


@dataclasses.dataclass
class Step:
    """A run of a row's program."""

    folder: str
    command: jobs.Command

    def run(self, path, under=()):
        """Runs the program at a path, perhaps under another one. What it saves is taken away, so that the next run finds what
        this one found."""
        command = self.command
        stdin = os.path.join(self.folder, command.stdin) if command.stdin else os.devnull
        run = Run([*under, path, *command.words], self.folder, stdin)
        run.saved = taken(os.path.join(self.folder, command.saved)) if command.saved else None
        return run


def taken(path):
    """The digest of a file, which is removed, or nothing where there is none."""
    if not os.path.exists(path):
        return None
    digest = hashlib.sha256(whole(path)).hexdigest()
    os.remove(path)
    return digest


@contextlib.contextmanager
def steps(crate, words):
    """The runs of a row: of the program itself those of a job, over files that are there meanwhile; of another one run, with these
    words."""
    if crate != "fitsed":
        yield [Step(BENCH, jobs.Command(words))]
        return
    with tempfile.TemporaryDirectory(dir=in_memory()) as room:
        yield [step for number, it in enumerate(jobs.rounds(*words)) for step in written(os.path.join(room, str(number)), it)]


def in_memory():
    """A folder in memory, if there is one with room."""
    is_there = os.access(IN_MEMORY, os.W_OK) and shutil.disk_usage(IN_MEMORY).free >= ROOM
    return IN_MEMORY if is_there else None


def written(folder, made):
    """The runs of a round, whose files are written to a folder."""
    for name, written_bytes in made.files.items():
        path = os.path.join(folder, name)
        os.makedirs(os.path.dirname(path), exist_ok=True)
        with open(path, "wb") as file:
            file.write(written_bytes)
    return [Step(folder, command) for command in made.commands]
