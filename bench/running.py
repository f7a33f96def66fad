"""Runs a program, and says how long it took, the most memory that it had, and what came of it."""
import ctypes
import os
import signal
import subprocess
import tempfile
import time

# The system counts the peak of a program from what the process had that became it. Python's 15 MB would hide what small
# programs take, so that a shell leaves a small process behind, which becomes the program once it is told to go on.
START = """
stdin=$1 printed=$2 reported=$3
shift 3
exec 3<&0
{ read -r go <&3 && exec "$@" 3<&-; } <"$stdin" >"$printed" 2>"$reported" &
echo $!
"""

# This process waits for what its shells leave behind (PR_SET_CHILD_SUBREAPER).
ctypes.CDLL(None).prctl(36, 1, 0, 0, 0)


class Run:
    """What came of a run: its seconds, its peak of memory in MB (1,000,000 bytes), its status, and what it printed."""

    def __init__(self, words, folder=None, stdin=os.devnull):
        with tempfile.TemporaryDirectory() as room:
            streams = [os.path.join(room, name) for name in ("printed", "reported")]
            start = ["sh", "-c", START, "sh", os.path.abspath(stdin), *streams, *words]
            pipes = {"stdin": subprocess.PIPE, "stdout": subprocess.PIPE}
            with subprocess.Popen(start, cwd=folder, **pipes) as shell:
                process = int(shell.stdout.read())
                shell.wait()
                begin = time.perf_counter()
                shell.stdin.write(b"go\n")
                shell.stdin.close()
                try:
                    _, status, usage = os.wait4(process, 0)
                except BaseException:
                    os.kill(process, signal.SIGKILL)
                    raise
                self.seconds = time.perf_counter() - begin
            self.status = os.waitstatus_to_exitcode(status)
            self.peak = usage.ru_maxrss * 1024 / 1e6
            self.printed, self.reported = map(whole, streams)


def whole(path):
    with open(path, "rb") as file:
        return file.read()
