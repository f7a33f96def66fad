#!/usr/bin/env python3
"""Measures what the gate costs: runs it on a fresh clone of HEAD, and prints a table by crate.

Processor minutes (user and system) of each check, added up by crate: its proof, its tests, and its refused bodies.
They are read from /proc five times a second, so that of each check a fifth of a second at most is missing. All is proved
and tried again, whatever an earlier run on the machine kept. Nothing else should run meanwhile: machines count differently
for the same work, and one machine counts more when it has more to do. `taskset -c 0,1 .ci/measure.py` says what two processors take."""
import collections
import glob
import os
import subprocess
import sys
import tempfile
import time

TOP = os.path.dirname(os.path.dirname(os.path.abspath(__file__)))
TICKS = os.sysconf("SC_CLK_TCK")
KINDS = ("proof", "tests", "edits")


def check_of(words):
    """Which crate a process checks, and for which of the kinds, if it checks one."""
    if len(words) < 2 or os.path.basename(words[0]) != "rattle" or "--crate-name" not in words:
        return None
    crate = words[words.index("--crate-name") + 1]
    return crate, "tests" if "--test" in words else "edits" if "--incremental" in words else "proof"


def look(seconds, session):
    """Notes how long each running check of a session has taken so far, by its process."""
    for folder in glob.glob("/proc/[0-9]*"):
        try:
            with open(f"{folder}/cmdline", encoding="utf-8", errors="replace") as it:
                check = check_of(it.read().split("\0"))
            if check:
                with open(f"{folder}/stat", encoding="utf-8", errors="replace") as it:
                    fields = it.read().rpartition(")")[2].split()
                # (the fields after the name: state, parent, group, session ..) a process is known by its number and its beginning
                if int(fields[3]) == session:
                    seconds[folder, fields[19]] = check, (int(fields[11]) + int(fields[12])) / TICKS
        except OSError:
            pass


def lines(crate, part, ending):
    """How many lines the files of a part of a crate have."""
    files = glob.glob(f"{TOP}/crates/{crate}/{part}/**/*.{ending}", recursive=True)
    return sum(open(it, encoding="utf-8").read().count("\n") for it in files)


def main():
    seconds = {}
    with tempfile.TemporaryDirectory() as room:
        subprocess.run(["git", "clone", "-q", TOP, f"{room}/fitsed"], check=True)
        began = time.time()
        again = {**os.environ, "ANEW": "1"}
        with subprocess.Popen(["make", "test"], cwd=f"{room}/fitsed", env=again, stdout=sys.stderr,
                              start_new_session=True) as gate:
            while gate.poll() is None:
                look(seconds, gate.pid)
                time.sleep(0.2)
        took = (time.time() - began) / 60
    minutes = collections.Counter()
    for check, taken in seconds.values():
        minutes[check] += taken / 60
    print("| crate | code | specs | proofs | edits | proof | tests | trying edits |")
    print("|---|---|---|---|---|---|---|---|")
    rows = []
    for crate in [it.partition(":")[0].split()[0] for it in open(f"{TOP}/crates.txt") if it[0] not in "#\n"]:
        edits = len(glob.glob(f"{TOP}/crates/{crate}/refused/*.edit"))
        sizes = [lines(crate, "src", "rt"), lines(crate, "specs", "antt"), lines(crate, "proofs", "antt"), edits]
        rows.append([*sizes, *(minutes[crate, kind] for kind in KINDS)])
        print(f"| {crate} | {' | '.join(map(str, sizes))} | {' | '.join(f'{it:.1f}' for it in rows[-1][4:])} |")
    sums = [sum(it) for it in zip(*rows)]
    print(f"| all | {' | '.join(map(str, sums[:4]))} | {' | '.join(f'{it:.1f}' for it in sums[4:])} |")
    processors = len(os.sched_getaffinity(0))
    print(f"{sum(sums[4:]):.0f} processor minutes in {took:.0f} minutes on {processors} processors, RT_JOBS {os.environ.get('RT_JOBS', 'not set')}, status {gate.returncode}")
    return gate.returncode


if __name__ == "__main__":
    sys.exit(main())
