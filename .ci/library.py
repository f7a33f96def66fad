#!/usr/bin/env python3
"""Builds the library over the crates as `rt ci` left them, and runs its tests from C and from Python (binding/tests/run.py).

    .ci/library.py [--anew]

`rt ci` proves a static library, and builds none; it may run still, once the crates that this one stands on are proved. `rt lib` would
prove each of those once more, since the libraries of `rt ci` have no stamp; so the toolchain is called here as the tool that tries
refused bodies calls it, over files of our own: it proves fits_c alone, and builds. What was built is kept on this machine, by the sum of
all that it rests on; --anew builds it in any case. The last line is 'N passed, M failed'."""
import hashlib
import os
import re
import shutil
import subprocess
import sys
import tempfile

from edits import KIT, TOP, rtlib, take, text_of

KEPT = os.path.join(os.environ.get("XDG_CACHE_HOME", os.path.expanduser("~/.cache")), "fitsed-library")


def kept_of(crate):
    """Where the library is kept that these sources make."""
    base = [open(it, encoding="utf-8").read() for it in (__file__, f"{KIT}/KIT-ID")]
    sums = "\0".join([*base, *(text_of(it) for it in [*crate.below(), crate])])
    return f"{KEPT}/{hashlib.sha256(sums.encode()).hexdigest()}.a"


def built(anew):
    """What keeps the library from being built, or nothing."""
    crate = next(it for it in rtlib.crates_below(TOP) if it.name == "fits_c")
    made, kept = f"{crate.folder}/out/libfits_c.a", kept_of(crate)
    how = {"cwd": crate.folder, "stdin": subprocess.DEVNULL, "capture_output": True, "text": True, "errors": "replace", "check": False}
    for folder in (os.path.dirname(made), KEPT):
        os.makedirs(folder, exist_ok=True)
    if os.path.exists(kept) and not anew:
        shutil.copy(kept, made)
    else:
        with tempfile.TemporaryDirectory(prefix="fitsed-library-") as room:
            for dep in crate.below():
                take(dep, room)
            words = crate.words(["--jobs", "2"], keeps=False)
            words += ["--toolchain", f"{KIT}/toolchain", "--backend", "llvm", "--incremental", "out/incremental", "-o", "out/libfits_c.a"]
            ran = subprocess.run([*rtlib.guarded(), rtlib.RATTLE, "build", *words], **how)
        if ran.returncode:
            return (ran.stdout + ran.stderr)[-2000:]
        shutil.copy(made, f"{kept}.new")
        os.replace(f"{kept}.new", kept)
    ran = subprocess.run(["sh", f"{TOP}/binding/link.sh"], **how)
    return ran.returncode and (ran.stdout + ran.stderr)[-2000:]


def pythons():
    """The Pythons that the package is run by: this one, and one that has astropy where this has none."""
    has = lambda path: subprocess.run([path, "-c", "import astropy"], capture_output=True, check=False).returncode == 0
    other = "/usr/bin/python3"
    return [[sys.executable], *([[other, "python"]] if not has(sys.executable) and os.path.exists(other) and has(other) else [])]


def main(words):
    fault = built("--anew" in words)
    if fault:
        print(f"{fault}\nFAILED: library: it isn't built\n0 passed, 1 failed")
        return 1
    counts = [0, 0]
    for path, *words in pythons():
        ran = subprocess.run([path, "-B", f"{TOP}/binding/tests/run.py", *words], stdout=subprocess.PIPE, text=True, check=False)
        *lines, last = ran.stdout.splitlines() or [""]
        said = re.fullmatch(r"(\d+) passed, (\d+) failed", last)
        print("\n".join(lines if said else [*lines, last, f"FAILED: library: {path} says nothing of its tests"]))
        counts = [one + other for one, other in zip(counts, map(int, said.groups() if said else (0, 1)))]
    print(f"{counts[0]} passed, {counts[1]} failed")
    return int(counts[1] > 0)


if __name__ == "__main__":
    sys.exit(main(sys.argv[1:]))
