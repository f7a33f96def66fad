#!/usr/bin/env python3
"""Tries the refused bodies crates/NAME/refused/*.edit: the prover must refuse the very function that each one turns.

    .ci/edits.py [--anew] [--beside PROCESS LOG] [NAME..]

An edit is as in must-fail/, with a line `of: FUNCTION` before its `file:`, the function by the name that a check prints. `rt ci`
tries each edit of must-fail/ by a check of its own over a second proof of the whole crate. Here all edits of a crate that turn
different functions are tried by one check, over a proof of these functions and what they call: a function's proof rests on the
contracts of what it calls and on no other body. What changes more than a body, as a constant, has a line `alone` and is tried so.

An edit is refused where its function isn't proved for a goal of its own contract, type or loop: that what it calls isn't proved
doesn't count, nor that a condition of what it calls isn't met, or that a sum may wrap. One that isn't seen refused beside others is
tried again with those left, and then alone. An edit that can't be applied or compiled fails as one that isn't refused does.

What was refused is kept on this machine, by the sum of all that the answer rests on; --anew tries all. The libraries below a crate
are those in out/, as `rt check` or `rt ci` builds them; while the `rt ci` of the given number runs, a library is waited for until its
log says that it is there.
The last line is 'N passed, M failed'.
"""
import concurrent.futures
import glob
import hashlib
import importlib.machinery
import os
import re
import shutil
import subprocess
import sys
import tempfile
import time
import types

TOP = os.path.dirname(os.path.dirname(os.path.abspath(__file__)))
KIT = os.path.dirname(subprocess.run(["rt", "doc"], capture_output=True, text=True, check=True).stdout.strip())
KEPT = os.path.join(os.environ.get("XDG_CACHE_HOME", os.path.expanduser("~/.cache")), "fitsed-edits")
# The most edits of one check: more save little, and leave processors idle at the end.
MOST = 24
# The goals of a contract, of a type, and of a loop, also of one over closures, which has a name of its own.
OWN = re.compile(r"^(returns|invariant_of|loop-)|-(preserved|init)\b")
# The free memory, in kB, that one check more asks for: a check of 24 edits of the largest crate takes up to 4 GB.
ROOM = 5_000_000


def load(path, name):
    """A module of the toolchain, from a file that isn't where Python looks."""
    made = types.ModuleType(name)
    made.__file__ = path
    sys.modules[name] = made
    importlib.machinery.SourceFileLoader(name, path).exec_module(made)
    return made


sys.dont_write_bytecode = True
rtlib = load(f"{KIT}/bin/rtlib.py", "rtlib")


class Edit:
    """A wrong body: the texts that it puts in place of others, and the function that it turns."""

    def __init__(self, crate, name, text):
        self.crate, self.name, self.text = crate, f"{crate.name}/{name}", text
        self.pairs, self.of, self.alone = [], None, False
        path = old = None
        for line in text.splitlines():
            word, _, rest = line.partition(":")
            rest = rest.removeprefix(" ")
            if word == "of":
                self.of = rest.strip()
            elif word == "alone":
                self.alone = True
            elif word == "file":
                path = rest.strip()
            elif word == "old":
                old = rest
            elif word == "new":
                self.pairs.append((path, old, rest))

    def into(self, texts):
        """The texts with this edit made in them too, or why it can't be made."""
        if not (self.of and self.pairs):
            return None, "it has no line `of:`, or no pair of `old:` and `new:`"
        made = dict(texts)
        for path, old, new in self.pairs:
            file = f"{self.crate.folder}/{path}"
            if path not in made and not os.path.isfile(file):
                return None, f"there is no file {path}"
            text = made.get(path) or open(file, encoding="utf-8").read()
            if text.count(old) != 1 or old == new:
                return None, f"its old text stands in {path} {text.count(old)} times, and not once, or is the new one"
            made[path] = text.replace(old, new)
        return made, None


def edits_of(crate):
    """The edits of a crate, by their names."""
    files = sorted(glob.glob(f"{crate.folder}/refused/*.edit"))
    return [Edit(crate, os.path.basename(it).removesuffix(".edit"), open(it, encoding="utf-8").read()) for it in files]


def check(crate, texts, functions, kept):
    """What a check of these functions of a copy of the crate with these texts says, over what `kept` holds and into it."""
    with tempfile.TemporaryDirectory(prefix="fitsed-edit-") as room:
        for part in rtlib.PARTS:
            if os.path.isdir(f"{crate.folder}/{part}"):
                shutil.copytree(f"{crate.folder}/{part}", f"{room}/{part}")
        for path, text in texts.items():
            with open(f"{room}/{path}", "w", encoding="utf-8") as it:
                it.write(text)
        only = [word for it in sorted(functions) for word in ("--only", it)]
        words = [rtlib.RATTLE, "check", *crate.words(["--jobs", "1"], keeps=False), *only, "--incremental", kept]
        how = {"cwd": room, "stdin": subprocess.DEVNULL, "stdout": subprocess.PIPE, "stderr": subprocess.STDOUT, "errors": "replace"}
        ran = subprocess.run([*rtlib.guarded(), *words], **how)
        return ran.returncode, ran.stdout


def linked(one, other):
    """Gives a file a second name: a check or a build replaces such a file, and never writes into it."""
    try:
        os.link(one, other)
    except OSError:
        shutil.copy2(one, other)


def over(seed, crate, texts, functions):
    """The same over a copy of the seed, which stays as it is."""
    copy = lambda one, other: (linked if one.endswith(".oantt") else shutil.copy2)(one, other)
    with tempfile.TemporaryDirectory(prefix="fitsed-over-", dir=os.path.dirname(seed)) as room:
        shutil.copytree(seed, f"{room}/kept", copy_function=copy)
        return check(crate, texts, functions, f"{room}/kept")


def goals_broken(crate, said):
    """The goals that a check left open, by the function that they are of, with the function's own name for each that isn't proved."""
    broken = {}
    for function, why in re.findall(r"(?m)^fn (\S+): ((?:not proved|no proof).*)", said):
        broken.setdefault(function, set())
        if "did not prove" in why:
            broken[function].update(re.findall(r"`([^`]+)`", why.partition("did not prove")[2].partition(";")[0]))
    for folder, goal in re.findall(r"(?m)^(?:\./)?proofs/(\S+)/\w+\.antt:\d+:\d+: error: `([^`]+)`", said):
        function = f"{crate.name}::{folder.replace('/', '::')}"
        if function in broken:
            broken[function].add(goal)
    return broken


def is_own(goal):
    """Whether a goal is of the function's own contract, a loop or a type; and no condition of what it calls, no sum that may wrap."""
    return OWN.search(goal) is not None


def is_checked(status, said):
    """Whether a check came to a verdict of each function."""
    return status in (0, 1) and re.search(r"(?m)^only=\d+ proved=\d+", said) is not None


def try_together(seed, crate, edits):
    """What one check of these edits says: of each that is refused for which goals, and why there is no verdict where there is none."""
    status, said = over(seed, crate, together(edits), {it.of for it in edits})
    if not is_checked(status, said):
        return None, next((it for it in said.splitlines() if re.search(r"\berror\b", it)), said[-300:])[:300]
    broken = goals_broken(crate, said)
    return {it: goals for it in edits if (goals := sorted(filter(is_own, broken.get(it.of, ()))))}, said[-300:]


def together(edits):
    """The texts in which all of these edits are made."""
    texts = {}
    for it in edits:
        texts, _ = it.into(texts)
    return texts


def answers_of(seed, crate, edits):
    """Of each edit the goals for which it is refused, or why it is not."""
    refused, said = try_together(seed, crate, edits)
    left = [it for it in edits if not refused or it not in refused]
    answers = {it: (goals, None) for it, goals in (refused or {}).items()}
    if len(edits) == 1:
        why = "BAD EDIT: no check comes to a verdict with it" if refused is None else "NOT REFUSED for a goal of its own"
        return answers or {edits[0]: (None, f"{why}: {said}")}
    # where one isn't compiled, none was tried; where none was seen refused, one may hide the others
    half = len(left) // 2
    parts = [left] if refused else [left[:half], left[half:]]
    for part in filter(None, parts):
        answers.update(answers_of(seed, crate, part))
    return answers


def batches(edits):
    """The edits in parts that one check can try: no two of one function, none that can't be made beside the others; and why the others can't be tried."""
    parts, bad = [], {}
    for edit in edits:
        _, why = edit.into({})
        if why:
            bad[edit] = (None, f"BAD EDIT: {why}")
            continue
        goes = lambda part: len(part) < MOST and not any(it.alone or it.of == edit.of for it in part) and edit.into(together(part))[0]
        part = None if edit.alone else next(filter(goes, parts), None)
        parts.append([edit]) if part is None else part.append(edit)
    return parts, bad


def text_of(crate):
    """The sum of a crate's own sources."""
    sum = hashlib.sha256()
    for part in rtlib.PARTS:
        for file in sorted(glob.glob(f"{crate.folder}/{part}/**/*.*t*", recursive=True)):
            sum.update(f"\0{os.path.relpath(file, crate.folder)}\0".encode() + open(file, "rb").read())
    return sum.hexdigest()


def names_of(edits):
    """The name under which each edit's answer is kept: the sum of all that it rests on."""
    crate = edits[0].crate
    base = [open(it, encoding="utf-8").read() for it in (__file__, f"{KIT}/KIT-ID")] + [text_of(it) for it in [*crate.below(), crate]]
    return {it: hashlib.sha256("\0".join([*base, it.text]).encode()).hexdigest() for it in edits}


def take(crate, room):
    """Gives a library's files names of our own: `rt ci` puts back what stood in out/ before it."""
    to = f"{room}/rlib/{crate.name}"
    if not os.path.isdir(to):
        shutil.copytree(os.path.dirname(crate.rlib), to, copy_function=linked)
    crate.rlib = f"{to}/{crate.name}.rlib"


def runs(process):
    """Whether the process of that number has not ended."""
    try:
        return open(f"/proc/{process}/stat", encoding="utf-8", errors="replace").read().rpartition(")")[2].split()[0] != "Z"
    except OSError:
        return False


def is_built(crate, log):
    """Whether a library stands whole in out/: while `rt ci` runs, it may stand there in part until its log names it."""
    is_told = log is None or re.search(rf"(?m)^(?:rt: )?{crate.name} (?:proved$|is kept)", log)
    return is_told and os.path.isfile(f"{crate.rlib}/format")


def free():
    """The free memory of the machine, in kB."""
    return int(re.search(r"MemAvailable:\s+(\d+)", open("/proc/meminfo", encoding="ascii").read())[1])


class Trying:
    """The edits that are to be tried, the checks that run for them, and the answers so far."""

    def __init__(self, crates, anew, room):
        self.left, self.room, self.running, self.waiting, self.answers, self.names = {}, room, {}, [], {}, {}
        for crate in crates:
            edits = edits_of(crate)
            if edits:
                self.names.update(names_of(edits))
                known = [it for it in edits if not anew and os.path.exists(f"{KEPT}/{self.names[it]}")]
                self.answers.update({it: (open(f"{KEPT}/{self.names[it]}", encoding="utf-8").read().split(), None) for it in known})
                if len(known) < len(edits):
                    self.left[crate] = [it for it in edits if it not in known]

    def find_ready(self, log):
        """Lets the seeds wait for a processor of all crates whose libraries below are built, as a log says, if there is one."""
        for crate in [it for it in self.left if all(is_built(dep, log) for dep in it.below())]:
            edits = self.left.pop(crate)
            for dep in crate.below():
                take(dep, self.room)
            seed = f"{self.room}/{crate.name}/seed"
            os.makedirs(seed)
            self.waiting.append((lambda c=crate, e=edits, s=seed: check(c, {}, {it.of for it in e if it.of}, s), self.seeded, (crate, edits, seed)))

    def seeded(self, found, crate, edits, seed):
        """Lets the edits of a crate wait for a processor, once what they turn is proved as it stands."""
        status, said = found
        if status:
            self.note({it: (None, f"NOT TRIED: without it the crate isn't proved: {said[-300:]}") for it in edits})
            return
        parts, bad = batches(edits)
        self.note(bad)
        self.waiting += [(lambda p=part: answers_of(seed, crate, p), self.note, ()) for part in parts]

    def note(self, found):
        """Prints and keeps what edits came to."""
        for it, (goals, why) in found.items():
            self.answers[it] = goals, why
            print(f"{it.name}: {why or 'refused, as it must be: ' + ' '.join(goals)}", flush=True)
            if not why:
                with open(f"{KEPT}/{self.names[it]}", "w", encoding="utf-8") as kept:
                    kept.write(" ".join(goals))

    def go_on(self, pool, lanes, seconds):
        """Begins what there is a processor and memory for, and takes in what has ended, after so many seconds at most."""
        while self.waiting and (not self.running or len(self.running) < lanes and free() > ROOM):
            work, then, words = self.waiting.pop(0)
            self.running[pool.submit(work)] = then, words
            if self.waiting and len(self.running) < lanes:
                # (what has begun is to show in the free memory)
                time.sleep(10)
        if not self.running:
            time.sleep(seconds)
            return
        for it in concurrent.futures.wait(self.running, timeout=seconds, return_when=concurrent.futures.FIRST_COMPLETED).done:
            then, words = self.running.pop(it)
            then(it.result(), *words)


def main(words):
    os.chdir(TOP)
    at = words.index("--beside") if "--beside" in words else len(words)
    beside, log = words[at + 1 : at + 3] or (None, None)
    anew, names = "--anew" in words, [it for it in words[:at] + words[at + 3 :] if it != "--anew"]
    rtlib.guarded()
    os.makedirs(KEPT, exist_ok=True)
    lanes = int(os.environ.get("EDITS_AT_ONCE") or len(os.sched_getaffinity(0)))
    crates = [it for it in rtlib.crates_below(TOP) if not names or it.name in names]
    with tempfile.TemporaryDirectory(prefix="fitsed-seeds-") as room, concurrent.futures.ThreadPoolExecutor(lanes) as pool:
        trying, is_last = Trying(crates, anew, room), False
        while trying.waiting or trying.running or trying.left and not is_last:
            # (once more after the other process has ended)
            is_last = beside is None or not runs(beside)
            trying.find_ready(None if is_last else open(log, encoding="utf-8", errors="replace").read())
            trying.go_on(pool, lanes, 2)
    answers = trying.answers
    answers.update({it: (None, "NOT TRIED: a library below isn't built") for edits in trying.left.values() for it in edits})
    failed = {it: why for it, (_, why) in answers.items() if why}
    for it, why in failed.items():
        print(f"FAILED: {it.name}: {why}")
    print(f"{len(answers) - len(failed)} passed, {len(failed)} failed")
    return 1 if failed or not answers else 0


if __name__ == "__main__":
    sys.exit(main(sys.argv[1:]))
