"""Files, folders, names and streams as an archive has them: what can't be opened or written, links, rights, many names, devices
that are full, and images that are large."""
import os
import pathlib
import resource
import shutil
import stat
import subprocess
import tempfile
import threading

import faults
from again import apart, contents, conversing, make_image
from commands import EMPTY, with_cards
from fits import MANDATORY, header
from held import (
    ALONE,
    ANOTHER,
    BEFORE,
    LINE,
    REPLACED,
    RESULT,
    begun,
    can_be_another,
    closed_folder,
    ended,
    left_out,
    rights_count,
)
from program import Ran, differences, shown

DONE = with_cards("OBJECT  = 'M31     '")
SAVED = {"status": 0, "printed": b"", "reported": b""}
NOT_READ = {"status": 3, "printed": b"", "reported": b"fitsed: read failed\n"}
NOT_WRITTEN = {"status": 3, "printed": b"", "reported": b"fitsed: write failed\n"}
SET = ["-e", LINE]


def cases():
    yield from of_kinds()
    yield from of_rights()
    yield from of_links()
    yield from of_names()
    yield from of_answers()
    yield from of_large()
    yield "bin/fitsed without the toolchain", without_toolchain


# What IN is that doesn't open or can't be read, and what is told of it, as the last word of each of these commands.
KINDS = [
    ("no.fits", b"no file", 2, "open refused O1 NotFits"),
    ("empty.fits", b"", 2, "open refused O1 NotFits"),
    ("a.fits.gz", b"\x1f\x8b\x08\0\0\0\0\0\0\x03" + bytes(40), 2, "open refused O1 NotFits"),
    ("cut.fits", BEFORE[:2000], 2, "open refused O2 NoEnd hdu 1"),
    ("later.fits", BEFORE[:7000], 2, "open refused O2 NoEnd hdu 2"),
    ("short.fits", BEFORE[:-5], 2, "open refused O4 ShortData hdu 3"),
    ("none.fits", None, 3, "read failed"),
    ("none/a.fits", None, 3, "read failed"),
    (".", None, 3, "read failed"),
    ("", None, 3, "read failed"),
    ("/dev/null", None, 2, "open refused O1 NotFits"),
    ("/dev/zero", None, 2, "open refused O5 TooLarge"),
]
COMMANDS = [["list"], ["verify"], ["sum"], ["ask", "-e", "off"], ["edit", "-i", *SET]]


def of_kinds():
    for name, what, status, why in KINDS:
        files = {} if what is None else {name: what}
        for words in COMMANDS:
            ends = {"status": status, "printed": b"", "reported": f"fitsed: {why}\n".encode()}
            yield f"{words} of {name!r}", comes_to, [*words, name], files, ends, files
    for out in ("none/b.fits", ".", ""):
        yield f"OUT is {out!r}", comes_to, ["edit", *SET, "a.fits", out], {"a.fits": EMPTY}, NOT_WRITTEN, {"a.fits": EMPTY}
    yield "IN and OUT by pipes that stand in a folder", by_fifos


def comes_to(program, words, files, ends, wanted):
    """Where words over these files end otherwise, or leave others than these."""
    ran, after = program.over(words, files, b"")
    return apart(ran, after, ends, wanted)


def by_fifos(program):
    """Where a file that comes by a pipe of a folder doesn't go to another."""
    passed = []
    with program.room({}) as room:
        for name in ("in.fits", "out.fits"):
            os.mkfifo(f"{room}/{name}")
        ends = [
            threading.Thread(target=pathlib.Path(f"{room}/in.fits").write_bytes, args=(BEFORE,), daemon=True),
            threading.Thread(target=lambda: passed.append(pathlib.Path(f"{room}/out.fits").read_bytes()), daemon=True),
        ]
        with begun(program, room, ["edit", *SET, "in.fits", "out.fits"]) as ran:
            for end in ends:
                end.start()
            yield from differences(ended(ran), **SAVED)
            for end in ends:
                end.join(timeout=10)
        if passed != [RESULT] or sorted(os.listdir(room)) != ["in.fits", "out.fits"]:
            yield f"what comes is {shown(passed)}"


def of_rights():
    if rights_count():
        yield "a file in a folder that takes no other", in_closed, ["-i", "a.fits"]
        yield "OUT in a folder that takes no other", in_closed, ["in.fits", "a.fits"]
        yield "a new OUT in a folder that takes none", new_in_closed
        for mode, ends in ((0o444, NOT_WRITTEN), (0o400, NOT_WRITTEN), (0o000, NOT_READ)):
            yield f"a file with the mode {mode:o}", with_mode, mode, ends
        yield "a folder that can't be looked into", in_dark
    for flag in ("i", "a") if can_be_marked() else ():
        yield f"a file that chattr +{flag} marks", marked, flag
    for mode in (0o600, 0o640, 0o664, 0o2640, 0o755):
        for scene in REPLACED:
            yield f"{scene.name} with the mode {mode:o}", keeps_mode, scene, mode
    yield "an attribute of a file", loses_attribute
    if can_be_another():
        yield "owner and group", keeps_owner


def in_closed(program, words):
    """Where a file isn't written in its place that can't be replaced, since its folder takes no other."""
    with closed_folder(program, {"in.fits": BEFORE, "a.fits": BEFORE}) as (path, is_of_another):
        before = (path / "a.fits").stat().st_ino
        with begun(program, path, ["edit", *SET, *words], is_of_another) as ran:
            came = ended(ran)
        yield from apart(came, contents(path), SAVED, {"in.fits": BEFORE, "a.fits": RESULT})
        if (path / "a.fits").stat().st_ino != before:
            yield "it is another file"


def new_in_closed(program):
    """Where a new OUT isn't told to be impossible in a folder that takes none."""
    with closed_folder(program, ALONE) as (path, is_of_another):
        with begun(program, path, ["edit", *SET, "in.fits", "out.fits"], is_of_another) as ran:
            return list(apart(ended(ran), contents(path), NOT_WRITTEN, ALONE))


def with_mode(program, mode, ends):
    """Where a file isn't as it was that can't be read or written, and isn't told so."""
    is_of_another = os.geteuid() == 0
    for words in (["-i", "a.fits"], ["in.fits", "a.fits"])[: 2 if mode else 1]:
        with program.room({"in.fits": BEFORE, "a.fits": BEFORE}) as room:
            path = pathlib.Path(room)
            for it in [*path.iterdir(), path] if is_of_another else []:
                os.chown(it, ANOTHER, ANOTHER)
            (path / "a.fits").chmod(mode)
            with begun(program, room, ["edit", *SET, *words], is_of_another) as ran:
                came = ended(ran)
            (path / "a.fits").chmod(0o600)
            yield from apart(came, contents(path), ends, {"in.fits": BEFORE, "a.fits": BEFORE})


def in_dark(program):
    """Where a file in a folder that can't be looked into is something else than one that can't be read or written."""
    is_of_another = os.geteuid() == 0
    with program.room({}) as room:
        path = pathlib.Path(room)
        (path / "dark").mkdir()
        (path / "in.fits").write_bytes(BEFORE)
        (path / "dark" / "a.fits").write_bytes(BEFORE)
        for it in (path, path / "in.fits") if is_of_another else ():
            os.chown(it, ANOTHER, ANOTHER)
        (path / "dark").chmod(0o700 if is_of_another else 0o000)
        for words, ends in ((["-i", "dark/a.fits"], NOT_READ), (["in.fits", "dark/b.fits"], NOT_WRITTEN)):
            with begun(program, room, ["edit", *SET, *words], is_of_another) as ran:
                yield from differences(ended(ran), **ends)
        (path / "dark").chmod(0o700)
        yield from apart(None, contents(path / "dark"), {}, {"a.fits": BEFORE})


def chattr(flag, path):
    """Whether a file gets or loses such a mark."""
    return subprocess.run(["chattr", flag, path], capture_output=True, check=False).returncode == 0


def can_be_marked():
    """Whether files can be marked here, which no permission is above."""
    with tempfile.NamedTemporaryFile() as file:
        can = bool(shutil.which("chattr")) and chattr("+i", file.name)
        if can:
            chattr("-i", file.name)
        else:
            left_out("rows of files that chattr marks", "it can't here")
        return can


def marked(program, flag):
    """Where a file that can't be changed is, or isn't told so."""
    with program.room({"in.fits": BEFORE, "a.fits": BEFORE}) as room:
        if not chattr(f"+{flag}", f"{room}/a.fits"):
            return
        try:
            for words in (["-i", "a.fits"], ["in.fits", "a.fits"]):
                with begun(program, room, ["edit", *SET, *words]) as ran:
                    yield from apart(ended(ran), contents(pathlib.Path(room)), NOT_WRITTEN, {"in.fits": BEFORE, "a.fits": BEFORE})
        finally:
            chattr(f"-{flag}", f"{room}/a.fits")


def keeps_mode(program, scene, mode):
    """Where a file that is replaced has other permissions then."""
    with scene.laid(program) as path:
        (path / scene.out).chmod(mode)
        with begun(program, path, scene.words()) as ran:
            yield from apart(ended(ran), contents(path), SAVED, scene.done())
        if stat.S_IMODE((path / scene.out).stat().st_mode) != mode:
            yield f"it has the mode {(path / scene.out).stat().st_mode:o}"


def keeps_owner(program):
    """Where a file that is replaced has another owner or group then."""
    for scene in REPLACED:
        with scene.laid(program) as path:
            os.chown(path / scene.out, ANOTHER, ANOTHER + 1)
            before = (path / scene.out).stat().st_ino
            with begun(program, path, scene.words()) as ran:
                yield from apart(ended(ran), contents(path), SAVED, scene.done())
            now = (path / scene.out).stat()
            if (now.st_uid, now.st_gid) != (ANOTHER, ANOTHER + 1) or now.st_ino == before:
                yield f"{scene.name}: it is {now}"


def loses_attribute(program):
    """Where a file that is replaced keeps an attribute, which the manual says it doesn't."""
    with program.room({"a.fits": BEFORE}) as room:
        try:
            os.setxattr(f"{room}/a.fits", "user.night", b"1")
        except OSError:
            return
        with begun(program, room, ["edit", "-i", *SET, "a.fits"]) as ran:
            yield from differences(ended(ran), **SAVED)
        if "user.night" in os.listxattr(f"{room}/a.fits"):
            yield "it keeps it"


def of_links():
    links = {"first": "second", "second": "third.fits"}
    for words in (["-i", "first"], ["first", "first"], ["in.fits", "first"], ["third.fits", "second"]):
        yield f"links to links, {words}", through_links, links, words, SAVED, {"in.fits": BEFORE, "third.fits": RESULT}
    row = {"first": "second", "second": "new.fits"}, ["in.fits", "first"], SAVED
    yield "links that lead to no file, as OUT", through_links, *row, {"in.fits": BEFORE, "third.fits": BEFORE, "new.fits": RESULT}
    kept = {"in.fits": BEFORE, "third.fits": BEFORE}
    for words, ends in ((["in.fits", "first"], NOT_WRITTEN), (["-i", "first"], NOT_READ)):
        yield f"links that lead to one another, {words}", through_links, {"first": "second", "second": "first"}, words, ends, kept
    yield "a file that is edited twice", twice


def through_links(program, links, words, ends, wanted):
    """Where a link isn't as it was, or the file that it leads to isn't the result."""
    with program.room({"in.fits": BEFORE, "third.fits": BEFORE}) as room:
        for name, to in links.items():
            os.symlink(to, f"{room}/{name}")
        with begun(program, room, ["edit", *SET, *words]) as ran:
            came = ended(ran)
        found = {it.name: it.read_bytes() for it in pathlib.Path(room).iterdir() if not it.is_symlink()}
        yield from apart(came, found, ends, wanted)
        if {name: os.readlink(f"{room}/{name}") for name in links} != links:
            yield "a link leads elsewhere"


def twice(program):
    """Where a file that is named twice isn't edited by each."""
    ran, after = program.over(["edit", "-i", "-e", "ins 1 4 HISTORY x", "a.fits", "a.fits"], {"a.fits": EMPTY}, b"")
    return apart(ran, after, SAVED, {"a.fits": with_cards("HISTORY x|HISTORY x")})


# A name in Latin-1, as Python has it.
ODD = os.fsdecode(b"na\xefve.fits")

# Words that aren't text, and are no names of several files: nothing is done.
NO_TEXT = [
    ["sum", ODD],
    ["edit", *SET, ODD, "b.fits"],
    ["edit", *SET, "a.fits", ODD],
    ["edit", "-i", "-e", ODD, "a.fits", "c.fits"],
    ["edit", "-i", "-f", ODD, "a.fits", "c.fits"],
    ["cards", "-k", ODD, "a.fits", "c.fits"],
    [ODD, "a.fits", "c.fits"],
]

# The longest name that has room for an ending.
LONGEST = "n" * 241 + ".fits"


def of_names():
    three = {"a.fits": EMPTY, "b.fits": EMPTY, "c.fits": EMPTY}
    for words in NO_TEXT:
        ends = {"status": 2, "printed": b"", "reported": b"fitsed: an argument is not UTF-8\n"}
        yield f"{words}", comes_to, words, three, ends, three
    # a name that a pattern of the shell comes to, and that begins with a hyphen
    files = {"-x.fits": EMPTY, "a.fits": EMPTY}
    for words in (["edit", "-i", *SET], ["verify"], ["sum", "-c"], ["list"]):
        yield f"{words}, a name with a hyphen", comes_to, [*words, "-x.fits", "a.fits"], files, {"status": 2, "printed": b""}, files
    yield "such names after --", comes_to, ["edit", "-i", *SET, "--", *files], files, SAVED, dict.fromkeys(files, DONE)
    yield "a name of 246 bytes", comes_to, ["edit", "-i", *SET, LONGEST], {LONGEST: EMPTY}, SAVED, {LONGEST: DONE}
    yield "a name of 246 bytes, OUT", comes_to, ["edit", *SET, "a.fits", LONGEST], {"a.fits": EMPTY}, SAVED, {"a.fits": EMPTY, LONGEST: DONE}
    yield "five thousand names", many_names
    yield "few descriptors", few_descriptors


def many_names(program):
    """Where one of five thousand names isn't done."""
    ran, _ = program.over(["sum", *["a.fits"] * 5000], {"a.fits": EMPTY}, b"")
    return differences(ran, status=0, printed=b"a.fits:1 0 0 0\n" * 5000, reported=b"")


def few_descriptors(program):
    """Where many files aren't edited with ten descriptors, so that some aren't closed."""
    files = {f"{k}.fits": EMPTY for k in range(40)}

    def limited():
        resource.setrlimit(resource.RLIMIT_NOFILE, (10, 10))

    for words in (["edit", "-i", *SET], ["edit", "-a", "-c", "-v", "-i", *SET]):
        with program.room(files) as room:
            with begun(program, room, [*words, *files], before=limited) as ran:
                came = ended(ran)
            yield from apart(came, contents(pathlib.Path(room)), SAVED, dict.fromkeys(files, DONE))


# Commands of which each file has an answer.
ANSWERING = [
    ["list"],
    ["sum"],
    ["stat"],
    ["verify"],
    ["verify", "-q"],
    ["cards"],
    ["cards", "-k", "NAXIS"],
    ["ask", "-e", "off"],
    ["edit", "-i", "-e", "off", *SET],
    ["edit", "-i", *SET, "-e", "off"],
    ["edit", "-a", "-i", *SET, "-e", "off"],
    ["edit", "-c", "-i", *SET, "-e", "off"],
]


def of_answers():
    files = {"a.fits": EMPTY, "b.fits": EMPTY, "c.fits": EMPTY}
    for words in ANSWERING:
        for names in (["a.fits"], ["a.fits", "b.fits", "c.fits"]):
            for way in ("a full device", "a pipe that nobody reads", "closed"):
                yield f"{words} of {len(names)}, standard output is {way}", unheard, [*words, *names], files, way, names
    words = ["edit", *SET, "-e", "off", "a.fits", "d.fits"]
    yield "edit to a new OUT, standard output is a full device", unheard, words, files, "a full device", ["a.fits"]
    for words, after in ((["edit", "-i", *SET, "-e", "off"], {"a.fits": DONE}), (["ask", *SET, "-e", "off"], {})):
        yield f"{words}, the answers of the second file fail", second_unheard, [*words, *files], {**files, **after}
    yield "ask -H, answers as lines come", answers_at_once
    for words in (["edit", "-i", "a.fits"], ["edit", "a.fits", "b.fits"], ["ask", "a.fits"], ["ask", "a.fits", "b.fits"]):
        yield f"{words}, standard input is closed", unasked, words


def unheard(program, words, files, way, names):
    """Where answers that can't be written don't end a run before a file is saved, or it isn't told with the name of the first
    of several."""
    reading, writing = os.pipe()
    os.close(reading)
    with open("/dev/full", "wb") as full, open(writing, "wb") as pipe:
        stdout = {"a full device": full, "a pipe that nobody reads": pipe, "closed": None}[way]
        before = (lambda: os.close(1)) if stdout is None else None
        with program.room(files) as room, begun(program, room, words, before=before, stdout=stdout) as ran:
            came, after = ended(ran), contents(pathlib.Path(room))
    told = b"fitsed: a.fits: write failed\n" if len(names) > 1 else b"fitsed: write failed\n"
    return apart(came, after, {"status": 3, "reported": told}, files)


def second_unheard(program, words, wanted):
    """Where a file is edited after answers couldn't be written, or the one before isn't."""
    row = {"LD_PRELOAD": faults.preloaded(), "STREAM": "answers", "STOP": "2"}
    files = {"a.fits": EMPTY, "b.fits": EMPTY, "c.fits": EMPTY}
    ran, after = program.under(**row).over(words, files, b"")
    ends = {"status": 3, "printed": b"a.fits:1 0 2880 2880\n", "reported": b"fitsed: b.fits: write failed\n"}
    return apart(ran, after, ends, wanted)


def answers_at_once(program):
    """Where a line that comes by a pipe isn't answered before the next one, with the name of the file."""
    with program.room({"a.fits": EMPTY}) as room, conversing([program.path, "ask", "-H", "-v", "a.fits"], room) as ran:
        for line, answer in ((b"get 1 BITPIX\n", b"a.fits:integer 8\n"), (b"off\n", b"a.fits:1 0 2880 2880\n")):
            ran.stdin.write(line)
            ran.stdin.flush()
            heard = ran.stdout.readline()
            if heard != answer:
                yield f"{line!r} is answered {heard!r}"
        printed, reported = ran.communicate()
        yield from differences(Ran(ran.returncode, printed, reported, None), **SAVED)


def unasked(program, words):
    """Where a run without a script does something."""
    files = {"a.fits": EMPTY}
    with program.room(files) as room, begun(program, room, words, before=lambda: os.close(0)) as ran:
        return list(apart(ended(ran), contents(pathlib.Path(room)), NOT_READ, files))


# An image of more than 128 MiB, and one of more than 2^24 pixels: how many bytes, and how many axes of which length.
UNIT = 2880 * 46_604
WIDE, HIGH = 4097, 4096


def of_large():
    yield "a pixel of a data unit of more than 128 MiB", large_unit
    yield "an image of more than 2^24 pixels gets other axes", large_reshape


def large_unit(program):
    """Where a pixel of a large data unit isn't painted and read."""
    with program.room({}) as room:
        make_image(f"{room}/in.fits", UNIT)
        lines = ["rect 1 1:2", "fill 1 2:2 7", "rect 1 1:3", f"rect 1 {UNIT}:{UNIT}"]
        with begun(program, room, ["ask", *(word for line in lines for word in ("-e", line)), "in.fits"]) as ran:
            yield from differences(ended(ran), status=0, printed=b"1 0\n1 7 0\n1\n", reported=b"")


def large_reshape(program):
    """Where a pixel of a large image isn't where it stood once the image has other axes and another kind."""
    front = f"{MANDATORY.replace('NAXIS   =                    0', 'NAXIS   =                    2')}|NAXIS1  = {WIDE:20d}|NAXIS2  = {HIGH:20d}|END"
    with program.room({}) as room:
        with open(f"{room}/in.fits", "wb") as file:
            file.write(header(front))
            for place in (0, WIDE * HIGH - 1):
                file.seek(2880 + place)
                file.write(b"\1")
            file.truncate(2880 + -(-WIDE * HIGH // 2880) * 2880)
        lines = [f"reshape 1 i16 {WIDE},{HIGH}", "rect 1 1:2,1:1", f"rect 1 {WIDE}:{WIDE},{HIGH}:{HIGH}", "stat 1"]
        with begun(program, room, ["ask", *(word for line in lines for word in ("-e", line)), "in.fits"]) as ran:
            printed = f"1 0\n1\ndefined {WIDE * HIGH} blank 0 min 0 max 1 sum 2\n".encode()
            yield from differences(ended(ran), status=0, printed=printed, reported=b"")


TOP = pathlib.Path(__file__).resolve().parent.parent

# What is at hand beside the toolchain.
TOOLS = ["sh", "make", "find", "mkdir", "touch", "dirname", "nproc", "awk", "sed", "cat", "mv", "echo"]


def without_toolchain(program):
    """Where `bin/fitsed` of a tree that isn't built, where there is no toolchain, ends as if it had run, or changes a file."""
    if not shutil.which("make"):
        return
    with program.room({"a.fits": EMPTY, "crates.txt": b"fitsed:\n"}) as room:
        path = pathlib.Path(room)
        for name in ("bin", "tools", "crates/fitsed/src"):
            (path / name).mkdir(parents=True)
        shutil.copy(TOP / "bin" / "fitsed", path / "bin")
        shutil.copy(TOP / "Makefile", path)
        (path / "crates/fitsed/src/main.rt").write_text("", encoding="utf-8")
        for tool in TOOLS:
            (path / "tools" / tool).symlink_to(shutil.which(tool))
        typed = [f"{room}/bin/fitsed", "edit", "-i", *SET, "a.fits"]
        ran = subprocess.run(typed, cwd=room, env={"PATH": f"{room}/tools"}, capture_output=True, timeout=60, check=False)
        yield from differences(Ran(ran.returncode, ran.stdout, ran.stderr, None), status=3, printed=b"")
        if not ran.stderr.startswith(b"fitsed: ") or (path / "a.fits").read_bytes() != EMPTY:
            yield f"it says {shown(ran.stderr)}"
