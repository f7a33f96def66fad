"""Refused memory and failing calls: how a run ends then, and that what it printed and saved is a front of the whole.

Each request of a run for memory is refused in turn, and each call of a stream fails in turn, in a run of its own."""
import dataclasses
import os
import subprocess
import tempfile
import threading

from fits import COMMENTS, MANDATORY, P0, PIXEL, THREE_PIXELS, file, header, pixels, zeros
from program import differences, shown

BARE = "SIMPLE|BITPIX  = 8|NAXIS   = 0"

# Keywords whose values go on over cards, or are pairs.
SAID = header(f"{BARE}|KEY     = 'ab&' / first|CONTINUE  'c''d&'|CONTINUE  'e' / last|PAIR    = (1, 2)/|END")

# Image extensions without data, of which the first has things wrong as a whole; the others have one name.
EMPTY = "XTENSION= 'IMAGE   '|BITPIX  =                    8|NAXIS   =                    0"
WRONG = f"{EMPTY}|SIMPLE  =                    T|END     x"
NAMED = f"{EMPTY}|PCOUNT  =                    0|GCOUNT  =                    1|EXTNAME = 'A'|END"

# The shortest header with its stamp.
STAMPED = f"{MANDATORY}|CHECKSUM= 'BpFiDoFgBoFgBoFg'|DATASUM = '0       '|END"

# A script over the shortest file: its answers, the status, and what is saved.
SHORTEST = (
    header(P0),
    "off\n# note\nfrob\nins 1 4 COMMENT x\noff",
    "1 0 2880 2880\nline 3: not a command\n1 0 2880 2880\n",
    1,
    header(f"{MANDATORY}|COMMENT x|END"),
)

# The same of questions alone.
QUESTIONS = (
    header(P0),
    "off\nsum 1\nrep\nstat 1",
    "1 0 2880 2880\ndatasum 0 verdicts 0 0\nerrors 0 warnings 0\nline 4: refused 9 NotImage\n",
    1,
    header(P0),
)

# A string over three cards, and the first of them.
LONG_STRING = f"{'a' * 66}''{'b' * 73}"
LEAD = f"KEY     = '{'a' * 66}&'"

# Other scripts: a header that grows by a block, values over cards, pixels, HDUs put in, stamped and taken out.
SCRIPTS = [
    (
        header(f"{BARE}|END"),
        "ins 1 4 COMMENT\n" * 33 + "off\n# the end\noff",
        "1 0 5760 5760\n" * 2,
        0,
        header(f"{BARE}|{COMMENTS}|COMMENT|END"),
    ),
    (
        SAID,
        "get 1 KEY\nget 1 PAIR\nget 1 NONE\nrep\nget 1 KEY\npos 1 KEY\npos 1 NONE",
        "string 'abc''de' / last\ncomplex (1, 2) /\nline 3: refused 3 NoKey\n"
        + "".join(f"E06 1 {k} mandatory card not in fixed format\n" for k in (1, 2, 3))
        + "errors 3 warnings 0\nstring 'abc''de' / last\n4\nline 7: refused 3 NoKey\n",
        1,
        SAID,
    ),
    (
        header(THREE_PIXELS) + zeros(1) + header(NAMED) + b"tail",
        "write 1 2:3 7 -7\nset 1 OBJECT 'a''b' / c\nnew 2 u16 3\nstamp 2\nsum 2\nrm 2\nrm 2\nstat 1\nrect 1 1:2\nunset 1 OBJECT",
        "datasum 0 verdicts 1 1\ndefined 3 blank 0 min -7 max 7 sum 0\n0 7\n",
        0,
        header(THREE_PIXELS) + pixels(2, [0, 7, -7], 0) + b"tail",
    ),
]

# A string over CONTINUE cards, which another card takes the lead of for a time; a new image of unsigned pixels.
SCRIPTS += [
    (
        header(P0),
        f"set 1 KEY '{LONG_STRING}'\nput 1 4 KEY     = 'x'\nrep\nput 1 4 {LEAD}\nrep",
        "".join(f"W09 1 {k} CONTINUE without an open string\n" for k in (5, 6))
        + "errors 0 warnings 2\nerrors 0 warnings 0\n",
        0,
        header(f"{MANDATORY}|{LEAD}|CONTINUE  '''{'b' * 65}&'|CONTINUE  'bbbbbbbb'|END"),
    ),
    (
        header(P0),
        "new 2 u16 3\noff\nstat 2\nwrite 2 1:3 0 65535 1\nstat 2\nrect 2 1:3\nsum 2\nwrite 2 1:3 0 1\nrm 1",
        "1 0 2880 2880\n2 2880 5760 8640\ndefined 3 blank 0 min 32768 max 32768 sum 98304\n"
        "defined 3 blank 0 min 0 max 65535 sum 65536\n0 65535 1\ndatasum 98304 verdicts 0 0\n"
        "line 8: refused 11 WrongCount\nline 9: refused 13 PrimaryStays\n",
        1,
        header(P0)
        + header(
            "XTENSION= 'IMAGE   '|BITPIX  =                   16|NAXIS   =                    1|"
            "NAXIS1  =                    3|PCOUNT  =                    0|GCOUNT  =                    1|"
            "BSCALE  =                    1|BZERO   =                32768|END"
        )
        + pixels(2, [-32768, 32767, -32767], 0),
    ),
]

# An image that gets wider pixels and more rows, or doesn't.
SCRIPTS += [
    (
        header(THREE_PIXELS) + zeros(1),
        "write 1 1:3 300 -7 7\nreshape 1 u8 2\nreshape 1 i32 2,2\nrect 1 1:2,1:2\nreshape 1 i64 999999999999999999\noff",
        "line 2: refused 12 Range\n300 -7 7 0\nline 5: refused 14 TooLarge\n1 0 2880 5760\n",
        1,
        header(
            "SIMPLE  =                    T|BITPIX  =                   32|NAXIS   =                    2|"
            "NAXIS1  =                    2|NAXIS2  =                    2|END"
        )
        + pixels(4, [300, -7, 7], 0),
    ),
]

# An HDU that is kept stamped: its cards, pixels, shape and sums are edited, and it is released.
SCRIPTS += [
    (
        header(THREE_PIXELS) + zeros(1),
        "keep 1\nset 1 OBJECT 'a'\nwrite 1 1:3 1 -1 0\nfill 1 2:3 0\nreshape 1 u8 4\nunset 1 CHECKSUM\nkept 1\nsum 1\n"
        "unset 1 OBJECT\nrelease 1\nunset 1 CHECKSUM\nunset 1 DATASUM\nsum 1",
        "yes\ndatasum 16777216 verdicts 1 1\ndatasum 16777216 verdicts 0 0\n",
        0,
        header(
            "SIMPLE  =                    T|BITPIX  =                    8|NAXIS   =                    1|"
            "NAXIS1  =                    4|END"
        )
        + pixels(1, [1, 0, 0, 0], 0),
    ),
]

# Three images, and bytes after them. The pixels of two are painted, printed and reshaped, and the one between them stays; or
# those of one are printed, and the header of another is edited.
THREE_IMAGES = (
    b"".join(header(of) + pixels(2, numbers, 0) for of, numbers in [(THREE_PIXELS, [5, 9, 9]), (PIXEL, [7]), (PIXEL, [-300])])
    + b"tail"
)
RESHAPED = PIXEL.replace("                  16|", "                  32|").replace("NAXIS1  =                    1|", "NAXIS1  =                    2|")
SCRIPTS += [
    (
        THREE_IMAGES,
        "fill 1 2:2 2\nrect 1 1:3\nreshape 3 u8 2\nreshape 3 i32 2\nrect 3 1:2\nwrite 3 2:2 1",
        "5 2 9\nline 3: refused 12 Range\n-300 0\n",
        1,
        header(THREE_PIXELS)
        + pixels(2, [5, 2, 9], 0)
        + header(PIXEL)
        + pixels(2, [7], 0)
        + header(RESHAPED)
        + pixels(4, [-300, 1], 0)
        + b"tail",
    ),
    (
        THREE_IMAGES,
        "set 2 OBJECT 'M31'\nrect 3 1:1\noff",
        "-300\n1 0 2880 5760\n2 5760 8640 11520\n3 11520 14400 17280\n",
        0,
        header(THREE_PIXELS)
        + pixels(2, [5, 9, 9], 0)
        + header(PIXEL.replace("|END", "|OBJECT  = 'M31     '|END"))
        + pixels(2, [7], 0)
        + header(PIXEL)
        + pixels(2, [-300], 0)
        + b"tail",
    ),
]

# Scripts that are checked for new errors, of which the first makes one and so isn't saved: what is reported, too.
CHECKS = [
    (
        header(P0),
        "off\nins 1 4 bad\noff",
        "1 0 2880 2880\n1 0 2880 2880\n+E02 1 4 bad keyword name\n",
        1,
        None,
        "fitsed: out.fits: not saved: 1 new error\n",
    ),
    (
        header(f"{MANDATORY}|bad|END"),
        "ins 1 4 COMMENT x\noff",
        "1 0 2880 2880\n",
        0,
        header(f"{MANDATORY}|COMMENT x|bad|END"),
        "",
    ),
]

# What is told of files: the words, the file, what is printed, and the status. The words of a block of data sum to
# 1867394316.
TOLD = [
    (
        ["list"],
        file(([(P0, 0), (PIXEL, 1)], "trailer")),
        "hdu 1 PRIMARY bitpix 8 axes - cards 3 at 0 2880 2880\nhdu 2 IMAGE bitpix 16 axes 1 cards 6 at 2880 5760 8640\n",
        0,
    ),
    (
        ["verify"],
        file(([(P0, 0), (WRONG, 0)], "x")),
        "E14 2 0 END card not blank\nE16 2 0 PCOUNT or GCOUNT out of place\n"
        "E18 2 0 SIMPLE or XTENSION in the wrong kind of HDU\nW26 3 0 bytes after the last HDU\nerrors 3 warnings 1\n",
        1,
    ),
    (
        ["verify"],
        file(([(P0, 0), (NAMED, 0), (NAMED, 0)], "")),
        "".join(f"W25 {k} 0 two extensions of one type, name and version\n" for k in (2, 3)) + "errors 0 warnings 2\n",
        0,
    ),
    (
        ["verify", "-p"],
        file(([(P0.replace("|END", "|KEY     = TRUE|END"), 0), (NAMED.replace("EXTNAME = 'A'", "EPOCH   = 2000.0"), 0)], "x")),
        "E03 1 4 unreadable value: KEY     = TRUE\nW13 2 6 deprecated keyword: EPOCH   = 2000.0\n"
        "W26 3 0 bytes after the last HDU\nerrors 1 warnings 2\n",
        1,
    ),
    (["sum"], file(([(STAMPED, 0), (PIXEL, 1)], "trailer")), "1 0 1 1\n2 1867394316 0 0\n", 0),
    (
        ["verify", "-p", "--json"],
        file(([(P0.replace("|END", "|KEY     = TRUE|END"), 0)], "")),
        '{"card":"KEY     = TRUE","code":"E03","file":"in.fits","hdu":1,"place":4,"text":"unreadable value"}\n'
        '{"errors":1,"file":"in.fits","warnings":0}\n',
        1,
    ),
]

# Each stream of a run, and how many bytes a call of it may move.
OF_SCRIPTS = {"script": (1, 7, 4096), "file": (100, 4096), "answers": (1, 7, 4096), "saved": (7, 100, 4096)}
OF_TEXTS = {"file": (100, 4096), "answers": (1, 7, 4096)}

# The same where the file of a script comes by a pipe, which changes nothing of how the script is read and answered.
OF_PIPES = {"file": (100, 4096), "saved": (100, 4096)}

READ_FAILED = b"fitsed: read failed\n"
WRITE_FAILED = b"fitsed: write failed\n"
NO_MEMORY = b"fitsed: no memory\n"
FAULTS = {"script": READ_FAILED, "file": READ_FAILED, "answers": WRITE_FAILED, "saved": WRITE_FAILED}

# What stands at OUT before, where that isn't IN.
OLD = b"what was there"

# What leaves that as it was where it fails: a call of a stream that moves so many bytes, or a request for memory.
OF_OUT = [{"STREAM": "file", "STEP": "4096"}, {"STREAM": "saved", "STEP": "100"}, {"STREAM": "saved", "STEP": "4096"}]
MEMORY = {}

# A read leaves it so, too, where it is written in its place, since no file can be made beside it.
IN_PLACE = {"STREAM": "file", "STEP": "4096", "DENIED": "create"}

EDITS = [SHORTEST, QUESTIONS, *SCRIPTS]

# A stream of a script over the shortest file that moves so many bytes, one a call, and then fails; and how many bytes
# are printed and how many saved.
ASKED_STOPS = [("answers", 15, 15, 0), ("saved", 100, len(QUESTIONS[2]), 0)]

STOPS = [
    # also where the file's bytes would be refused, or are whole
    *[("file", count, 0, 0) for count in (0, 1, 2879, 2880)],
    # the whole lines of the script that came are answered; the last is without its line feed, and may go on
    *[("script", count, 0, 0) for count in (0, 3)],
    *[("script", count, 14, 0) for count in (4, 15)],
    *[("script", count, 36, 0) for count in (16, 34, 37)],
    *[("answers", count, count, 0) for count in (0, 15)],
    # a new OUT gets its name once all is saved
    *[("saved", count, 50, 0) for count in (0, 100, 250, 2879)],
]


def cases():
    shim = preloaded()
    yield from of_scripts(shim, OF_SCRIPTS)
    yield from ((f"{name}, by a pipe", by_pipe, *row) for name, *row in of_scripts(shim, OF_PIPES))
    yield from over_itself(shim)
    yield from of_texts(shim)


def of_scripts(shim, streams):
    yield from of_edits(shim, streams)
    yield from of_checks(shim, streams)
    yield from of_stops(shim, streams)


def of_edits(shim, streams):
    for of, script, *wanted in EDITS:
        run = ["edit"], of, script, whole(*wanted)
        yield from of_run(shim, run, streams)
        yield f"edit {script}, saved that are stuck", stuck, shim, run, "saved"
        yield from over_out(shim, run, OLD)


def over_itself(shim):
    for of, script, *wanted in EDITS:
        yield from over_out(shim, (["edit"], of, script, whole(*wanted)), None)


def over_out(shim, run, old):
    """What is tried with a run over a file that stands at OUT; refused memory with images alone, since it takes many runs."""
    _, of, script, _ = run
    for row in [*OF_OUT, IN_PLACE, MEMORY] if of == THREE_IMAGES else OF_OUT:
        yield f"edit {script}, over {old or 'IN'}, {row or 'memory'}", over, shim, run, old, row


def of_texts(shim):
    for words, of, *wanted in TOLD:
        yield from of_run(shim, (words, of, "", whole(*wanted, None)), OF_TEXTS)


def of_run(shim, run, streams):
    """What is tried with each run."""
    words, of, script, _ = run
    yield f"{words} {script}, memory", each_fails, shim, run, NO_MEMORY, "REFUSE", {}
    for stream, steps in streams.items():
        for step in steps:
            # a header and its data are read and written in many calls, so only the shortest by few bytes
            if step > 100 or stream in ("script", "answers") or of == SHORTEST[0]:
                row = {"STREAM": stream, "STEP": str(step)}
                yield f"{words} {script}, {row}", each_fails, shim, run, FAULTS[stream], "FAIL", row
    yield f"{words} {script}, a byte a call", slow, shim, run
    yield f"{words} {script}, answers that are stuck", stuck, shim, run, "answers"


def of_checks(shim, streams):
    for of, script, *wanted in CHECKS:
        run = ["edit", "-c"], of, script, whole(*wanted)
        yield f"edit -c {script}, memory", each_fails, shim, run, NO_MEMORY, "REFUSE", {}
        for stream, steps in streams.items():
            # nothing is saved by the first
            if run[3]["saved"] is not None or stream != "saved":
                row = {"STREAM": stream, "STEP": str(steps[-1])}
                yield f"edit -c {script}, {row}", each_fails, shim, run, FAULTS[stream], "FAIL", row
        yield f"edit -c {script}, a byte a call", slow, shim, run
        yield f"edit -c {script}, answers that are stuck", stuck, shim, run, "answers"


def of_stops(shim, streams):
    for run, stops in ((SHORTEST, STOPS), (QUESTIONS, ASKED_STOPS)):
        for stop in stops:
            if stop[0] in streams:
                yield f"{run[1]}, {stop}", stopped, shim, run, *stop


def by_pipe(program, check, *of_row):
    """Where a run comes to something else if the file of its script comes by a pipe."""
    return check(program.by_pipe(), *of_row)


def whole(printed, status, saved, reported=""):
    """What a run comes to that meets no fault."""
    return {"status": status, "printed": printed.encode("latin-1"), "reported": reported.encode("latin-1"), "saved": saved}


def run_of(program, words, of, script):
    return program.edit(of, script.encode("latin-1"), words) if words[0] == "edit" else program.tell(words, of)


def each_fails(program, shim, run, fault, met, row):
    """Where a run whose first, second .. request or call fails ends otherwise than by this fault, up to the first that
    meets none, which has to be whole. So may one be that was refused memory which it can do without."""
    *of_run, wanted = run
    for k in range(1, 100_000):
        ran, count = counted(run_of(program.under(LD_PRELOAD=shim, COUNTED="1", **{met: str(k)}, **row), *of_run))
        if count < k:
            yield from differences(ran, **wanted)
            break
        if fault == NO_MEMORY and not any(differences(ran, **wanted)):
            continue
        for line in fronts(ran, fault, wanted, row.get("STREAM")):
            yield f"the fault at {k}: {line}"
    if k == 1:
        yield "it made no request or call"


def counted(ran):
    """A run, and the number that went to its standard error last."""
    *reported, count = ran.reported.splitlines(keepends=True)
    return dataclasses.replace(ran, reported=b"".join(reported)), int(count)


def fronts(ran, fault, wanted, stream):
    """Where a run doesn't end by a fault of a stream, or printed or saved what isn't a front of the whole. It saves once
    all is printed, so that no fault but one of saving leaves anything saved."""
    yield from differences(ran, status=3, reported=fault)
    if not wanted["printed"].startswith(ran.printed):
        yield f"it prints {shown(ran.printed)}"
    if ran.saved is not None:
        yield from differences(ran, printed=wanted["printed"])
        if stream != "saved" or not (wanted["saved"] or b"").startswith(ran.saved):
            yield f"it saves {shown(ran.saved)}"


def over(program, shim, run, old, row):
    """Where what stands at OUT isn't kept by a run whose first, second .. call or request fails, up to the first that meets
    none, which has to be whole; or where another file is left beside it."""
    _, of, script, wanted = run
    kept, stream = of if old is None else old, row.get("STREAM")
    for k in range(1, 100_000):
        under = {"FAIL" if stream else "REFUSE": str(k), "COUNTED": "1", **row}
        ran, count = counted(program.under(LD_PRELOAD=shim, **under).edit_over(of, script.encode("latin-1"), old))
        if count < k or not stream and ran.status != 3:
            ends = wanted
        else:
            # all is printed before anything is saved
            printed = wanted["printed"][: None if stream == "saved" else len(ran.printed)]
            ends = {"status": 3, "printed": printed, "reported": FAULTS.get(stream, NO_MEMORY), "saved": kept}
        for line in differences(ran, **ends, left=frozenset()):
            yield f"the fault at {k}: {line}"
        if count < k:
            break


def slow(program, shim, run):
    """Where a run comes to something else whose calls move a byte each."""
    *of_run, wanted = run
    return differences(run_of(program.under(LD_PRELOAD=shim, STREAM="each", STEP="1"), *of_run), **wanted)


def stuck(program, shim, run, stream):
    """Where a run doesn't end by a fault of which a stream takes no byte."""
    *of_run, wanted = run
    return fronts(run_of(program.under(LD_PRELOAD=shim, STREAM=stream, STEP="0"), *of_run), WRITE_FAILED, wanted, stream)


def stopped(program, shim, run, stream, count, printed, saved):
    """Where a script prints or saves another number of bytes, or what is no front."""
    of, script, *wanted = run
    row = {"STREAM": stream, "STEP": "1", "STOP": str(count + 1)}
    ran = run_of(program.under(LD_PRELOAD=shim, **row), ["edit"], of, script)
    yield from fronts(ran, FAULTS[stream], whole(*wanted), stream)
    if (len(ran.printed), len(ran.saved or b"")) != (printed, saved):
        yield f"it prints {len(ran.printed)} bytes and saves {shown(ran.saved)}"


ROOM = tempfile.TemporaryDirectory()


def preloaded():
    """The library of faults.c, built."""
    return built("faults.c", ROOM.name)


def built(source, room):
    """The library of a source of this folder, built in a room; rows beside one another find it whole, or build it too."""
    library = f"{room}/{source.replace('.c', '.so')}"
    part = f"{library}.{os.getpid()}.{threading.get_ident()}"
    subprocess.run(["cc", "-shared", "-fPIC", "-O1", "-o", part, os.path.join(os.path.dirname(os.path.abspath(__file__)), source)], check=True)
    os.replace(part, library)
    return library
