"""What the Python package says of files: rows of a name, what is wanted, and what came."""
import array
import os
import pathlib
import subprocess
import sys
import threading

import fitsed

try:
    import numpy
except ImportError:
    numpy = None

# Values of each kind, and what is read back.
VALUES = [
    True, False, 5, -7, "N. Night", "it's", "", "x" * 200, fitsed.UNDEFINED, fitsed.Real("1.5D3"), fitsed.Complex("1.0", "-2.5E3"),
]
# The least and the greatest value of each type of pixels, as a line `new` names it.
KINDS = [
    ("u8", 0, 255), ("i8", -128, 127), ("i16", -32768, 32767), ("u16", 0, 65535), ("i32", -(2**31), 2**31 - 1), ("u32", 0, 2**32 - 1),
    ("i64", -(2**63), 2**63 - 1),
]


def refusal(run, *words):
    """What a call raises."""
    try:
        run(*words)
    except Exception as why:  # pylint: disable=broad-except
        return type(why).__name__, getattr(why, "number", None), getattr(why, "word", None)
    return None


def by_lines(file, script):
    """The status, the answers as a script prints them, and the bytes, of a session."""
    text, status = "", 0
    with fitsed.open(file) as it:
        for number, line in enumerate(script.splitlines(), 1):
            try:
                text += it.line(line)
            except fitsed.Refused as why:
                words = {16: "too long", 17: "not a command"}.get(why.number, f"refused {why.number} {why.word}")
                status, text = 1, f"{text}line {number}: {words}\n"
        return status, text.encode("latin-1"), it.tobytes()


def flat(pixels):
    """Pixels in file order, as numbers."""
    return [int(it) for it in (pixels.reshape(-1) if hasattr(pixels, "reshape") else pixels)]


def of_examples(top, examples):
    for folder, (status, answers, saved) in examples:
        file, script = (folder / "in.fits").read_bytes(), (folder / "script").read_bytes().decode("latin-1")
        text = answers.decode("latin-1")
        yield f"{folder.name} in one run", (status, text, saved), tuple(fitsed.edit(file, script))
        yield f"{folder.name} asked", (status, text, b""), tuple(fitsed.ask(file, script))
        yield f"{folder.name} whole", (status, text, b"" if status else saved), tuple(fitsed.edit(file, script, whole=True))
        yield f"{folder.name} by lines", (status, answers, saved), by_lines(file, script)
        yield f"{folder.name} of a bytearray", saved, fitsed.edit(bytearray(file), script).saved
    program = top / "crates/fitsed/out/fitsed"
    for path in sorted((top / "examples").glob("*/*.fits")) if program.exists() else ():
        for call, words in ((fitsed.hdus, ["list"]), (fitsed.sums, ["sum"]), (fitsed.stats, ["stat"]), (fitsed.cards, ["cards"])):
            ran = subprocess.run([program, *words, path], capture_output=True, text=True, check=False)
            yield f"{words[0]} of {path.parent.name}", len(ran.stdout.splitlines()), len(call(path))
        ran = subprocess.run([program, "verify", path], capture_output=True, text=True, check=False)
        yield f"verify of {path.parent.name}", ran.stdout.splitlines()[:-1], [f"{it.code} {it.hdu} {it.place} {it.text}" for it in fitsed.verify(path)]


def of_values(file):
    with fitsed.open(file) as it:
        yield "a real number stays text", ("1.5D3", 1500.0, "Real"), (it.get(2, "EXPTIME"), float(it.get(2, "EXPTIME")), type(it.get(2, "EXPTIME")).__name__)
        yield "its comment", "exposure in seconds", it.value(2, "EXPTIME")[1]
        for value in VALUES:
            it.set(2, "TRIED", value)
            yield f"{value!r} is read back", (value, None), it.value(2, "TRIED")
        it.set(2, "TRIED", 5, "a comment")
        yield "a comment", (5, "a comment"), it.value(2, "TRIED")
        it.set(2, "TRIED", 1e20)
        yield "a float is spelled", "1.E+20", it.get(2, "TRIED")
        it.set(2, "TRIED", 1.5 - 2j)
        yield "and a complex one", 1.5 - 2j, complex(it.get(2, "TRIED"))
        yield "one that isn't finite", ("ValueError", None, None), refusal(it.set, 2, "TRIED", float("inf"))
        it.unset(2, "TRIED")
        yield "no such key", ("Refused", 3, "NoKey"), refusal(it.get, 2, "TRIED")
        yield "a name of nine letters", ("Refused", 3, "NoKey"), refusal(it.get, 2, "NINECHARS")
        yield "a default", 9, it.get(2, "TRIED", 9)
        yield "the file is as before", file, it.tobytes()


def of_refusals(file):
    yield "no bytes are no file", ("NotOpened", 1, "NotFits"), refusal(fitsed.open, b"")
    yield "nor for a run", ("NotOpened", 1, "NotFits"), refusal(fitsed.edit, b"SIMPLE", "")
    try:
        fitsed.open(file[:2880] + file[2880:5760].replace(b"NAXIS1  =", b"NAXIS9  =") + file[5760:])
    except fitsed.NotOpened as why:
        yield "where a file has a fault", (3, 2, 4), (why.number, why.hdu, why.card)
    with fitsed.open(file) as it:
        yield "a line feed", ("ValueError", None, None), refusal(it.line, "off\noff")
        yield "no command", ("Refused", 17, "NoCommand"), refusal(it.line, "frobnicate")
        yield "a long line", ("Refused", 16, "TooLong"), refusal(it.line, "#" * 100001)
        yield "the shape stays", ("Refused", 6, "Shape"), refusal(it.line, "ins 2 4 NAXIS   =                    1")
        try:
            it.edit(["off", "get 2 NAXIS", "get 9 NAXIS", "rm 2"])
        except fitsed.Refused as why:
            yield "which line it was", (1, 2, "get 9 NAXIS"), (why.number, why.index, why.line)
        yield "no line after it was done", 2, len(it.hdus())
        yield "a bad rectangle", ("Refused", 10, "BadRect"), refusal(it.rect, 2, (1, 1), (4, 2))
        yield "no image", ("Refused", 9, "NotImage"), refusal(it.rect, 1, (1,), (1,))
        yield "no such HDU", ("Refused", 1, "NoHdu"), refusal(it.axes, 3)
        yield "too few values", ("Refused", 11, "WrongCount"), refusal(it.write, 2, (1, 1), (3, 2), [1, 2, 3, 4, 5])
        yield "too great a value", ("Refused", 12, "Range"), refusal(it.write, 2, (1, 1), (3, 2), [1, 2, 3, 4, 5, 1 << 40])
        yield "one past all", ("Refused", 12, "Range"), refusal(it.write, 2, (1, 1), (3, 2), [1, 2, 3, 4, 5, 1 << 70])
        yield "a corner before the first pixel", ("Refused", 10, "BadRect"), refusal(it.write, 2, (0, 1), (3, 2), [1, 2, 3, 4, 5, 6])
        yield "the file is as before them", file, it.tobytes()
    yield "a closed file", ("ValueError", None, None), refusal(it.line, "off")


def of_pixels(file):
    with fitsed.open(file) as it:
        yield "axes", (3, 2), it.axes(2)
        yield "offsets", [(0, 2880, 2880), (2880, 5760, 8640)], [tuple(at) for at in it.offsets()]
        values = [int(word) for word in it.line("rect 2 1:3,1:2").split()]
        yield "a rectangle is what its line says", values, flat(it.rect(2, (1, 1), (3, 2)))
        yield "a part of it", [values[1], values[2], values[4], values[5]], flat(it.rect(2, (2, 1), (3, 2)))
        yield "an image is its pixels", values, flat(it.image(2))
        for kind, least, greatest in KINDS:
            it.line(f"new 3 {kind} 2,2")
            it.write(3, (1, 1), (2, 2), [least, greatest, 1, 100])
            yield f"an image of {kind}", [least, greatest, 1, 100], flat(it.image(3))
            yield f"its rectangle", [least, greatest, 1, 100], flat(it.rect(3, (1, 1), (2, 2)))
            it.line("rm 3")
        it.line("new 3 u64 2")
        it.write(3, (1,), (2,), [5, 2**64 - 1])
        yield "numbers without a sign", [5, 2**64 - 1], flat(it.rect(3, (1,), (2,)))
        yield "as an image", [5, 2**64 - 1], flat(it.image(3))
        yield "their statistics", fitsed.Stats(2, 0, 5, 2**64 - 1, 2**64 + 4), it.stats(3)
        yield "a number below them", ("Refused", 12, "Range"), refusal(it.write, 3, (1,), (2,), [5, -1])
        it.line("rm 3")
        it.line("new 3 i64 2")
        it.fill(3, (1,), (2,), -(2**63))
        yield "a sum past 64 bits", fitsed.Stats(2, 0, -(2**63), -(2**63), -(2**64)), it.stats(3)
        it.set(3, "BLANK", -(2**63))
        yield "no pixel with a value", fitsed.Stats(0, 2, None, None, 0), it.stats(3)
        it.line("rm 3")
        it.line("new 3 i16 3,4,5")
        it.write(3, (1, 1, 1), (3, 4, 5), range(60))
        yield "rows of a cube", [x + 3 * y + 12 * z for z in (1, 2, 4) for y in (1, 2) for x in (1, 2)], [
            pixel for z in (2, 3, 5) for pixel in flat(it.rect(3, (2, 2, z), (3, 3, z)))
        ]
        yield "a part of it", [x + 3 * y + 12 * z for z in range(1, 5) for y in range(3) for x in (0, 1)], flat(it.rect(3, (1, 1, 2), (2, 3, 5)))
        yield "a corner of it", [59], flat(it.rect(3, (3, 4, 5), (3, 4, 5)))
        it.line("rm 3")
        it.write(2, (1, 1), (3, 2), array.array("q", [1, 2, 3, 4, 5, 6]))
        yield "what was written", fitsed.Stats(6, 0, 1, 6, 21), it.stats(2)
        it.fill(2, (1, 1), (1, 2), 9)
        yield "what was filled", [9, 2, 3, 9, 5, 6], flat(it.image(2))
        it.line("new 3 i32 300,200")
        many = [i * 17 - 90000 for i in range(60000)]
        it.write(3, (1, 1), (300, 200), many)
        yield "more than a line may say", many, flat(it.image(3))
        if numpy is not None:
            it.write(2, (1, 1), (3, 2), numpy.array([[7, 8, 9], [10, 11, 12]], "i2"))
            yield "rows of numpy are rows of the file", [7, 8, 9, 10, 11, 12], flat(it.rect(2, (1, 1), (3, 2)))
            yield "its own type", ("int16", (2, 3)), (str(it.image(2).dtype), it.image(2).shape)


def of_astropy(room):
    """Arrays that astropy wrote, and what it reads of those that are written here."""
    try:
        from astropy.io import fits
    except ImportError:
        print("no array is read that astropy wrote: it isn't installed", file=sys.stderr)
        return
    for kind in ("uint8", "int8", "int16", "uint16", "int32", "uint32", "int64", "uint64"):
        ends = numpy.iinfo(kind)
        values = numpy.array([[ends.min, ends.max, 1], [2, 3, 100]], kind)
        path = room / f"{kind}.fits"
        fits.PrimaryHDU(values).writeto(path, checksum=True)
        with fitsed.open(path) as it:
            yield f"{kind} that astropy wrote", (kind, values.tolist()), (str(it.image(1).dtype), it.image(1).tolist())
            yield f"the rectangle of {kind}", values.tolist(), it.rect(1, (1, 1), (3, 2)).tolist()
            yield f"the sums of {kind}", (1, 1), it.sums(1)[1:]
            it.write(1, (1, 1), (3, 2), values[::-1])
            it.stamp(1)
            it.save(path)
        with fits.open(path, checksum=True) as it:
            yield f"{kind} for astropy", values[::-1].tolist(), it[0].data.tolist()


def of_sums(file):
    with fitsed.open(file) as it:
        yield "no sums yet", (0, 0), it.sums(2)[1:]
        it.keep(2)
        it.set(2, "OBSERVER", "N. Night")
        yield "kept right", (1, 1), it.sums(2)[1:]
        yield "of the bytes too", fitsed.sums(it.tobytes())[1], it.sums(2)
        it.release(2)
        it.set(2, "OBSERVER", "M. Day")
        yield "and no longer", -1, it.sums(2).checksum_verdict
        yield "a report", [("W", 2)], sorted({(found.code[0], found.hdu) for found in it.verify()})


def of_saving(file, room):
    path = room / "saved.fits"
    with fitsed.open(file) as it:
        it.stamp(1)
        it.save(path)
        yield "saved", path.read_bytes(), it.tobytes()
        os.chmod(path, 0o600)
        it.stamp(2)
        it.save(path)
        yield "saved again", (path.read_bytes(), 0o600), (bytes(it), path.stat().st_mode & 0o777)
        yield "nothing beside it", [], [beside.name for beside in room.iterdir() if ".fitsed-" in beside.name]
    with fitsed.open(path) as it:
        yield "opened by its path", path.read_bytes(), it.tobytes()


def of_threads(file):
    results = [False] * 10

    def work(i):
        good = True
        for k in range(50):
            with fitsed.open(file) as it:
                it.set(2, "THREAD", i * 1000 + k)
                good = good and it.get(2, "THREAD") == i * 1000 + k and fitsed.ask(file, "get 2 EXPTIME").answers[:4] == "real"
        results[i] = good

    threads = [threading.Thread(target=work, args=(i,)) for i in range(10)]
    for it in threads:
        it.start()
    for it in threads:
        it.join()
    yield "ten threads", [True] * 10, results


def of_installing(top, room):
    """The package as pip installs it, without a network, and its wheel."""
    target = room / "site"
    pip = [sys.executable, "-m", "pip", "install", "-q", "--no-index", "--no-deps", "--disable-pip-version-check", "--target", target, top / "binding/python"]
    if subprocess.run([sys.executable, "-m", "pip", "--version"], capture_output=True, check=False).returncode:
        print("the package isn't installed: pip isn't there", file=sys.stderr)
        return
    yield "pip installs it", 0, subprocess.run(pip, capture_output=True, check=False, env={**os.environ, "PIP_ROOT_USER_ACTION": "ignore"}).returncode
    said = "import fitsed, sys; print(fitsed.__file__.startswith(sys.argv[1]), len(fitsed.hdus(sys.argv[2])))"
    example = top / "examples/a_keyword_in_an_extension/in.fits"
    run = [sys.executable, "-c", said, target, example]
    yield "and it runs", "True 2\n", subprocess.run(run, capture_output=True, text=True, check=False, cwd=room, env={**os.environ, "PYTHONPATH": str(target)}).stdout
    subprocess.run(["sh", top / "packaging/wheel.sh", room], capture_output=True, check=False)
    wheels = list(room.glob("*.whl"))
    subprocess.run([*pip[:-3], "--target", room / "wheel", *wheels], capture_output=True, check=False, env={**os.environ, "PIP_ROOT_USER_ACTION": "ignore"})
    alone = {key: word for key, word in os.environ.items() if key != "FITSED_LIBRARY"}
    run[3] = room / "wheel"
    yield "the wheel has the library", "True 2\n", subprocess.run(run, capture_output=True, text=True, check=False, cwd=room, env={**alone, "PYTHONPATH": str(room / "wheel")}).stdout


def rows(top, examples, room):
    """All of them."""
    top = pathlib.Path(top)
    file = (top / "examples/a_keyword_in_an_extension/in.fits").read_bytes()
    yield from of_examples(top, examples)
    yield from of_values(file)
    yield from of_refusals(file)
    yield from of_pixels(file)
    yield from of_astropy(room)
    yield from of_sums(file)
    yield from of_saving(file, room)
    yield from of_threads(file)
    yield from of_installing(top, room)
