"""What other programs make of the same: astropy, its `fitsdiff`, CFITSIO and `gethead`, each where it is installed, beside `ren`,
`val`, `keys` and `diff`."""
import ctypes
import ctypes.util
import functools
import json
import os
import shutil
import subprocess
import sys

from commands import with_cards
from program import differences

SUBJECT = with_cards(
    "OBJECT  = 'M31     '           / the galaxy|EXPTIME =               1500.0 / in seconds|COUNT   =                   42|"
    "READY   =                    T / for use|HISTORY a line"
)
OTHER = SUBJECT.replace(b"'M31     '", b"'M32     '")

# A line, and what astropy does to the header in its place.
EDITS = [
    ("ren 1 OBJECT TARGET", "header.rename_keyword('OBJECT', 'TARGET')"),
    ("ren 1 COUNT NUMBER", "header.rename_keyword('COUNT', 'NUMBER')"),
    ("val 1 EXPTIME 1250.0", "header['EXPTIME'] = 1250.0"),
    ("val 1 OBJECT 'M 33'", "header['OBJECT'] = 'M 33'"),
    ("val 1 READY F", "header['READY'] = False"),
    ("note 1 COUNT of frames", "header.comments['COUNT'] = 'of frames'"),
]

# Keywords of a table, and what astropy says of them.
NAMES = ["OBJECT", "COUNT", "EXPTIME"]

# Two files, and whether they differ.
PAIRS = [(SUBJECT, SUBJECT), (SUBJECT, OTHER), (OTHER, SUBJECT)]

CARDS = "[[c.keyword, c.value, c.comment] for c in header.cards]"


@functools.cache
def python():
    """A Python that has astropy, if there is one."""
    has = lambda path: subprocess.run([path, "-c", "import astropy"], capture_output=True, check=False).returncode == 0
    return next((path for path in (sys.executable, "/usr/bin/python3") if os.path.exists(path) and has(path)), None)


def astropy(room, lines):
    """What astropy prints as JSON, of these lines of Python in a folder."""
    text = "import json\nfrom astropy.io import fits\n" + lines
    ran = subprocess.run([python(), "-W", "ignore", "-c", text], cwd=room, capture_output=True, check=True, timeout=60)
    return json.loads(ran.stdout)


def cases():
    if python():
        for line, change in EDITS:
            yield f"astropy, {line}", edited, line, change
        yield "astropy, keys", told
        for first, second in PAIRS:
            yield f"fitsdiff, {first == second}", compared, first, second
    if ctypes.util.find_library("cfitsio"):
        yield "CFITSIO, ren", renamed
    if shutil.which("gethead"):
        yield "gethead, keys", got


def edited(program, line, change):
    """Where astropy reads another header of what is saved than its own change leaves."""
    saved = program.edit(SUBJECT, line.encode(), ["edit", "-x"]).saved
    with program.room({"in.fits": SUBJECT, "out.fits": saved}) as room:
        own = astropy(room, f"header = fits.getheader('in.fits')\n{change}\nprint(json.dumps({CARDS}))")
        read = astropy(room, f"header = fits.getheader('out.fits')\nprint(json.dumps({CARDS}))")
    if own != read:
        yield f"{read}, and not {own}"


def told(program):
    """Where a table has other values than astropy."""
    words = [word for name in NAMES for word in ("-k", name)]
    ran = program.tell(["keys", *words], SUBJECT)
    fields = ran.printed.decode().splitlines()[1].split("\t")[1:]
    with program.room({"in.fits": SUBJECT}) as room:
        own = astropy(room, f"header = fits.getheader('in.fits')\nprint(json.dumps([str(header[n]) for n in {NAMES}]))")
    if fields != own:
        yield f"{fields}, and not {own}"


def compared(program, first, second):
    """Where `diff` finds two files alike that fitsdiff doesn't, or the other way round."""
    files = {"a.fits": first, "b.fits": second}
    ran, _ = program.over(["diff", "a.fits", "b.fits"], files, b"")
    with program.room(files) as room:
        same = astropy(room, "print(json.dumps(fits.FITSDiff('a.fits', 'b.fits').identical))")
    if (ran.status == 0) != same:
        yield f"status {ran.status}, and fitsdiff says {same}"


def renamed(program):
    """Where CFITSIO leaves another file as it gives a keyword another name."""
    library = ctypes.CDLL(ctypes.util.find_library("cfitsio"))
    with program.room({"in.fits": SUBJECT}) as room:
        path = os.path.join(room, "in.fits")
        file, status = ctypes.c_void_p(), ctypes.c_int(0)
        library.ffopen(ctypes.byref(file), path.encode(), 1, ctypes.byref(status))
        library.ffmnam(file, b"OBJECT", b"TARGET", ctypes.byref(status))
        library.ffclos(file, ctypes.byref(status))
        with open(path, "rb") as it:
            own = it.read()
    if status.value:
        yield f"CFITSIO ends with {status.value}"
    yield from differences(program.edit(SUBJECT, b"ren 1 OBJECT TARGET", ["edit", "-x"]), saved=own)


def got(program):
    """Where gethead has another value than a table."""
    ran = program.tell(["keys", "-k", "OBJECT"], SUBJECT)
    with program.room({"in.fits": SUBJECT}) as room:
        own = subprocess.run(["gethead", "in.fits", "OBJECT"], cwd=room, capture_output=True, check=False, timeout=60).stdout.decode().strip()
    if ran.printed.decode().splitlines()[1].split("\t")[1] != own:
        yield f"{ran.printed}, and not {own}"
