"""Sessions of the documents, typed as they stand: what is printed is what stands below each command."""
import os
import pathlib
import re
import shutil
import subprocess
import tempfile

import library

TOP = pathlib.Path(__file__).resolve().parent.parent

# Documents with blocks of sessions, which go on from block to block.
DOCUMENTS = ["README.md", "docs/GUIDE.md"]
if library.fitsed:
    DOCUMENTS.append("docs/LIBRARY.md")
MANUAL = "man/fitsed.1"

# What goes on without it, where it isn't built.
OF_LIBRARY = re.compile(r"^## Files in memory$.*?(?=^## )", re.S | re.M)

# What stands for a character in a text of the manual page.
ROFF = {r"\(aq": "'", r"\(dq": '"', r"\-": "-", r"\e": "\\", r"\&": ""}


def cases():
    for name in DOCUMENTS:
        text = (TOP / name).read_text(encoding="utf-8")
        text = text if library.fitsed else OF_LIBRARY.sub("", text)
        yield name, typed, "".join(re.findall(r"^```console\n(\$ .*?)^```$", text, re.S | re.M))
    yield MANUAL, typed, examples((TOP / MANUAL).read_text(encoding="utf-8"))


def examples(page):
    """The sessions of a manual page's examples."""
    text = page.partition(".SH EXAMPLES\n")[2].partition("\n.SH ")[0]
    blocks = "".join(re.findall(r"^\.RS\n(.*?)^\.RE$", text, re.S | re.M))
    return re.sub(r"\\(?:\(..|.)", lambda it: ROFF[it[0]], blocks)


def typed(program, text):
    """Where a command of a session prints something else. A folder of its own has the examples."""
    steps = list(commands(text))
    if not steps:
        yield "it has no session"
    with tempfile.TemporaryDirectory() as room:
        (pathlib.Path(room) / "bin").mkdir()
        os.symlink(program.path, f"{room}/bin/fitsed")
        shutil.copytree(TOP / "examples", f"{room}/examples")
        script = "exec 2>&1\n" + "".join(f"{command}\nstatus=$?; echo '@{k}'; (exit $status)\n" for k, (command, _) in enumerate(steps))
        # the library as it stands where it is built
        places = {"C_INCLUDE_PATH": f"{TOP}/binding", "LIBRARY_PATH": f"{TOP}/crates/fits_c/out", "PYTHONPATH": f"{TOP}/binding/python"}
        words = {**os.environ, **places, "PYTHONDONTWRITEBYTECODE": "1", "PATH": f"{room}/bin:{os.environ['PATH']}"}
        ran = subprocess.run(["sh"], cwd=room, input=script, env=words, capture_output=True, text=True, timeout=60)
    rest = ran.stdout
    for k, (command, wanted) in enumerate(steps):
        printed, mark, rest = rest.partition(f"@{k}\n")
        if not mark or printed != wanted:
            yield f"{command!r} prints {printed!r}, and not {wanted!r}"


def commands(text):
    """Each command of a session, with what stands below it. A command goes on in lines that are indented by four spaces, and
    in those of its here-document."""
    lines = text.splitlines()
    while lines:
        first = lines.pop(0)
        if not first.startswith("$ "):
            continue
        command, printed = [first[2:]], []
        while lines and lines[0].startswith("    ") and command[-1].endswith(("\\", "|")):
            command.append(lines.pop(0))
        if "<< 'END'" in first:
            while command[-1] != "END":
                command.append(lines.pop(0))
        while lines and not lines[0].startswith("$ "):
            printed.append(lines.pop(0) + "\n")
        yield "\n".join(command), "".join(printed)
