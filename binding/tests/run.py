#!/usr/bin/env python3
"""Runs the library over the examples of the repository from C, and the package from Python. What a script comes to is what its
example says. Under sanitizers and by a second compiler where they are installed. With the word `python` the package alone. The last
line is 'N passed, M failed'."""
import os
import pathlib
import shutil
import subprocess
import sys
import tempfile

HERE = pathlib.Path(__file__).resolve().parent
TOP = HERE.parent.parent
OUT = TOP / "crates/fits_c/out"
FLAGS = ["-Wall", "-Wextra", "-pedantic", "-Werror", f"-I{TOP}/binding"]
WRAPPED = [f"-Wl,--wrap={it}" for it in ("malloc", "realloc", "free")]
SANITIZED = ["-g", "-fsanitize=address,undefined", "-fno-sanitize-recover=all"]
HEADER = '#include "fitsed.h"\nint main() { return 0; }\n'

os.environ["FITSED_LIBRARY"] = str(OUT / "libfitsed.so.0")
sys.path.insert(0, str(TOP / "binding/python"))
sys.path.insert(0, str(HERE))


def text(path, default=b""):
    return path.read_bytes() if path.exists() else default


def compiled(room, name, compiler, *words):
    """Whether a program is built, without a warning."""
    ran = subprocess.run([compiler, "-O1", *FLAGS, "-o", room / name, *words], capture_output=True, text=True, check=False)
    return ran.returncode, ran.stdout + ran.stderr


def sanitizes(room, compiler):
    """Whether a compiler has its sanitizers' libraries."""
    (room / "none.c").write_text("int main(void)\n{\n    return 0;\n}\n")
    built = subprocess.run([compiler, *SANITIZED, "-o", room / "none", room / "none.c"], capture_output=True, check=False)
    return built.returncode == 0 and subprocess.run([room / "none"], capture_output=True, check=False).returncode == 0


def programs(room):
    """The modes of each program that is built, and whether it is."""
    calls = str(HERE / "calls.c")
    for compiler in filter(shutil.which, ("gcc", "clang", "cc")):
        if compiler == "cc" and shutil.which("gcc"):
            continue
        static = [calls, str(OUT / "libfitsed.a"), "-pthread"]
        yield f"{compiler}-static", ("run", "lines", "calls", "refuse", "threads"), compiled(room, f"{compiler}-static", compiler, "-std=c11", *static, *WRAPPED)
        if sanitizes(room, compiler):
            yield f"{compiler}-safe", ("run", "lines", "calls"), compiled(room, f"{compiler}-safe", compiler, "-std=c11", *SANITIZED, *static, *WRAPPED)
    shared = [calls, str(OUT / "libfitsed.so.0"), f"-Wl,-rpath,{OUT}", "-pthread", *WRAPPED]
    yield "cc-shared", ("run", "lines", "calls"), compiled(room, "cc-shared", "cc", "-std=c11", *shared)


def headers(room):
    """Where a compiler of C or C++ warns of the header."""
    for compiler, name, standards in (("gcc", "h.c", ("c99", "c17")), ("clang", "h.c", ("c99", "c17")), ("g++", "h.cc", ("c++11", "c++20")), ("clang++", "h.cc", ("c++11", "c++20"))):
        (room / name).write_text(HEADER if name == "h.cc" else HEADER.replace("main()", "main(void)"))
        for standard in standards if shutil.which(compiler) else ():
            ran = subprocess.run([compiler, *FLAGS, f"-std={standard}", "-fsyntax-only", room / name], capture_output=True, text=True, check=False)
            yield f"the header by {compiler} as {standard}", "", ran.stderr


def exported():
    """The names that the shared library has for others, and those that the header declares."""
    names = subprocess.run(["nm", "-D", "--defined-only", OUT / "libfitsed.so.0"], capture_output=True, text=True, check=False).stdout
    declared = {word.split("(")[0].split()[-1] for word in (TOP / "binding/fitsed.h").read_text().split("\n") if word.startswith(("uint8_t fitsed_", "void fitsed_"))}
    yield "names of the library", declared, {it.split()[-1] for it in names.splitlines()}
    needed = subprocess.run(["readelf", "-d", OUT / "libfitsed.so.0"], capture_output=True, text=True, check=False).stdout
    yield "what it needs", ["libc.so.6"], [it.split("[")[1].rstrip("]") for it in needed.splitlines() if "(NEEDED)" in it]
    yield "its soname", ["libfitsed.so.0"], [it.split("[")[1].rstrip("]") for it in needed.splitlines() if "(SONAME)" in it]


def examples():
    """A script over a file, and what it comes to."""
    for folder in sorted((TOP / "examples").iterdir()):
        if (folder / "script").exists() and (folder / "in.fits").exists():
            status = int(text(folder / "status", b"0"))
            yield folder, (status, text(folder / "answers"), text(folder / "out.fits"))


def in_c(room):
    built = []
    for name, modes, said in programs(room):
        yield f"{name} is built", (0, ""), said
        built += [(name, mode) for mode in modes if said[0] == 0]
    for folder, wanted in examples():
        for name, mode in built:
            ran = subprocess.run([room / name, mode, folder / "in.fits", folder / "script", room / "out", room / "answers"], capture_output=True, text=True, check=False)
            came = ran.returncode, text(room / "answers"), text(room / "out")
            yield f"{folder.name}, {mode} of {name}", (*wanted, ""), (*came, ran.stdout + ran.stderr)


def main(words):
    passed, faults = 0, []
    with tempfile.TemporaryDirectory() as folder:
        room = pathlib.Path(folder)

        def rows():
            if not words:
                yield from headers(room)
                yield from exported()
                yield from in_c(room)
            import package  # it wants the library

            yield from package.rows(TOP, list(examples()), room)

        for name, wanted, came in rows():
            if wanted == came:
                passed += 1
            else:
                faults.append(f"FAILED: library: {name}: {came!r}, and not {wanted!r}"[:600])
    print("\n".join(faults + [f"{passed} passed, {len(faults)} failed"]))
    return bool(faults)


if __name__ == "__main__":
    sys.exit(main(sys.argv[1:]))
