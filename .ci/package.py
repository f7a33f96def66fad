#!/usr/bin/env python3
"""What is given away: the Debian package unpacked and run, the archive of a release, completions, and one version everywhere."""
import hashlib
import os
import pathlib
import re
import shutil
import subprocess
import sys
import tempfile

TOP = pathlib.Path(__file__).resolve().parent.parent
PROGRAM = TOP / "crates/fitsed/out/fitsed"
LIBRARY = [TOP / f"crates/fits_c/out/{name}" for name in ("libfitsed.a", "libfitsed.so.0")]
EXAMPLE = "examples/a_keyword_in_an_extension/in.fits"


def said(*words, **options):
    """What a command prints."""
    return subprocess.run(words, capture_output=True, text=True, check=False, cwd=TOP, **options).stdout


def versions():
    """The version where each of its readers looks for it."""
    yield "the help", said("sh", "packaging/version.sh").strip()
    yield "the program", said(PROGRAM, "--version").split()[-1]
    yield "the manual", re.search(r'^\.TH FITSED 1 \S+ "fitsed (\S+)"', (TOP / "man/fitsed.1").read_text())[1]
    yield "the header", re.search(r'FITSED_VERSION "(.*)"', (TOP / "binding/fitsed.h").read_text())[1]
    yield "the Python package", re.search(r'^__version__ = "(.*)"', (TOP / "binding/python/fitsed/__init__.py").read_text(), re.M)[1]
    yield "the changelog", re.search(r"^## (\d\S*?),? ", (TOP / "CHANGELOG.md").read_text(), re.M)[1]


def completed(*words):
    """What bash makes of these words and the beginning of another."""
    script = f"source packaging/fitsed.bash; COMP_WORDS=(fitsed {' '.join(words)} --); COMP_CWORD={len(words) + 1}; _fitsed; echo ${{COMPREPLY[@]}}"
    return set(said("bash", "-c", script).split())


def completions():
    """Where a command's help and the completions have other flags."""
    commands = re.findall(r"^  (\w+) ", said(PROGRAM, "--help").partition("Commands:")[2].partition("Options:")[0], re.M)
    for command in sorted(set(commands) - {"help"}):
        wanted = set(re.findall(r"(?:^|\s)(--[a-z0-9-]+)", said(PROGRAM, command, "--help").partition("Options:")[2].partition("\n\n")[0]))
        yield f"completions of {command}", wanted, completed(command)


def package(room):
    """The package, twice the same, unpacked into a folder."""
    made = [room / "a.deb", room / "b.deb"]
    for file in made:
        said("sh", "packaging/deb.sh", PROGRAM, file)
    yield "the package is made", True, all(it.exists() for it in made)
    yield "it is the same to the byte", *(it.read_bytes() for it in made)
    said("dpkg-deb", "-x", made[0], room / "root")
    installed = room / "root/usr"
    documents = installed / "share/doc/fitsed"
    yield "its version", said(PROGRAM, "--version"), said(installed / "bin/fitsed", "--version")
    yield "its example", said(PROGRAM, "list", EXAMPLE), said(installed / "bin/fitsed", "list", documents / EXAMPLE)
    for name in ("share/man/man1/fitsed.1.gz", "share/bash-completion/completions/fitsed"):
        yield f"it has {name}", True, (installed / name).exists()
    for name in ("copyright", "changelog.gz", "README.md", "GUIDE.md", "RULES.md"):
        yield f"it has {name}", True, (documents / name).exists()
    if shutil.which("lintian"):
        yield "lintian finds no error", "", "".join(it for it in said("lintian", made[0]).splitlines(True) if it.startswith("E:"))


def library_packages(room):
    """Those of the library, unpacked into one folder, and used from there."""
    said("sh", "packaging/library_debs.sh", room / "debs")
    made = sorted((room / "debs").glob("*.deb"))
    yield "the packages of the library", ["libfitsed-dev", "libfitsed0", "python3-fitsed"], [it.name.partition("_")[0] for it in made]
    said("sh", "packaging/library_debs.sh", room / "again")
    yield "they are the same to the byte", [it.read_bytes() for it in made], [it.read_bytes() for it in sorted((room / "again").glob("*.deb"))]
    for file in made:
        said("dpkg-deb", "-x", file, room / "library")
    usr = room / "library/usr"
    here = usr / "lib/x86_64-linux-gnu"
    words = {**os.environ, "LD_LIBRARY_PATH": str(here), "PYTHONPATH": str(usr / "lib/python3/dist-packages")}
    hdus = len(said(PROGRAM, "list", EXAMPLE).splitlines())
    script = f"import fitsed; print(len(fitsed.hdus('{EXAMPLE}')))"
    yield "the Python package runs", f"{hdus}\n", said(sys.executable, "-B", "-c", script, env=words)
    if shutil.which("cc"):
        said("cc", f"-I{usr}/include", f"-L{here}", "-o", room / "pipeline", "examples/pipeline/pipeline.c", "-lfitsed")
        yield "a program in C runs", "10 of 10\n", said(room / "pipeline", EXAMPLE, "10", env=words)
    if shutil.which("pkg-config"):
        yield "pkg-config has it", "-lfitsed", said("pkg-config", "--libs-only-l", "fitsed", env={**os.environ, "PKG_CONFIG_PATH": str(here / "pkgconfig")}).strip()
    if shutil.which("lintian"):
        yield "lintian finds no error in them", "", "".join(it for it in said("lintian", *made).splitlines(True) if it.startswith("E:"))


def release(room):
    """What is given away, made in a clone."""
    clone = room / "clone"
    said("git", "clone", "-q", TOP, clone)
    for built in (PROGRAM, *LIBRARY):
        (clone / built.relative_to(TOP)).parent.mkdir(exist_ok=True)
        shutil.copy(built, clone / built.relative_to(TOP))
    subprocess.run(["sh", "packaging/dist.sh"], cwd=clone, capture_output=True, check=False)
    files = sorted(it.name for it in (clone / "dist").glob("*"))
    version = said("sh", "packaging/version.sh").strip()
    archives = [f"fitsed-{version}-py3-none-manylinux_2_17_x86_64.whl", f"fitsed-{version}.proof", f"fitsed-{version}.tar.gz"]
    debs = [f"fitsed_{version}_amd64.deb", f"libfitsed-dev_{version}_amd64.deb", f"libfitsed0_{version}_amd64.deb", f"python3-fitsed_{version}_all.deb"]
    yield "the files of a release", ["SHA256SUMS", *archives, *debs], files
    for line in (clone / "dist/SHA256SUMS").read_text().splitlines():
        total, name = line.split()
        yield f"the sum of {name}", total, hashlib.sha256((clone / "dist" / name).read_bytes()).hexdigest()
    proof = (clone / f"dist/fitsed-{version}.proof").read_text()
    yield "the proof names the commit", True, f"commit {said('git', 'rev-parse', 'HEAD').strip()}" in proof
    yield "and the program", True, f"program {hashlib.sha256(PROGRAM.read_bytes()).hexdigest()}" in proof
    said("dpkg-deb", "-x", clone / f"dist/fitsed_{version}_amd64.deb", room / "packed")
    yield "and that of the package", True, f"packed {hashlib.sha256((room / 'packed/usr/bin/fitsed').read_bytes()).hexdigest()}" in proof


def without_toolchain(room):
    """A clone on a machine without the toolchain."""
    clone = room / "plain"
    (clone / "bin").mkdir(parents=True)
    shutil.copy(TOP / "bin/fitsed", clone / "bin/fitsed")
    ran = subprocess.run(["sh", "bin/fitsed", "--version"], cwd=clone, capture_output=True, text=True, check=False, env={"PATH": "/usr/bin:/bin"})
    yield "without the toolchain", (3, "", 1), (ran.returncode, ran.stdout, ran.stderr.count("\n"))


def rows():
    """What each is to be, and what it is."""
    found = list(versions())
    for name, version in found:
        yield f"the version of {name}", found[0][1], version
    yield from completions()
    with tempfile.TemporaryDirectory() as room:
        yield from without_toolchain(pathlib.Path(room))
        lacks = [it for it in ("dpkg-deb", "strip", "readelf", "git") if not shutil.which(it)]
        if lacks:
            print(f"no package is made: {', '.join(lacks)} not installed", file=sys.stderr)
            return
        yield from package(pathlib.Path(room))
        if not all(it.exists() for it in LIBRARY):
            yield "the library is built", True, False
            return
        yield from library_packages(pathlib.Path(room))
        if not said("git", "rev-parse", "HEAD"):
            print("no release is made: these sources are no repository", file=sys.stderr)
            return
        yield from release(pathlib.Path(room))


def main():
    passed, faults = 0, []
    for name, wanted, came in rows():
        if wanted == came:
            passed += 1
        else:
            faults.append(f"FAILED: package: {name}: {came!r}, and not {wanted!r}"[:400])
    print("\n".join(faults + [f"{passed} passed, {len(faults)} failed"]))
    return bool(faults)


if __name__ == "__main__":
    sys.exit(main())
