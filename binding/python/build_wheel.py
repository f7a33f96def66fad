"""Makes the wheel of the package with Python alone: it carries libfitsed.so.0 where that stands in fitsed/."""
import base64
import hashlib
import pathlib
import re
import zipfile

HERE = pathlib.Path(__file__).resolve().parent
PACKAGE = HERE / "fitsed"
VERSION = re.search(r'^__version__ = "(.*)"$', (PACKAGE / "__init__.py").read_text(), re.M)[1]
METADATA = f"""\
Metadata-Version: 2.1
Name: fitsed
Version: {VERSION}
Summary: FITS files in memory, verified and corrected by checked commands
License: MIT OR Apache-2.0
Requires-Python: >=3.9
"""


def build_wheel(wheel_directory, config_settings=None, metadata_directory=None):
    """Writes the wheel into a folder, and gives its name."""
    native = (PACKAGE / "libfitsed.so.0").exists()
    # the library asks for glibc 2.14, and for x86-64-v2
    tag = "py3-none-manylinux_2_17_x86_64" if native else "py3-none-any"
    name, about = f"fitsed-{VERSION}-{tag}.whl", f"fitsed-{VERSION}.dist-info"
    kind = f"Wheel-Version: 1.0\nGenerator: fitsed\nRoot-Is-Purelib: {str(not native).lower()}\nTag: {tag}\n"
    files = {f"fitsed/{it.name}": it.read_bytes() for it in sorted(PACKAGE.iterdir()) if it.is_file()}
    files |= {f"{about}/METADATA": METADATA.encode(), f"{about}/WHEEL": kind.encode()}
    record = [f"{path},sha256={digest(what)},{len(what)}\n" for path, what in files.items()] + [f"{about}/RECORD,,\n"]
    with zipfile.ZipFile(pathlib.Path(wheel_directory) / name, "w", zipfile.ZIP_DEFLATED) as wheel:
        for path, what in {**files, f"{about}/RECORD": "".join(record).encode()}.items():
            wheel.writestr(zipfile.ZipInfo(path), what, zipfile.ZIP_DEFLATED)
    return name


def digest(what):
    return base64.urlsafe_b64encode(hashlib.sha256(what).digest()).rstrip(b"=").decode()
