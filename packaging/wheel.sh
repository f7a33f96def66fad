#!/bin/sh
# Makes the wheel of the Python package, with the library in it: wheel.sh FOLDER.
set -eu
to=$(realpath "$1")
cd "$(dirname "$0")/.."
room=$(mktemp -d)
trap 'rm -rf "$room"' EXIT
cp -r binding/python/. "$room"
cp crates/fits_c/out/libfitsed.so.0 "$room/fitsed/"
strip --strip-unneeded "$room/fitsed/libfitsed.so.0"
cd "$room"
python3 -B -c "import sys, build_wheel; print(build_wheel.build_wheel(sys.argv[1]))" "$to"
