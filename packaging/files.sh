#!/bin/sh
# Puts what is installed under a folder: program, manual page, completions, documents.
# files.sh PROGRAM FOLDER [PREFIX]; PREFIX is /usr/local if it isn't given.
set -eu
cd "$(dirname "$0")/.."
program=$1 to=$2${3-/usr/local}
documents=$to/share/doc/fitsed
install -d "$to/bin" "$to/share/man/man1" "$to/share/bash-completion/completions" "$documents"
install -m 755 "$program" "$to/bin/fitsed"
install -m 644 man/fitsed.1 "$to/share/man/man1/fitsed.1"
install -m 644 packaging/fitsed.bash "$to/share/bash-completion/completions/fitsed"
install -m 644 README.md docs/GUIDE.md docs/RULES.md docs/PROVED.md docs/DEFINITIONS.md CHANGELOG.md LICENSE-MIT LICENSE-APACHE "$documents/"
find examples -type f -exec install -D -m 644 {} "$documents/{}" \;
