#!/bin/sh
# Makes what is given away, in dist/: the sources, the Debian packages, the wheel, what the proof said, and the sums of these.
set -eu
cd "$(dirname "$0")/.."
version=$(sh packaging/version.sh)
rm -rf dist
mkdir -p dist
git archive --prefix="fitsed-$version/" HEAD | gzip -9n >"dist/fitsed-$version.tar.gz"
sh packaging/deb.sh crates/fitsed/out/fitsed "dist/fitsed_${version}_amd64.deb"
sh packaging/library_debs.sh dist
sh packaging/wheel.sh dist
{
    echo "commit $(git rev-parse HEAD)$(git diff --quiet HEAD || echo ', with changes')"
    echo "kit $(cat /opt/rattle/KIT-ID 2>/dev/null || rt --version)"
    for crate in $(sed -n 's/^\([a-z_]*\)\( staticlib\)\{0,1\}:.*/\1/p' crates.txt); do
        log=crates/$crate/out/log
        [ ! -e "$log" ] || sed -n "s/^logic=/$crate: logic=/p" "$log"
    done
    echo "program $(sha256sum <crates/fitsed/out/fitsed | cut -d' ' -f1)"
    echo "library $(sha256sum <crates/fits_c/out/libfitsed.so.0 | cut -d' ' -f1)"
    echo "packed $(dpkg-deb --fsys-tarfile "dist/fitsed_${version}_amd64.deb" | tar -xO ./usr/bin/fitsed | sha256sum | cut -d' ' -f1)"
} >"dist/fitsed-$version.proof"
(cd dist && sha256sum -- * >SHA256SUMS)
ls dist
