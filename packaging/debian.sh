# What the Debian packages share: read by deb.sh and library_debs.sh, at the top of the sources.
version=$(sh packaging/version.sh)
# The time of the commit, so that the same sources and program make the same package, to the byte; in an archive of them files have it.
export SOURCE_DATE_EPOCH="${SOURCE_DATE_EPOCH:-$(git log -1 --format=%ct 2>/dev/null || stat -c %Y CHANGELOG.md)}"
maintainer='Jurvakso maintainers <maintainers@users.noreply.jurvakso.example>'

# documents ROOM PACKAGE: its changelog and copyright.
documents() {
    install -d "$1/usr/share/doc/$2"
    cat >"$1/usr/share/doc/$2/changelog" <<END
fitsed ($version) unstable; urgency=medium

  * What users see change stands in CHANGELOG.md.

 -- $maintainer  $(date -R -u -d "@$SOURCE_DATE_EPOCH")
END
    gzip -9n "$1/usr/share/doc/$2/changelog"
    {
        echo 'Format: https://www.debian.org/doc/packaging-manuals/copyright-format/1.0/'
        echo 'Upstream-Name: fitsed'
        echo
        echo 'Files: *'
        sed -n 's/^Copyright (c) /Copyright: /p' LICENSE-MIT
        echo 'License: Expat or Apache-2.0'
        echo
        echo 'License: Expat'
        sed -n '/^Permission is/,$ { s/^$/./; s/^/ /; p }' LICENSE-MIT
        echo
        echo 'License: Apache-2.0'
        echo ' On Debian systems the text stands in /usr/share/common-licenses/Apache-2.0.'
    } >"$1/usr/share/doc/$2/copyright"
}

# library_of FILE: the C library that it asks for, the greatest of the versions that its symbols have.
library_of() {
    readelf -V "$1" | sed -n 's/.*Name: GLIBC_\([0-9.]*\).*/\1/p' | sort -V | tail -1
}

# built ROOM FILE PACKAGE ARCHITECTURE SECTION DEPENDS: the package, whose description is standard input.
built() {
    install -d "$1/DEBIAN"
    {
        cat <<END
Package: $3
Source: fitsed
Version: $version
Architecture: $4
Maintainer: $maintainer
Depends: $6
Installed-Size: $(du -sk --apparent-size "$1/usr" | cut -f1)
Section: $5
Priority: optional
END
        cat
    } | if [ "$3" = fitsed ]; then sed '/^Source: /d'; else cat; fi >"$1/DEBIAN/control"
    (cd "$1" && find usr -type f -exec md5sum {} +) | sort -k 2 >"$1/DEBIAN/md5sums"
    mkdir -p "$(dirname "$2")"
    dpkg-deb --root-owner-group --build "$1" "$2" >/dev/null
    echo "$2"
}
