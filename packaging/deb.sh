#!/bin/bash
# Makes a Debian package of the program that is built here, with the launcher, a unit, the man page and rule files.
#
# Usage: packaging/deb.sh [FOLDER]
#
# The package goes into FOLDER, packaging/out without one, and its name is the last line that is printed. It wants dpkg-deb and a built program
# (./carbon build), or one that CARBON_PROGRAM names. Nothing is built or proved, and the same commit and program make the same package.
#
#     /usr/bin/carbon                  the launcher
#     /usr/lib/carbon/carbon           the program
#     /usr/lib/systemd/system          carbon.service, which nothing enables: `systemctl enable --now carbon`, once the rule files are as wanted
#     /etc/carbon                      storage-schemas.conf and storage-aggregation.conf, which an upgrade leaves as they are
#     /var/lib/carbon                  the folder in which the daemon runs, of the user carbon; conf in it is a link to /etc/carbon
#     /usr/share/man, /usr/share/doc   the man page, the documents, and examples with the importer of Whisper files
set -e -o pipefail
umask 022
top=$(cd "$(dirname "$0")/.." && pwd)
program=${CARBON_PROGRAM:-$top/crates/carbon/out/carbon}
target=${1:-$top/packaging/out}

fail() {
    echo "deb.sh: $*" >&2
    exit 1
}

# The version of the launcher, and where this is a repository the moment and the name of the commit.
version_of_tree() {
    local version commit=
    version=$("$top/carbon" --version | sed -n '1s/^carbon //p')
    commit=$(git -C "$top" log -1 --date=format-local:%Y%m%d.%H%M%S --format=+git%cd.%h 2>/dev/null) || commit=
    echo "$version$commit"
}

# The C library that the program asks for, from the names of its symbols.
libc_of() {
    { grep -ao 'GLIBC_2\.[0-9][0-9.]*' "$1" || true; } | sort -u -V | sed -n '$s/GLIBC_//p'
}

put() {
    local mode=$1 from=$2 to=$root$3
    mkdir -p "$(dirname "$to")"
    install -m "$mode" "$from" "$to"
}

# The unit of the examples, with the paths of the package and without the steps that an installation by hand takes.
put_unit() {
    mkdir -p "$(dirname "$root$1")"
    sed -e '1,/^$/d' -e 's|^ExecStart=/opt/carbon/carbon |ExecStart=/usr/bin/carbon |' \
        -e 's|^Documentation=.*|Documentation=man:carbon(1) file:///usr/share/doc/carbon/OPERATING.md|' \
        "$top/examples/carbon.service" >"$root$1"
    chmod 644 "$root$1"
    if ! grep -q '^\[Unit\]$' "$root$1" || grep -q /opt/carbon "$root$1"; then
        fail "examples/carbon.service is not as this script expects"
    fi
}

put_files() {
    put 755 "$top/carbon" /usr/bin/carbon
    put 755 "$program" /usr/lib/carbon/carbon
    put_unit /usr/lib/systemd/system/carbon.service
    local name
    for name in storage-schemas.conf storage-aggregation.conf; do
        put 644 "$top/examples/conf/$name" "/etc/carbon/$name"
        echo "/etc/carbon/$name" >>"$root/DEBIAN/conffiles"
    done
    mkdir -p "$root/var/lib/carbon"
    ln -s /etc/carbon "$root/var/lib/carbon/conf"
    mkdir -p "$root/usr/share/man/man1"
    gzip -9n <"$top/docs/carbon.1" >"$root/usr/share/man/man1/carbon.1.gz"
    for name in README.md docs/OPERATING.md docs/FORMATS.md; do
        put 644 "$top/$name" "/usr/share/doc/carbon/${name##*/}"
    done
    for name in collectd.conf aggregation-rules.conf; do
        put 644 "$top/examples/$name" "/usr/share/doc/carbon/examples/$name"
    done
    put 755 "$top/examples/import_whisper.py" /usr/share/doc/carbon/examples/import_whisper.py
}

put_control() {
    local libc
    libc=$(libc_of "$program")
    cat >"$root/DEBIAN/control" <<END
Package: carbon
Version: $(version_of_tree)
Architecture: $(dpkg --print-architecture)
Maintainer: ${DEBFULLNAME:-carbon maintainers} <${DEBEMAIL:-carbon@localhost}>
Depends: passwd, libc6${libc:+ (>= $libc)}
Suggests: python3, man-db
Section: net
Priority: optional
Installed-Size: $(du -sk --apparent-size "$root" | cut -f1)
Description: storage daemon and render API of Graphite, in one program
 carbon takes metric lines in Graphite's plaintext protocol, keeps them in ring
 files like those of Whisper, and draws series from them for dashboards. It is
 proved to do what its contracts say.
END
    local name
    for name in postinst prerm postrm; do
        install -m 755 "$top/packaging/$name" "$root/DEBIAN/$name"
    done
    (cd "$root" && find usr etc -type f -print0 | sort -z | xargs -0 md5sum) >"$root/DEBIAN/md5sums"
}

command -v dpkg-deb >/dev/null || fail "dpkg-deb is not on PATH"
if [ ! -f "$program" ] || [ ! -x "$program" ]; then
    fail "there is no program $program; ./carbon build builds it"
fi
mkdir -p "$target"
root=$(mktemp -d)
trap 'rm -rf "$root"' EXIT
chmod 755 "$root"
mkdir "$root/DEBIAN"
put_files
put_control
# all files have the time of the commit, so that the package says nothing of when it was made
SOURCE_DATE_EPOCH=${SOURCE_DATE_EPOCH:-$(git -C "$top" log -1 --format=%ct 2>/dev/null || date +%s)}
export SOURCE_DATE_EPOCH
find "$root" -print0 | xargs -0 touch -h -d "@$SOURCE_DATE_EPOCH"
package=$target/carbon_$(sed -n 's/^Version: //p' "$root/DEBIAN/control")_$(sed -n 's/^Architecture: //p' "$root/DEBIAN/control").deb
dpkg-deb --root-owner-group -Zxz --build "$root" "$package" >/dev/null
echo "$package"
