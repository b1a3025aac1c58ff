#!/bin/bash
# deb.sh PROGRAM VERSION REVISION OUT
#
# Makes the Debian package OUT/roam_VERSION-REVISION_ARCHITECTURE.deb of a built program, as `make deb` asks for it. A
# version that CHANGELOG.md calls not yet released becomes VERSION~unreleased, which is before VERSION.
#
# The program is packed without its symbols (strip, of binutils): the code and the data are those that were built. Equal
# sources and programs give equal packages: their times are SOURCE_DATE_EPOCH, or the last commit's. DEBFULLNAME and
# DEBEMAIL say who makes it; without the latter it is the address of SECURITY.md.
set -euo pipefail

if [ $# != 4 ]; then
    echo "usage: deb.sh PROGRAM VERSION REVISION OUT" >&2
    exit 2
fi
program=$(realpath "$1") upstream=$2 revision=$3
mkdir -p "$4"
out=$(realpath "$4")
cd "$(dirname "$(realpath "$0")")"
umask 022

if ! heading=$(grep "^## $upstream" ../CHANGELOG.md); then
    echo "CHANGELOG.md has nothing of version $upstream" >&2
    exit 1
fi
case $heading in *"not yet released"*) upstream=$upstream~unreleased ;; esac
version=$upstream-$revision
architecture=$(dpkg --print-architecture)
address=$(grep -o '[a-z]*@[a-z.]*[a-z]' ../SECURITY.md | head -n 1)
maintainer="${DEBFULLNAME:-the authors of roam} <${DEBEMAIL:-$address}>"
SOURCE_DATE_EPOCH=${SOURCE_DATE_EPOCH:-$(git log -1 --format=%ct 2> /dev/null || date +%s)}
export SOURCE_DATE_EPOCH

tree=$(mktemp -d)
trap 'rm -rf "$tree"' EXIT
chmod 755 "$tree"
make --no-print-directory -s install DESTDIR="$tree" PREFIX=/usr ROAM="$program"

strip --remove-section=.comment "$tree/usr/bin/roam"

# What Debian wants otherwise: one page of copyright, of the changes two, and those and the manual pages packed.
doc=$tree/usr/share/doc/roam
rm "$doc"/LICENSE-*
install -m 644 debian/copyright "$doc"
mv "$doc/CHANGELOG.md" "$doc/changelog"
cat > "$doc/changelog.Debian" <<TEXT
roam ($version) unstable; urgency=medium

  * Of version $upstream: changelog.gz has the changes.

 -- $maintainer  $(date -u -R -d "@$SOURCE_DATE_EPOCH")
TEXT
chmod 644 "$doc"/changelog*
gzip -9n "$doc"/changelog* "$tree"/usr/share/man/man8/*.8

mkdir "$tree/DEBIAN"
install -m 755 debian/postinst debian/prerm debian/postrm "$tree/DEBIAN"
(cd "$tree" && find usr -type f -print0 | LC_ALL=C sort -z | xargs -0 md5sum > DEBIAN/md5sums)
# The newest version of a symbol of the C library that the program names.
glibc=$(grep -ao 'GLIBC_2\.[0-9.]*' "$program" | sort -uV | tail -n 1)
sed -e "s|@VERSION@|$version|" -e "s|@ARCHITECTURE@|$architecture|" -e "s|@MAINTAINER@|$maintainer|" \
    -e "s|@SIZE@|$(du -sk --apparent-size "$tree/usr" | cut -f 1)|" -e "s|@GLIBC@|${glibc#GLIBC_}|" \
    debian/control > "$tree/DEBIAN/control"
chmod 644 "$tree/DEBIAN/md5sums" "$tree/DEBIAN/control"

package=$out/roam_${version}_$architecture.deb
dpkg-deb --root-owner-group --build "$tree" "$package" > /dev/null
echo "$package"
