#!/bin/bash
# try-deb.sh PROGRAM [BASE]
#
# Makes Debian packages of PROGRAM (`make deb`), two of them, and tries them in a Debian 12 of its own, first without
# and then with systemd running. BASE is a root folder that debootstrap made with the packages named below; without it
# one is made, from the mirror of Debian, which takes some minutes. Nothing is changed in it: what is written is kept in
# memory, and thrown away. It needs root, debootstrap, systemd-nspawn and overlayfs.
#
# It fails unless the package installs what it should, and starts nothing; the commands of the pages run as they stand
# there (try-pages.py); a missing and a world-readable configuration are said in words; an upgrade leaves the
# configuration and what runs as they are; a removal keeps the configuration, and a purge leaves nothing.
set -euo pipefail

packages=systemd,systemd-sysv,dbus,python3,freeradius-utils,make,iproute2,procps
if [ $# -lt 1 ] || [ $# -gt 2 ] || [ ! -x "$1" ]; then
    echo "usage: try-deb.sh PROGRAM [BASE]" >&2
    exit 2
fi
here=$(dirname "$(realpath "$0")")
program=$(realpath "$1")
base=${2:+$(realpath "$2")}

# All mounts are made in a namespace of this script, and end with it.
if [ -z "${IN_NAMESPACE:-}" ]; then
    IN_NAMESPACE=yes exec unshare -m --propagation private "$0" "$program" ${base:+"$base"}
fi

work=$(mktemp -d)
made=
trap 'umount -R "$work" 2>/dev/null; rmdir "$work"; [ -z "$made" ] || rm -rf "$made"' EXIT
if [ -z "$base" ]; then
    made=$(mktemp -d -p /var/tmp)
    base=$made
    debootstrap --variant=minbase --include=$packages bookworm "$base" > "$base.log" ||
        { tail "$base.log" >&2; exit 1; }
    rm "$base.log"
fi
mount -t tmpfs tmpfs "$work"
mkdir "$work/upper" "$work/work" "$work/root" "$work/debs"
mount -t overlay overlay -o "lowerdir=$base,upperdir=$work/upper,workdir=$work/work" "$work/root"
root=$work/root

for revision in 1 2; do make -s -C "$here/.." deb ROAM="$program" OUT="$work/debs" REVISION=$revision; done
mkdir "$root/try"
cp "$work"/debs/*-1_*.deb "$root/try/first.deb"
cp "$work"/debs/*-2_*.deb "$root/try/second.deb"
# The source, with the program in its place, and the pages' commands in it.
mkdir "$root/try/source"
(cd "$here/../.." && tar -c --exclude=out --exclude=__pycache__ packaging docs examples oracle load crates ./*.md LICENSE-*) |
    tar -x -C "$root/try/source"
mkdir "$root/try/source/crates/roam/out"
cp "$program" "$root/try/source/crates/roam/out/roam"
cp "$here/try-deb-inside.sh" "$root/try/inside.sh"

echo "1. without systemd"
failed=
systemd-nspawn -q --register=no --keep-unit --private-network --console=pipe -D "$root" /try/inside.sh without \
    < /dev/null 2> "$work/said" || { failed=yes; cat "$work/said"; }

echo
echo "2. with systemd"
rm -rf "$root"/etc/systemd/system/multi-user.target.wants/*
: > "$root/etc/machine-id"
units=$root/etc/systemd/system
printf '[Unit]\nRequires=basic.target\nWants=inside.service\n' > "$units/try.target"
cat > "$units/inside.service" <<'UNIT'
[Unit]
After=basic.target
[Service]
Type=oneshot
Environment=HOME=/root
StandardOutput=file:/try/told
StandardError=inherit
ExecStart=/try/inside.sh with
ExecStopPost=/bin/systemctl --no-block poweroff
UNIT
timeout 900 systemd-nspawn -q --register=no --keep-unit --private-network --console=pipe -D "$root" \
    -b systemd.unit=try.target systemd.show_status=0 < /dev/null > /dev/null 2>&1 || true
cat "$root/try/told"
grep -q '^with systemd: no failure' "$root/try/told" || failed=yes
[ -z "$failed" ]
