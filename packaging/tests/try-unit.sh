#!/bin/bash
# try-unit.sh PROGRAM [CONF]
#
# Tries roam.service under a systemd of its own: a container over this machine's files, whose changes are kept in memory
# and thrown away. It needs root, systemd-nspawn, ss and overlayfs. PROGRAM is what is served by, CONF the operator's
# configuration, whose sockets must be on 127.0.0.1 (examples/two-realms.conf without it).
#
# It fails unless the unit starts as a user of its own with no capability, with a copy of the configuration that it alone
# can read and root alone can change; stays through a SIGHUP; serves a changed file after a reload, and after one that is refused what it served, with
# the reason in the journal; is started again after a crash and after a SIGTERM; is gone after a stop; and says in words that
# there is no configuration, or one that others can read.
set -euo pipefail

if [ $# -lt 1 ] || [ $# -gt 2 ] || [ ! -x "$1" ]; then
    echo "usage: try-unit.sh PROGRAM [CONF]" >&2
    exit 2
fi
here=$(dirname "$(realpath "$0")")
program=$(realpath "$1")
conf=$(realpath "${2:-$here/../../examples/two-realms.conf}")

# All mounts are made in a namespace of this script, and end with it.
if [ -z "${IN_NAMESPACE:-}" ]; then
    IN_NAMESPACE=yes exec unshare -m --propagation private "$0" "$program" "$conf"
fi

work=$(mktemp -d)
trap 'umount -R "$work" 2>/dev/null; rmdir "$work"' EXIT
mount -t tmpfs tmpfs "$work"
mkdir "$work/upper" "$work/work" "$work/root"
mount -t overlay overlay -o "lowerdir=/,upperdir=$work/upper,workdir=$work/work" "$work/root"
root=$work/root

# This machine's own /run and /tmp are in use: empty ones stand in their places.
mount -t tmpfs tmpfs "$root/run"
mount -t tmpfs -o mode=1777 tmpfs "$root/tmp"
rm -rf "$root"/etc/systemd/system/* "$root/etc/fstab"
: > "$root/etc/machine-id"
install -D -m 755 "$program" "$root/usr/local/bin/roam"
for script in look-at-configuration wait-until-it-serves; do
    install -D -m 755 "$here/../installed/$script" "$root/usr/local/lib/roam/$script"
done
install -D -m 600 "$conf" "$root/etc/roam/roam.conf"
units=$root/etc/systemd/system
install -m 644 "$here/../installed/roam.service" "$units"
printf '[Unit]\nRequires=basic.target\nWants=inside.service\n' > "$units/try.target"
cat > "$units/inside.service" <<'END'
[Unit]
After=basic.target
[Service]
Type=oneshot
ExecStart=/usr/local/bin/inside
ExecStopPost=/bin/systemctl --no-block poweroff
END

cat > "$root/usr/local/bin/inside" <<'END'
#!/bin/bash
exec > /var/told 2>&1
of() { systemctl show -p "$1" --value roam; }
status() { grep "^$1:" "/proc/$(of MainPID)/status" | tr -s '[:blank:]' ' '; }
copy=/run/roam-conf
must() { if "${@:2}"; then echo "yes: $1"; else echo "NO: $1"; failed=yes; fi; }
serves() { [ "$(of ActiveState)" = active ] && [ -n "$(ss -H -u -l -n | grep ':1812 ')" ]; }
# Waits for the command after the seconds, so many at most.
within() { for _ in $(seq "$1"); do "${@:2}" && return 0; sleep 1; done; return 1; }
another() { [ "$(of MainPID)" != "$first" ] && serves; }
again() { first=$(of MainPID); kill -s "$1" "$first"; within 20 another; }
stays() { first=$(of MainPID); kill -s "$1" "$first"; sleep 3; [ "$(of MainPID)" = "$first" ] && serves; }
said() { journalctl -u roam --no-pager -o cat | grep -q "$1"; }
not_said() { ! said "$1"; }
strangers_read() { setpriv --reuid nobody --regid nogroup --clear-groups cat "$1"; }
# As the service's own user, outside its sandbox.
as_service() { setpriv --reuid "$(status Uid | cut -d ' ' -f 2)" --regid "$(status Gid | cut -d ' ' -f 2)" --clear-groups "$@"; }
# What a broker that was taken over may do in its own folder: a link where root's copy of old lay.
plant() { (umask 077; echo secret > /var/shadow); as_service ln -s /var/shadow /run/roam/roam.conf; }
is_untouched() { [ "$(stat -c '%a %U' /var/shadow)" = "600 root" ] && [ "$(cat /var/shadow)" = secret ]; }

# Changes a file by a command of sed: one that changes nothing would try nothing.
edit() { cp -p "$1" /var/unedited; sed -i "$2" "$1"; must "an edit changes ${1##*/}" eval "! cmp -s $1 /var/unedited"; }

python3 -c 'import socket, time; s = socket.socket(socket.AF_INET, socket.SOCK_DGRAM); s.bind(("127.0.0.1", 1812)); time.sleep(60)' &
taker=$!
sleep 1
must "a start fails where a socket is taken" eval "! systemctl start roam 2> /dev/null"
kill $taker
systemctl stop roam
must "and succeeds where it is free" systemctl start roam
must "it serves" serves
must "a user of its own" [ "$(status Uid)" != "Uid: 0 0 0 0" ]
must "which isn't nobody" [ "$(status Uid | cut -d ' ' -f 2)" != "$(id -u nobody)" ]
must "no capability" [ "$(status CapBnd)$(status CapEff)" = "CapBnd: 0000000000000000CapEff: 0000000000000000" ]
must "no new privileges" [ "$(status NoNewPrivs)" = "NoNewPrivs: 1" ]
must "system calls are filtered" [ "$(status Seccomp)" = "Seccomp: 2" ]
must "it has a copy of the configuration" cmp -s /etc/roam/roam.conf $copy/roam.conf
must "which others can't read" eval "! strangers_read $copy/roam.conf 2> /dev/null"
must "and which the service can" [ "$(as_service cat $copy/roam.conf)" = "$(cat /etc/roam/roam.conf)" ]
must "the copy's folder is root's" [ "$(stat -c '%U %a' $copy)" = "root 710" ]
must "and the service can't change it" eval "! as_service touch $copy/another 2> /dev/null"
must "nor the copy" eval "! as_service sh -c 'echo >> $copy/roam.conf' 2> /dev/null"
must "a SIGHUP changes nothing" stays HUP
cp -p /etc/roam/roam.conf /etc/roam/last.conf
first=$(of MainPID)
cat >> /etc/roam/roam.conf <<'CONF'

[[realm]]
name = "more.example"
out = "127.0.0.1:2999"
reverse = "127.0.0.1:3999"
tries = 1
wait = 1000
hold = 0
max_pending = 1
max_sessions = 0
rest = 0
server = [{ auth = "198.51.100.1:1812", acct = "198.51.100.1:1813", secret = "h" }]
CONF
must "the service can put a link into its own folder" plant
must "a changed file is served after a reload" systemctl reload roam
must "and what the link leads to stays as it is" is_untouched
must "by the same process" [ "$(of MainPID)" = "$first" ]
must "which has a copy of it" cmp -s /etc/roam/roam.conf $copy/roam.conf
must "and others can't read that one" eval "! strangers_read $copy/roam.conf 2> /dev/null"
must "the journal says what became of each realm" within 5 said '^realm more.example: new'
edit /etc/roam/roam.conf 's/^shards.*/shards = 0/'
must "a file that is refused isn't followed" eval "! systemctl reload roam 2> /dev/null"
must "the journal says why" within 5 said 'roam.conf:8: shards: 0 is not in'
must "and it serves on" eval "serves && [ $(of MainPID) = $first ]"
mv /etc/roam/last.conf /etc/roam/roam.conf
must "one with fewer realms is followed" systemctl reload roam
must "and the journal says what is lost by that" within 5 said '^realm more.example: gone: loses all'
must "another serves after a crash" again SEGV
must "and after a SIGTERM from elsewhere" again TERM
systemctl stop roam
must "a stop is no failure" [ "$(of Result)" = success ]
must "and leaves no copy" [ ! -e $copy ]
must "nothing is said of a file that root alone can read" not_said 'chmod 600'
chmod 644 /etc/roam/roam.conf
systemctl start roam
must "of one that others can read it is said, and served" eval "within 20 serves && said 'others than root .*chmod 600'"
systemctl stop roam
mv /etc/roam/roam.conf /etc/roam/away
systemctl start roam
must "without a file it says so, and isn't served" eval "[ \"$(of ActiveState)\" != active ] && said 'there is no /etc/roam/roam.conf'"
systemctl stop roam
mv /etc/roam/away /etc/roam/roam.conf
edit /etc/roam/roam.conf 's/^shards.*/shards = 0/'
systemctl start roam
must "a refused configuration isn't served" [ "$(of ActiveState)" != active ]
systemctl stop roam
echo "roam.service: ${failed:-no} failure"
echo
journalctl -u roam --no-pager -o cat
END
chmod 755 "$root/usr/local/bin/inside"

timeout 120 systemd-nspawn -q --register=no --keep-unit --private-network --console=pipe -D "$root" \
    -b systemd.unit=try.target systemd.show_status=0 < /dev/null > /dev/null 2>&1 || true
cat "$root/var/told"
grep -q '^roam.service: no failure' "$root/var/told"
