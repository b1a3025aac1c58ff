#!/bin/bash
# try-copy-as-root.sh [UNIT [RELOADS]]
#
# Needs root and /usr/bin/python3, and no systemd. Runs what roam.service (or UNIT) has root do at a start, at so many reloads (400) and at the
# end, which are its lines with a `+`, in a folder of its own in place of /run and /etc/roam. From the start on a user in
# the service's place, as a broker that was taken over, puts links wherever it may, as fast as it can.
#
# It fails where a file that root alone could read becomes readable or another one, where root writes into a folder to which
# a link leads, where the service can't read its copy of the configuration or can change it, where anybody else can read
# that, or where something of it is left at the end.
set -euo pipefail

here=$(dirname "$(realpath "$0")")
unit=${1:-$here/../installed/roam.service} reloads=${2:-400}
if [ $# -gt 2 ] || [ ! -f "$unit" ] || [ "$(id -u)" != 0 ]; then
    echo "usage, as root: try-copy-as-root.sh [UNIT [RELOADS]]" >&2
    exit 2
fi
# No users of this machine: the service's own, and another one.
service=61987 stranger=61988

work=$(mktemp -d)
racer=
trap '[ -z "$racer" ] || kill "$racer" 2> /dev/null || true; rm -rf "$work"' EXIT
chmod 711 "$work"
mkdir -m 755 "$work/run" "$work/etc" "$work/folder"
mkdir -m 700 "$work/etc/roam"
(umask 077 && echo 'secret = "of a peer"' > "$work/etc/roam/roam.conf" && echo 'of root' > "$work/shadow")

# The commands of root's of one kind, with this trial's places.
commands_of() {
    sed -n "s/^$1=+//p" "$unit" | grep -v look-at-configuration |
        sed "s,/run/,$work/run/,g; s,/etc/roam,$work/etc/roam,g" || true
}
# One of them may fail, as where a folder stands in the file's place: systemd then calls it a failed reload.
run() { while read -r command; do sh -c "$command" 2> /dev/null || return 0; done <<< "$(commands_of "$1")"; }
as() { setpriv --reuid "$1" --regid "$1" --clear-groups -- "${@:2}"; }
copy_of() { find "$work/run" -name roam.conf -type f; }
must() { if "${@:2}"; then echo "yes: $1"; else echo "NO: $1"; failed=yes; fi; }
fails() { ! "$@" 2> /dev/null; }
is() { [ "$1" = "$2" ]; }

# What a broker that was taken over does until it is ended: links in place of what root writes, and of what leads there.
cat > "$work/racer.py" <<'END'
import itertools, os, sys
run, aims = sys.argv[1], sys.argv[2:]
def attempt(call, *words):
    try:
        call(*words)
    except OSError:
        pass
places = [f'{run}/{folder}/{file}' for folder in ('roam', 'roam-conf') for file in ('roam.conf', 'station.key')] + [f'{run}/roam-conf', f'{run}/roam']
for aim in itertools.cycle(aims):
    for place in places:
        for _ in range(20):
            attempt(os.unlink, place)
            attempt(os.symlink, aim, place)
        attempt(os.unlink, place)
        attempt(os.chmod, place, 0o777)
        attempt(os.rename, place, place + '.old')
END

# As systemd makes the service's own folder.
install -d -m 700 -o $service -g $service "$work/run/roam"
run ExecStartPre
copy=$(copy_of)
must "there is one copy" is "$(wc -w <<< "$copy")" 1
must "the service reads it" is "$(as $service cat "$copy")" "$(cat "$work/etc/roam/roam.conf")"
must "others can't" fails as $stranger cat "$copy"
must "without a key of stations there is no copy of one" is "$(find "$work/run" -name station.key)" ""
(umask 077 && echo 0123456789abcdef > "$work/etc/roam/station.key")

setpriv --reuid $service --regid $service --clear-groups -- /usr/bin/python3 "$work/racer.py" "$work/run" "$work/shadow" "$work/folder" &
racer=$!
opened=never written=never
for reload in $(seq "$reloads"); do
    run ExecReload
    if [ "$opened" = never ] && [ "$(stat -c '%a %u' "$work/shadow") $(cat "$work/shadow")" != '600 0 of root' ]; then
        opened="at reload $reload: $(stat -c 'mode %a' "$work/shadow")"
    fi
    if [ "$written" = never ] && [ -n "$(ls "$work/folder")" ]; then
        written="at reload $reload: $(find "$work/folder" -type f -printf 'mode %m of %P')"
    fi
done
must "a file of root's stays as it is over $reloads reloads (changed: $opened)" is "$opened" never
must "nothing is written where a link leads (written: $written)" is "$written" never

must "the links were planted all the while" kill -0 $racer

echo 'secret = "another"' > "$work/etc/roam/roam.conf"
run ExecReload
must "the service reads the new copy" eval "is \"\$(as $service cat '$copy')\" 'secret = \"another\"'"
must "others can't" fails as $stranger cat "$copy"
must "the service can't change it" fails as $service sh -c "echo x >> '$copy'"
key=$(dirname "$copy")/station.key
must "the service reads the copy of the key" is "$(as $service cat "$key")" "$(cat "$work/etc/roam/station.key")"
must "others can't" fails as $stranger cat "$key"
must "the service can't change it" fails as $service sh -c "echo x >> '$key'"
must "nor its folder" fails as $service touch "$(dirname "$copy")/another"
kill $racer
wait $racer || true
racer=
rm "$work/etc/roam/station.key"
run ExecReload
must "a key that was removed is removed there too" is "$(find "$work/run" -name station.key)" ""
must "and the service reads the copy of the configuration" is "$(as $service cat "$copy")" 'secret = "another"'
run ExecStopPost
rm -rf "$work/run/roam"
must "nothing of it is left" is "$(find "$work/run" -mindepth 1)" ""
echo "try-copy-as-root.sh: ${failed:-no} failure"
[ -z "${failed:-}" ]
