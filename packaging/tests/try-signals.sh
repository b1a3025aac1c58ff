#!/bin/bash
# try-signals.sh PROGRAM
#
# Has roam-run serve a configuration on loopback, as a user who isn't root may, and sends it signals. It fails unless
# TERM and INT stop it, also where they go to all its processes: a request that waits is answered then, the history is
# audited and the status is 0; a second one ends it at once; HUP has it serve the changed file, or where that is refused
# go on with all as before; and what doesn't serve says so with the status of `roam serve`. It needs python3.
set -euo pipefail

if [ $# -ne 1 ] || [ ! -x "$1" ]; then
    echo "usage: try-signals.sh PROGRAM" >&2
    exit 2
fi
installed=$(realpath "$(dirname "$(realpath "$0")")/../installed")
ROAM=$(realpath "$1")
export ROAM
work=$(mktemp -d)
runner=
home=
end() {
    [ -z "$runner" ] || kill -KILL -- "-$runner" 2> /dev/null || true
    [ -z "$home" ] || kill "$home" 2> /dev/null || true
    wait 2> /dev/null || true
    rm -rf "$work"
}
trap end EXIT

cat > "$work/home.py" <<'PY'
# Accepts each Access-Request that comes to 127.0.0.1:28320, half a second after it came, and tells that it came; or
# tells that alone.
import hashlib, socket, struct, sys, time
home = socket.socket(socket.AF_INET, socket.SOCK_DGRAM)
home.bind(("127.0.0.1", 28320))
while True:
    packet, source = home.recvfrom(4096)
    open(sys.argv[1], "a").close()
    if sys.argv[2] == "silent":
        continue
    states, at = b"", 20
    while at + 2 <= len(packet):
        if packet[at] == 33:
            states += packet[at:at + packet[at + 1]]
        at += packet[at + 1]
    head = struct.pack("!BBH", 2, packet[1], 20 + len(states))
    time.sleep(.5)
    home.sendto(head + hashlib.md5(head + packet[4:20] + states + b"a-secret-of-home").digest() + states, source)
PY
cat > "$work/ask.py" <<'PY'
# Sends an Access-Request, and prints the code of the reply.
import os, socket, struct
access = socket.socket(socket.AF_INET, socket.SOCK_DGRAM)
access.settimeout(10)
body = bytes([1, 2 + len(b"u1@a.example")]) + b"u1@a.example" + b"\x04\x06\xc0\x00\x02\x01"
access.sendto(struct.pack("!BBH", 1, 7, 20 + len(body)) + os.urandom(16) + body, ("127.0.0.1", 18320))
print(access.recv(4096)[0])
PY
write_conf() {
    cat > "$work/roam.conf" <<CONF
shards = 1
seed = "0000000000000000000000000000000000000000000000000000000000000000"
auth = "127.0.0.1:18320"
acct = "127.0.0.1:18330"
trace_limit = 1000
control = "$work/control" # for roam-run
$1
[[peer]]
name = "nas1"
ip = "127.0.0.1"
secret = "a-secret-of-nas1"
$2
[[realm]]
name = "a.example"
out = "127.0.0.1:18340"
reverse = "127.0.0.1:18350"
tries = 2
wait = 4000
hold = 5000
max_pending = 300
max_sessions = 100

[[realm.server]]
auth = "127.0.0.1:28320"
acct = "127.0.0.1:28330"
secret = "a-secret-of-home"
CONF
}
fail() {
    echo "FAIL $1" >&2
    cat "$work/log" >&2
    exit 1
}
# Waits until the log has so many lines with these words.
wait_for() {
    for _ in $(seq 200); do
        [ "$(grep -c "$2" "$work/log")" -ge "$1" ] && return
        sleep 0.05
    done
    fail "it doesn't say: $2"
}
begin() {
    # A session of its own, with signals as they are by default: a shell lets what runs in the background ignore SIGINT.
    setsid env --default-signal=INT,TERM,HUP "$installed/roam-run" "$@" 2> "$work/log" &
    runner=$!
    wait_for 1 serving
}
# Has a user ask, until the home server has it.
ask() {
    rm -f "$work/came"
    python3 "$work/ask.py" > "$work/code" 2> /dev/null &
    asking=$!
    for _ in $(seq 200); do
        [ ! -e "$work/came" ] || return 0
        sleep 0.05
    done
    fail "a request doesn't come to the home server"
}
# Waits until it has ended, and looks at its status.
ended() {
    local status=0
    wait "$runner" || status=$?
    runner=
    [ "$status" = "$1" ] || fail "$2: status $status"
}
write_conf '' ''
python3 "$work/home.py" "$work/came" answers &
home=$!

for signal in TERM INT; do
    for whom in itself all; do
        begin "$work/roam.conf"
        ask
        if [ $whom = all ]; then kill -$signal -- "-$runner"; else kill -$signal "$runner"; fi
        ended 0 "$signal to $whom"
        wait $asking || fail "$signal to $whom: what waited wasn't answered"
        [ "$(cat "$work/code")" = 2 ] || fail "$signal to $whom: what waited was answered by $(cat "$work/code")"
        grep -q 'asked to stop' "$work/log" || fail "$signal to $whom: it wasn't asked to stop"
        grep -q audited "$work/log" || fail "$signal to $whom: it wasn't audited"
        [ ! -e "$work/control" ] || fail "$signal to $whom: the socket is left"
        echo "ok   $signal to $whom: what waits is answered, it is audited, status 0"
    done
done

begin "$work/roam.conf"
write_conf '' '
[[peer]]
name = "nas2"
ip = "127.0.0.2"
secret = "a-secret-of-nas2"
'
kill -HUP "$runner"
wait_for 2 serving
wait_for 1 'peers 2'
write_conf 'no_key = 1' ''
kill -HUP -- "-$runner"
wait_for 1 'declined'
"$ROAM" ctl "$work/control" status > "$work/status" || fail "it serves no more"
grep -q 'peers 2' "$work/status" || fail "a refused file changed something"
"$ROAM" ctl "$work/control" metrics > "$work/page"
python3 "$(dirname "$(realpath "$0")")/server.py" "$work/page" || fail "the metrics don't balance"
echo "ok   HUP: the changed file is served, and of a refused one nothing"

# Nobody answers this one, so that it waits; a second signal ends it.
kill "$home"
wait "$home" 2> /dev/null || true
python3 "$work/home.py" "$work/came" silent &
home=$!
ask
kill -TERM "$runner"
wait_for 1 'asked to stop'
sleep 0.3
kill -TERM "$runner"
ended 137 "a second signal"
kill $asking 2> /dev/null || true
echo "ok   a second signal ends it at once, status 137"

# What doesn't serve.
status=0
"$installed/roam-run" "$work/roam.conf" 2> "$work/log" || status=$?
[ "$status" = 1 ] || fail "a refused file: status $status"
grep -v '^control' "$work/roam.conf" > "$work/none.conf"
status=0
"$installed/roam-run" "$work/none.conf" 2> "$work/log" || status=$?
{ [ "$status" = 1 ] && grep -q 'no control' "$work/log"; } || fail "no control: status $status"
status=0
"$installed/roam-run" 2> "$work/log" || status=$?
[ "$status" = 2 ] || fail "no words: status $status"
echo "ok   what doesn't serve says so"
