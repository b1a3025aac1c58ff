#!/bin/bash
# try-metrics.sh PROGRAM
#
# Has a real Prometheus ask a running broker for its counts. It needs promtool and prometheus (Debian: prometheus) and
# curl. PROGRAM serves a configuration on loopback, whose metrics are at 127.0.0.1:19813.
#
# It fails unless the page says which program serves and since when, promtool finds no fault in the page and in
# roam.rules.yml, whose alerts are those of roam.rules.test.yml, Prometheus scrapes the broker and has its counts, and
# goes on to while others open a thousand connections, send an octet a second, or ten megabytes of header.
set -euo pipefail

if [ $# -ne 1 ] || [ ! -x "$1" ]; then
    echo "usage: try-metrics.sh PROGRAM" >&2
    exit 2
fi
here=$(dirname "$(realpath "$0")")
program=$(realpath "$1")
work=$(mktemp -d)
jobs=()
end() {
    for job in "${jobs[@]}"; do kill "$job" 2>/dev/null || true; done
    wait 2>/dev/null || true
    rm -rf "$work"
}
trap end EXIT

cat > "$work/roam.conf" <<CONF
shards = 2
seed = "0000000000000000000000000000000000000000000000000000000000000000"
auth = "127.0.0.1:18120"
acct = "127.0.0.1:18130"
trace_limit = 100000
metrics = "127.0.0.1:19813"

[[peer]]
name = "nas1"
ip = "127.0.0.1"
secret = "a-secret-of-nas1"

[[realm]]
name = "a.example"
out = "127.0.0.1:18140"
reverse = "127.0.0.1:18150"
tries = 2
wait = 1000
hold = 5000
max_pending = 300
max_sessions = 100
rest = 0

[[realm.server]]
auth = "127.0.0.1:28120"
acct = "127.0.0.1:28130"
secret = "a-secret-of-home"
CONF
cat > "$work/prometheus.yml" <<YML
global:
  scrape_interval: 1s
rule_files: ["$here/../installed/roam.rules.yml"]
scrape_configs:
  - job_name: roam
    static_configs: [{targets: ["127.0.0.1:19813"]}]
YML

promtool check rules "$here/../installed/roam.rules.yml"
promtool test rules "$here/roam.rules.test.yml"
promtool check config "$work/prometheus.yml"
"$program" serve "$work/roam.conf" 120000 2> "$work/roam.log" &
jobs+=($!)
for _ in $(seq 50); do
    curl -sf -o "$work/page" http://127.0.0.1:19813/metrics && break
    sleep 0.1
done
# Datagrams that are refused, so that there is something of a peer: too short, and of a wrong code.
for _ in 1 2 3; do
    printf 'x' > /dev/udp/127.0.0.1/18120
    printf '\002\001\000\024aaaaaaaaaaaaaaaa' > /dev/udp/127.0.0.1/18120
done
sleep 0.2
curl -sf -o "$work/page" http://127.0.0.1:19813/metrics
promtool check metrics < "$work/page"
python3 "$here/server.py" "$work/page"
grep -q '^roam_peer_refusals_total{peer="nas1",number="5",} 3$' "$work/page"
grep -q '^roam_refusals_total{number="1",} 3$' "$work/page"
version=$("$program" version | sed -n 's/^roam //p')
grep -q "^roam_build_info{version=\"$version\"," "$work/page"
grep -q '^roam_reloads_total{outcome="served",} 0$' "$work/page"
began=$(sed -n 's/^process_start_time_seconds{} //p' "$work/page")
[ $(($(date +%s) - began)) -lt 60 ]
grep -q '^roam_realm_max_pending{realm="a.example",} 300$' "$work/page"

prometheus --config.file="$work/prometheus.yml" --storage.tsdb.path="$work/data" \
    --web.listen-address=127.0.0.1:19091 > "$work/prometheus.log" 2>&1 &
jobs+=($!)
# What Prometheus has of an expression.
value() {
    curl -sf --data-urlencode "query=$1" http://127.0.0.1:19091/api/v1/query |
        sed -n 's/.*"value":\[[^,]*,"\([^"]*\)"\].*/\1/p'
}
# Waits until an expression has a value.
wait_for() {
    for _ in $(seq 60); do
        [ "$(value "$1" || true)" = "$2" ] && return
        sleep 0.5
    done
    echo "Prometheus has another value of $1 than $2: $(value "$1" || true)" >&2
    exit 1
}
wait_for 'up{job="roam"}' 1
wait_for 'roam_refusals_total{number="1"}' 3

# A thousand connections that say nothing, one that sends an octet a second, and one with ten megabytes of header.
python3 - <<'PY' &
import socket, time
silent = []
for _ in range(1000):
    try:
        silent.append(socket.create_connection(("127.0.0.1", 19813), 1))
    except OSError:
        pass
slow = socket.create_connection(("127.0.0.1", 19813), 5)
for octet in b"GET /metrics":
    try:
        slow.send(bytes([octet]))
    except OSError:
        break
    time.sleep(1)
PY
jobs+=($!)
sleep 1
head -c 10000000 /dev/zero | tr '\0' 'a' > "$work/long"
printf 'GET /metrics HTTP/1.1\r\nx: ' | cat - "$work/long" > /dev/tcp/127.0.0.1/19813 2>/dev/null || true
sleep 3
wait_for 'min_over_time(up{job="roam"}[5s])' 1
echo "as it should be"
