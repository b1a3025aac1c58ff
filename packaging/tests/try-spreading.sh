#!/bin/bash
# try-spreading.sh [--by nft|route|numgen] [--roam PROGRAM] [--sources N]
#
# Tries what docs/OPERATING.md, "Several proxies", says, in network namespaces of this machine: N access servers, a balancer, two brokers
# and a home server. It fails unless each source keeps to one broker, duplicates are forwarded once, and a Disconnect is
# taken by the broker from which its session came; and, when the second broker is taken out, the first one has all.
# It needs root, ip, ss, nft and python3 (3.11), and cleans up after itself.
#
#   --by nft      nftables, a hash of the source address (the default)
#   --by route    a route with two next hops, chosen by a hash of the addresses
#   --by numgen   nftables, in turn: what is NOT to be done, and the script must fail
#   --roam        the broker's program, run as `PROGRAM serve CONF`. Without it oracle/broker.py stands in for it
set -euo pipefail

by=nft roam='' sources=12
usage() {
    echo "usage: try-spreading.sh [--by nft|route|numgen] [--roam PROGRAM] [--sources N]" >&2
    exit 2
}
while [ $# -gt 0 ]; do
    [ $# -gt 1 ] || usage
    case $1 in
        --by) by=$2 ;;
        --roam) roam=$(realpath "$2") ;;
        --sources) sources=$2 ;;
        *) usage ;;
    esac
    shift 2
done
case $by in nft | route | numgen) ;; *) usage ;; esac

here=$(dirname "$(realpath "$0")")
dir=$(mktemp -d)
net=spread$$
service=10.60.9.1
started=()

clean_up() {
    for process in "${started[@]}"; do
        kill "$process" 2>/dev/null || true
        wait "$process" 2>/dev/null || true
    done
    for part in nas balancer broker1 broker2 home; do ip netns delete $net-$part 2>/dev/null || true; done
    rm -rf "$dir"
}
trap clean_up EXIT

run() { ip netns exec "$net-$1" "${@:2}"; }
part() { run "$1" python3 "$here/spreading.py" "${@:2}"; }
start() {
    ip netns exec "$net-$1" "${@:2}" > "$dir/$1.out" 2> "$dir/$1.err" &
    started+=($!)
}
# Waits until a program in a namespace has bound port 1812, five seconds at most.
ready() {
    for _ in $(seq 50); do
        [ -n "$(run "$1" ss -H -u -l -n 'sport = :1812')" ] && return
        sleep 0.1
    done
    echo "$1 isn't ready" >&2
    return 1
}
# A cable from a namespace to the balancer: NAMESPACE ADDRESS ADDRESS-OF-THE-BALANCER.
cable() {
    ip link add name eth0 netns "$net-$1" type veth peer name "to-$1" netns $net-balancer
    run "$1" ip link set lo up
    run "$1" ip address add "$2/24" dev eth0
    run "$1" ip link set eth0 up
    run balancer ip address add "$3/24" dev "to-$1"
    run balancer ip link set "to-$1" up
    run "$1" ip route add default via "$3"
}

for part in nas balancer broker1 broker2 home; do ip netns add $net-$part; done
run balancer sysctl -q -w net.ipv4.ip_forward=1
cable nas 10.60.1.1 10.60.1.254
for number in $(seq 2 "$sources"); do run nas ip address add "10.60.1.$number/24" dev eth0; done
cable home 10.60.3.1 10.60.3.254
cable broker1 10.60.11.1 10.60.11.254
cable broker2 10.60.12.1 10.60.12.254

# The balancer sends the slots to these brokers: by nftables to their own addresses, by a route to the service's.
slots() {
    case $by in
        nft) choice="jhash ip saddr mod 12 seed 0x726f616d map { 0-5 : $1, 6-11 : $2 }" ;;
        numgen) choice="numgen inc mod 2 map { 0 : $1, 1 : $2 }" ;;
        route) run balancer ip route replace $service/32 nexthop via "$1" nexthop via "$2" && return ;;
    esac
    run balancer nft -f - <<END
table ip roam
delete table ip roam
table ip roam {
    chain spread {
        type nat hook prerouting priority dstnat
        ip daddr $service udp dport { 1812, 1813 } dnat to $choice
    }
}
END
}
auth1=10.60.11.1 auth2=10.60.12.1
if [ "$by" = route ]; then
    run balancer sysctl -q -w net.ipv4.fib_multipath_hash_policy=0
    run broker1 ip address add $service/32 dev lo
    run broker2 ip address add $service/32 dev lo
    auth1=$service auth2=$service
fi
slots 10.60.11.1 10.60.12.1
# Connection tracking forgets a source endpoint after a second: `conntrack -D` isn't everywhere.
if [ "$by" != route ]; then
    run balancer sysctl -q -w net.netfilter.nf_conntrack_udp_timeout=1 net.netfilter.nf_conntrack_udp_timeout_stream=1
fi

python3 "$here/spreading.py" conf 10.60.11.1 $auth1 "$sources" > "$dir/broker1.conf"
python3 "$here/spreading.py" conf 10.60.12.1 $auth2 "$sources" > "$dir/broker2.conf"
for broker in broker1 broker2; do
    if [ -n "$roam" ]; then
        "$roam" check "$dir/$broker.conf"
        start $broker "$roam" serve "$dir/$broker.conf"
    else
        start $broker python3 "$here/around.py" "$dir/$broker.conf"
    fi
done
start home python3 "$here/spreading.py" home "$dir/seen"
start nas python3 "$here/spreading.py" disconnected "$sources"
for part in broker1 broker2 home; do ready $part; done

part nas access-servers $service "$sources"
part home verdict "$dir/seen" "$sources" 2
part home disconnect "$dir/seen" 10.60.11.1 10.60.12.1

echo "the second broker is taken out"
kill "${started[1]}"
slots 10.60.11.1 10.60.11.1
sleep 2
: > "$dir/seen"
part nas access-servers $service "$sources"
part home verdict "$dir/seen" "$sources" 1
sort -u "$dir/broker1.err" "$dir/broker2.err"
