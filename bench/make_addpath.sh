#!/bin/sh
# Makes DIR/addpath.mrt, the dump, and DIR/addpath_updates.mrt: BIRD 2 to BIRD 2 with ADD-PATH (RFC 7911).
# Usage:  make_addpath.sh DIR      as root; needs bird2 and iproute2.
set -eu
mkdir -p "$1"
cd "$1"
ip netns add fib_c
ip netns add fib_s
trap 'ip netns del fib_c; ip netns del fib_s' EXIT
ip link add fib_vc netns fib_c type veth peer name fib_vs netns fib_s
for end in "c 1" "s 11"; do
    set -- $end
    ip -n fib_$1 addr add 192.0.2.$2/24 dev fib_v$1
    ip -n fib_$1 addr add 2001:db8::$2/64 dev fib_v$1 nodad
    ip -n fib_$1 link set lo up
    ip -n fib_$1 link set fib_v$1 up
done
static() {  # NAME FAMILY PREFIX HOP PATH_LENGTH
    printf 'protocol static %s {\n ipv%s { import filter { ' "$1" "$2"
    n=1
    while [ $n -lt "$5" ]; do printf 'bgp_path.prepend(64511); '; n=$((n + 1)); done
    printf 'accept; }; };\n route %s via %s;\n}\n' "$3" "$4"
}
channel() { printf ' ipv4 { %s };\n ipv6 { %s };\n' "$1" "$1"; }
{
    printf 'router id 192.0.2.11;\nprotocol device {}\n'
    static a 4 10.0.0.0/8 192.0.2.21 2
    static b 4 10.0.0.0/8 192.0.2.22 1
    static c 4 10.0.0.0/8 192.0.2.23 1
    static d 4 198.51.100.0/24 192.0.2.21 1
    static e 6 2001:db8:8000::/33 2001:db8::21 2
    static f 6 2001:db8:8000::/33 2001:db8::22 1
    printf 'protocol bgp to_collector {\n local 192.0.2.11 as 64500; neighbor 192.0.2.1 as 65000;\n'
    channel 'import none; export all; add paths tx; next hop keep;'
    printf '}\n'
} > s.conf
{
    printf 'router id 192.0.2.1;\nmrtdump "addpath_updates.mrt";\nmrtdump protocols all;\nprotocol device {}\n'
    printf 'protocol bgp of_speaker {\n local 192.0.2.1 as 65000; neighbor 192.0.2.11 as 64500;\n'
    channel 'import all; export none; add paths rx;'
    printf '}\n'
} > c.conf
ip netns exec fib_c bird -c c.conf -s c.ctl -P c.pid
ip netns exec fib_s bird -c s.conf -s s.ctl -P s.pid
sleep 9
birdc -s c.ctl 'mrt dump table "master*" to "addpath.mrt"'
birdc -s c.ctl show route all > before.txt
sleep 1
birdc -s s.ctl disable b
birdc -s s.ctl disable f
sleep 1
birdc -s c.ctl show route all > after.txt
birdc -s s.ctl down
birdc -s c.ctl down
sleep 1
