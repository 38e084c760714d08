#!/usr/bin/env bash
# Records handshakes in tunnels between two network namespaces: tests/recorders/tunnels.sh FOLDER
#
# `tests/recorders/record tunnels` runs it, and writes the expected lines. FOLDER gets a capture for
# each tunnel.
[ "${1-}" != --help ] || exec sed -n '2,/^[^#]/s/^# \{0,1\}//p' "$0"
set -euo pipefail
[ $# -eq 1 ] || exec "$0" --help
folder="$1"
room="$(mktemp -d -t tunnels-XXXXXX)"

clean() {
    for side in a b; do
        for program in ovs-vswitchd ovsdb-server; do
            kill "$(cat "$room/$side/$program.pid" 2> /dev/null)" 2> /dev/null || true
        done
    done
    kill $(jobs -p) 2> /dev/null || true
    ip netns del tunnel_a 2> /dev/null || true
    ip netns del tunnel_b 2> /dev/null || true
    rm -rf "$room"
}
trap clean EXIT

# Runs a command on a side, a or b.
on() {
    local side="$1"
    shift
    ip netns exec "tunnel_$side" env "OVS_RUNDIR=$room/$side" "OVS_DBDIR=$room/$side" "OVS_LOGDIR=$room/$side" "$@"
}

# The last number of a side's addresses, or of those of the side that is named.
number() {
    [ "$1" = a ] && echo 1 || echo 2
}

other() {
    [ "$1" = a ] && echo b || echo a
}

# Gives a side's device its addresses, and turns it on.
up() {
    on "$1" ip address add "$3.$(number "$1")/24" dev "$2"
    on "$1" ip link set "$2" up
}

# Records three handshakes to a capture of that name, of the packets that the filter passes.
handshakes() {
    ip netns exec tunnel_a dumpcap -q -P -i outside -f "$2" -w "$room/$1.pcap" 2> /dev/null &
    local dumping=$! asked address version
    sleep 3
    for asked in '192.0.2.2 -tls1_2' '192.0.2.2 -tls1_3' '[2001:db8::2] -tls1_2'; do
        read -r address version <<< "$asked"
        on a openssl s_client -connect "$address:4433" -servername example.test "$version" < /dev/null > /dev/null 2>&1 || true
        sleep 0.3
    done
    sleep 1
    kill -INT "$dumping"
    wait "$dumping" || true
    install -m 644 "$room/$1.pcap" "$folder/$1.pcap"
}

ip netns add tunnel_a
ip netns add tunnel_b
ip link add name outside netns tunnel_a type veth peer name outside netns tunnel_b
openssl req -x509 -newkey rsa:2048 -nodes -keyout "$room/key" -out "$room/certificate" -subj /CN=example.test -days 30 2> /dev/null
# (without `on`, so that the job that `clean` ends is the server itself)
ip netns exec tunnel_b openssl s_server -quiet -accept 4433 -key "$room/key" -cert "$room/certificate" -www > /dev/null 2>&1 &

# The kernel's tunnel.
for side in a b; do
    on "$side" ip link set lo up
    up "$side" outside 198.51.100
    on "$side" ip link add name inside type vxlan id 4242 dstport 4789 local "198.51.100.$(number "$side")" remote "198.51.100.$(number "$(other "$side")")" dev outside
    up "$side" inside 192.0.2
    on "$side" ip -6 address add "2001:db8::$(number "$side")/64" dev inside nodad
done
handshakes vxlan 'udp port 4789'

# Those of Open vSwitch: under them is a bridge on the wire, over them one with the addresses inside.
for side in a b; do
    mkdir "$room/$side"
    on "$side" ip link del inside
    on "$side" ip address flush dev outside
    ovsdb-tool create "$room/$side/conf.db" /usr/share/openvswitch/vswitch.ovsschema
    on "$side" ovsdb-server "$room/$side/conf.db" --remote="punix:$room/$side/db.sock" --pidfile="$room/$side/ovsdb-server.pid" --unixctl="$room/$side/db.ctl" --detach --no-chdir --log-file 2> /dev/null
    switch=(on "$side" ovs-vsctl --db="unix:$room/$side/db.sock")
    "${switch[@]}" --no-wait init
    on "$side" ovs-vswitchd "unix:$room/$side/db.sock" --pidfile="$room/$side/ovs-vswitchd.pid" --unixctl="$room/$side/switch.ctl" --detach --no-chdir --log-file 2> /dev/null
    "${switch[@]}" add-br under -- set bridge under datapath_type=netdev -- add-port under outside
    "${switch[@]}" add-br over -- set bridge over datapath_type=netdev "other-config:hwaddr=02:00:00:00:00:0$(number "$side")"
    up "$side" under 198.51.100
    on "$side" ip link set over mtu 1400
    up "$side" over 192.0.2
    on "$side" ip -6 address add "2001:db8::$(number "$side")/64" dev over nodad
done
for kind in 'geneve geneve key=4243' 'gre gre key=4244 seq=true' 'gre_checksum gre key=4245 csum=true' 'erspan2 erspan key=45 erspan_ver=1 erspan_idx=7' 'erspan3 erspan key=46 erspan_ver=2 erspan_dir=0 erspan_hwid=4'; do
    read -r name type options <<< "$kind"
    for side in a b; do
        on "$side" ovs-vsctl --db="unix:$room/$side/db.sock" --if-exists del-port over tunnel -- add-port over tunnel \
            -- set interface tunnel "type=$type" "options:remote_ip=198.51.100.$(number "$(other "$side")")" $(printf 'options:%s ' $options)
    done
    sleep 1
    handshakes "$name" 'proto 47 or udp port 6081'
done
