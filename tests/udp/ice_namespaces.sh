#!/bin/sh
# Two namespaces with two links: `ina` (10.79.0.1, 10.79.1.1, fd79::1) and `inb` (.2 of each).
#     ice_namespaces.sh up|down|nat
# `nat` puts a translator `inr` before `inb`, whose only address is then 10.80.0.2; ina has no way
# to it. A STUN server at 10.79.0.1 sees 10.79.0.254.
for ns in ina inb inr; do ip netns del $ns 2>/dev/null; done
[ "$1" = down ] && exit 0
for ns in ina inb inr; do ip netns add $ns; ip -n $ns link set lo up; done
if [ "$1" = up ]; then
    for i in 0 1; do
        ip link add a$i netns ina type veth peer name b$i netns inb
        for n in 1 2; do
            ns=$(echo ina inb | cut -d' ' -f$n); l=$(echo a b | cut -d' ' -f$n)$i
            ip -n $ns addr add 10.79.$i.$n/24 dev $l
            [ $i = 0 ] && ip -n $ns addr add fd79::$n/64 dev $l nodad
            ip -n $ns link set $l up
        done
    done
    ip -n ina route add default via 10.79.0.2
    ip -n inb route add default via 10.79.0.1
else
    ip link add a0 netns ina type veth peer name r0 netns inr
    ip link add b0 netns inb type veth peer name r1 netns inr
    ip -n ina addr add 10.79.0.1/24 dev a0; ip -n ina link set a0 up
    ip -n inr addr add 10.79.0.254/24 dev r0; ip -n inr link set r0 up
    ip -n inr addr add 10.80.0.1/24 dev r1; ip -n inr link set r1 up
    ip -n inb addr add 10.80.0.2/24 dev b0; ip -n inb link set b0 up
    ip -n inb route add default via 10.80.0.1
    ip netns exec inr sysctl -qw net.ipv4.ip_forward=1
    ip netns exec inr nft 'add table ip t; add chain ip t p { type nat hook postrouting priority 100; }; add rule ip t p oifname r0 masquerade'
fi
