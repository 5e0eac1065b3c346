#!/bin/sh
# Two routers on the loopback, each a process of its own: they find each other, and each says that it reaches two nodes.
# The program is the first word, else that of HNCP, else where `rt run` makes it. It ends by itself within half a minute.
set -eu
program=${1:-${HNCP:-$(dirname "$0")/../crates/hncp/out/hncp}}
work=$(mktemp -d)
trap 'rm -rf "$work"' EXIT
printf 'hncp 1\nexternal 2001:db8::/56 7200 3600\n' > "$work/uplink"
printf 'hncp 1\n' > "$work/plain"
# Ports 23000 to 23003: each node sends from its port, and takes multicasts at the port after it.
"$program" node 00000001 23000 1000 1 23002 < "$work/uplink" > "$work/one" &
one=$!
"$program" node 00000002 23002 1000 2 23000 < "$work/plain" > "$work/two" &
two=$!
wait "$one" "$two"
cat "$work/one" "$work/two"
grep -q ' reach=2 ' "$work/one" && grep -q ' reach=2 ' "$work/two"
