#!/bin/sh
# An example of a script by which a DHCPv6 client hands the prefixes of an uplink to hnd:
#
#     odhcp6c -P 0 -s system/odhcp6c.sh INTERFACE
#
# The client gives the interface, the event, and in PREFIXES what is delegated now, such as
#
#     2001:db8:0:100::/56,3600,7200 2001:db8:1:100::/56,0,600,class=1
#
# with the preferred lifetime before the valid one. Each is delegated to hnd, and each other one is withdrawn. The status is
# 1 if a command was not done.
HND=${HND:-hnd}
SOCKET=${SOCKET:-/run/hnd.sock}
status=0

# Hands a command to the daemon.
tell() {
    "$HND" -c "$SOCKET" -x "$*"
}

case $2 in
    started) exit 0 ;;
    unbound | stopped) PREFIXES= ;;
esac
given=' '
for each in $PREFIXES; do
    prefix=${each%%,*}
    rest=${each#*,}
    preferred=${rest%%,*}
    rest=${rest#*,}
    valid=${rest%%,*}
    given="$given$prefix "
    tell "delegate $prefix $valid $preferred" || status=1
done
held=$(tell show) || status=1
for prefix in $(echo "$held" | sed -n 's/^delegated \([^ ]*\) .*/\1/p'); do
    case $given in
        *" $prefix "*) ;;
        *) tell "withdraw $prefix" || status=1 ;;
    esac
done
exit "$status"
