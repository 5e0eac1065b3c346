#!/bin/sh
# Tries hnd between network namespaces of this machine: three routers and two hosts, joined by pairs of veth.
#
#     daemon/net.sh DAEMON          such as: daemon/net.sh daemon/out/hnd
#
#     near -- gateway -- middle -- far -- host
#
# The gateway has the delegated prefix 2001:db8:0:100::/56. Each router sends Router Advertisements, sets addresses and
# routes, and runs babeld, which carries the routes to the others. This is tried:
#
#   - The routers agree: they have one network state hash and reach three nodes, and all prefixes are applied.
#   - The host comes to its link after that, and solicits. It takes an address by SLAAC in the prefix of the link.
#   - radvdump and tcpdump read this prefix in the advertisement.
#   - The near host reaches the address of each router and that of the other host, by ping.
#   - The gateway's prefix is withdrawn. Then the address of the host is deprecated.
#   - Each daemon ends with status 0, and leaves no address and no route. tools/judge finds nothing in what the routers
#     sent to each other.
#
# It takes root and ip (iproute2). Without them, or where no namespace can be made, the one line is "skipped: ..", with
# status 0. What takes babeld, ping, tcpdump, radvdump or tools/judge (tshark, Python and hncp) is skipped without them. The
# last line is "agreed" with status 0, or a line says what failed, with status 1. It ends within two minutes, and leaves
# nothing.
set -eu

if [ $# -ne 1 ] || [ ! -f "$1" ] || [ ! -x "$1" ]; then
    echo 'usage: daemon/net.sh DAEMON, which is made by make in the folder daemon' >&2
    exit 2
fi
daemon=$(cd "$(dirname "$1")" && pwd)/$(basename "$1")
top=$(cd "$(dirname "$0")/.." && pwd)
HNCP=${HNCP:-$top/crates/hncp/out/hncp}
export HNCP
uplink=2001:db8:0:100::/56
net=hnd-$$ # the names of the namespaces begin with it
daemons=   # their process numbers, in the order gateway, middle, far
captures=  # those of tcpdump
work=$(mktemp -d)

# Ends what runs in the namespaces, and removes them and the folder.
clean_up() {
    for name in gateway middle far near host; do
        for process in $(ip netns pids "$net-$name"); do
            kill -KILL "$process" || true
        done
        ip netns del "$net-$name" || true
    done
    wait
    rm -rf "$work"
} 2> /dev/null
trap clean_up EXIT
trap 'exit 1' INT TERM HUP PIPE

# Says why nothing is tried.
skip() {
    echo "skipped: $1"
    exit 0
}

# Says what failed, with the last lines of all logs.
fail() {
    echo "failed: $1"
    for log in "$work"/*.log; do
        if [ -s "$log" ]; then
            echo "the end of ${log##*/}:"
            tail -n 8 "$log" | sed 's/^/  /'
        fi
    done
    exit 1
} >&2

# Whether all these programs are there. If not, it says what is skipped: have PART PROGRAM..
have() {
    part=$1
    shift
    for program; do
        command -v "$program" > /dev/null || { echo "skipped $part: there is no $program"; return 1; }
    done
}

# Sets a variable to the moment, in hundredths of a second.
look_at_clock() {
    read -r up rest < /proc/uptime
    clock=${up%.*}${up#*.}
}

# Writes the seconds since a moment, such as 3.2.
since() {
    look_at_clock
    tenths=$(((clock - $1) / 10))
    echo "$((tenths / 10)).$((tenths % 10))"
}

# Waits until a command is true, for so many seconds at most, and not past the deadline: wait_for SECONDS COMMAND..
wait_for() {
    look_at_clock
    last=$((clock + $1 * 100))
    [ "$last" -lt "$deadline" ] || last=$deadline
    shift
    until "$@"; do
        look_at_clock
        [ "$clock" -lt "$last" ] || return 1
        sleep 0.1
    done
}

# Sets a number of IPv6 in a namespace: put NAME INTERFACE/KEY NUMBER
put() {
    # shellcheck disable=SC2016 # the words belong to the inner shell
    ip netns exec "$net-$1" sh -c 'echo "$1" > "/proc/sys/net/ipv6/conf/$0"' "$2" "$3"
}

# Makes a link between two. The interface of each is named after the other.
join() {
    ip link add "to-$2" netns "$net-$1" type veth peer name "to-$1" netns "$net-$2" 2> "$work/why" \
        || skip "there is no veth: $(cat "$work/why")"
}

# Whether an interface has a link-local address that may be used: has_address NAME INTERFACE
has_address() {
    ip -n "$net-$1" -o -6 addr show dev "$2" scope link -tentative | grep -q inet6
}

# Writes what passes an interface to a file: capture FILE NAME INTERFACE FILTER
capture() {
    : > "$work/$1.log"
    ip netns exec "$net-$2" tcpdump --immediate-mode -U -s 0 -w - -i "$3" "$4" > "$work/$1" 2> "$work/$1.log" &
    captures="$captures $!"
    wait_for 5 grep -q 'listening on' "$work/$1.log" || fail "tcpdump does not begin at $3 of $2"
}

# Starts the daemon of a router: start NAME INPUT WORD..
start() {
    name=$1
    input=$2
    shift 2
    : > "$work/$name.log"
    ip netns exec "$net-$name" "$daemon" -arf -t 110 "$@" < "$input" > "$work/$name.log" 2>&1 &
    daemons="$daemons $!"
}

# Starts babeld on a router: it carries the routes of hnd, which have the protocol number 44: route NAME INTERFACE..
route() {
    name=$1
    shift
    ip netns exec "$net-$name" babeld -I "$work/$name.pid" -S "$work/$name.state" -C 'redistribute proto 44 allow' \
        -C 'redistribute local deny' "$@" > "$work/$name-babeld.log" 2>&1 &
}

# Writes what a router said last: its hash, how many nodes it reaches, how many assignments are applied and are not.
state() {
    awk '
        $2 ~ /^net=/ { hash = $2 }
        $2 == "reach" { reach = $3 }
        $2 == "assigned" { applied[$3, $4] = ($6 == "applied=yes") }
        $2 == "gone" { delete applied[$3, $4] }
        END { for (it in applied) if (applied[it]) yes++; else no++
              print hash, reach, yes + 0, no + 0 }' "$work/$1.log"
}

# Whether the routers agree. Each has two links. No daemon may have ended.
agree() {
    for process in $daemons; do
        [ -d "/proc/$process" ] || fail 'a daemon has ended'
    done
    hash=$(state gateway)
    hash=${hash%% *}
    [ "$(state gateway)" = "$hash 3 2 0" ] || return 1
    [ "$(state middle)" = "$hash 3 2 0" ] && [ "$(state far)" = "$hash 3 2 0" ]
}

# Writes the prefix that was assigned last to a link: prefix_of NAME INTERFACE
prefix_of() {
    awk -v link="$2" '$2 == "assigned" && $3 == link { prefix = $4 } END { print prefix }' "$work/$1.log"
}

# Writes the line of ip on the address of the host in the prefix of its link.
host_line() {
    ip -n "$net-host" -o -6 addr show dev to-far scope global dynamic | grep "inet6 ${prefix%:/64}"
}

# Whether the host has this address.
has_host_line() {
    host_line > /dev/null
}

# Whether it is deprecated.
is_deprecated() {
    host_line | grep -q 'deprecated .* preferred_lft 0sec'
}

# Writes the addresses of a global scope on an interface: addresses NAME INTERFACE
addresses() {
    ip -n "$net-$1" -o -6 addr show dev "$2" scope global | awk '{ sub("/.*", "", $4); print $4 }'
}

# Whether the near host has an address.
has_near_address() {
    [ -n "$(addresses near to-gateway)" ]
}

# Whether the near host reaches an address: reaches ADDRESS
reaches() {
    ip netns exec "$net-near" ping -6 -c 1 -W 1 "$1" > /dev/null 2>&1
}

# Whether tcpdump reads the prefix in an advertisement.
tcpdump_reads() {
    tcpdump -n -vv -r "$work/host.pcap" 'icmp6 and ip6[40] == 134' 2> /dev/null | grep -q "prefix info .* $prefix,"
}

# Whether processes have all ended: have_ended PROCESS..
have_ended() {
    for process; do
        [ ! -d "/proc/$process" ] || return 1
    done
}

# Says what tools/judge finds in a capture. A router that waits long for a processor sends late, and this is found too:
# judge FILE
judge() {
    look_at_clock
    if ! timeout $(((deadline - clock) / 100 + 20)) "$top/tools/judge" "$work/$1" > "$work/$1.log" 2>&1; then
        grep '^  frame' "$work/$1.log" >&2 || true
        fail "tools/judge finds something in $1, or does not come to an end"
    fi
    echo "judge finds nothing in $1: $(head -n 1 "$work/$1.log")"
}

# Makes the namespaces and the links. The host stays away from its link for now.
make_net() {
    [ "$(id -u)" = 0 ] || skip 'network namespaces take root'
    command -v ip > /dev/null || skip 'there is no ip; on Debian: apt-get install iproute2'
    for name in gateway middle far near host; do
        ip netns add "$net-$name" 2> "$work/why" || skip "there are no network namespaces: $(cat "$work/why")"
    done
    join near gateway
    join gateway middle
    join middle far
    join far host
    for at in near/to-gateway host/to-far; do
        put "${at%/*}" "${at#*/}/accept_ra" 1
        put "${at%/*}" "${at#*/}/autoconf" 1
    done
    put host to-far/disable_ipv6 1
    for at in near/to-gateway gateway/to-near gateway/to-middle middle/to-gateway middle/to-far far/to-middle far/to-host \
        host/to-far; do
        put "${at%/*}" "${at#*/}/accept_dad" 0
        ip -n "$net-${at%/*}" link set lo up
        ip -n "$net-${at%/*}" link set "${at#*/}" up
    done
    for at in gateway/to-near gateway/to-middle middle/to-gateway middle/to-far far/to-middle far/to-host; do
        wait_for 5 has_address "${at%/*}" "${at#*/}" || fail "${at#*/} of ${at%/*} has no link-local address"
    done
}

# Starts the captures and the daemons, and waits until these agree.
try_routers() {
    if have 'the captures' tcpdump; then
        capture gateway-middle.pcap gateway to-middle 'udp port 8231 or ip6 proto 44'
        capture middle-far.pcap far to-middle 'udp port 8231 or ip6 proto 44'
        capture host.pcap host to-far icmp6
    fi
    mkfifo "$work/commands"
    exec 3<> "$work/commands"
    look_at_clock
    begun=$clock
    start gateway "$work/commands" -i 00000001 -p "$uplink:7200:3600" to-near to-middle
    start middle /dev/null -i 00000002 to-gateway to-far
    start far /dev/null -i 00000003 to-middle to-host
    routed=
    if have 'the ping between hosts' babeld ping; then
        routed=yes
        route gateway to-middle
        route middle to-gateway to-far
        route far to-middle
    fi
    wait_for 60 agree || fail 'the routers do not agree within 60 s'
    time_to_agree=$(since "$begun")
    echo "agreed after $time_to_agree s: $hash"
    [ "$(prefix_of gateway to-middle)" = "$(prefix_of middle to-gateway)" ] || fail 'gateway and middle differ'
    [ "$(prefix_of middle to-far)" = "$(prefix_of far to-middle)" ] || fail 'middle and far differ'
}

# The host comes to its link.
try_host() {
    prefix=$(prefix_of far to-host)
    if have 'what radvdump reads' radvdump; then
        : > "$work/radvdump.log"
        ip netns exec "$net-host" radvdump > "$work/radvdump.log" 2>&1 &
    fi
    look_at_clock
    begun=$clock
    put host to-far/disable_ipv6 0
    wait_for 15 has_host_line || fail "the host takes no address in $prefix"
    echo "host has $(host_line | awk '{ print $4 }') $(since "$begun") s after it came to its link"
    grep -q ' solicited to-host$' "$work/far.log" || fail 'far heard no solicitation'
    if [ -f "$work/radvdump.log" ]; then
        wait_for 5 grep -q "prefix $prefix" "$work/radvdump.log" || fail "radvdump does not read $prefix"
        echo "radvdump reads $prefix"
    fi
    if [ -n "$captures" ]; then
        wait_for 5 tcpdump_reads || fail "tcpdump does not read $prefix"
        echo "tcpdump reads $prefix"
    fi
}

# The near host reaches each router and the other host. Babel needs some seconds for its routes.
try_ping() {
    [ -n "$routed" ] || return 0
    look_at_clock
    begun=$clock
    wait_for 20 has_near_address || fail 'the near host takes no address'
    for at in gateway/to-near gateway/to-middle middle/to-gateway middle/to-far far/to-middle far/to-host host/to-far; do
        for address in $(addresses "${at%/*}" "${at#*/}"); do
            wait_for 30 reaches "$address" || fail "the near host does not reach $address of ${at%/*}"
        done
    done
    echo "near reaches each router and host $(since "$begun") s later"
    address=$(addresses host to-far | head -n 1)
    ip netns exec "$net-near" ping -6 -q -c 20 -i 0.05 -W 1 "$address" > "$work/ping.log" 2>&1 || fail 'the ping fails'
    echo "ping from near to host: $(sed -n 's/.*received, //p' "$work/ping.log")"
}

# The delegated prefix is withdrawn.
try_withdrawal() {
    look_at_clock
    begun=$clock
    echo "withdraw $uplink" >&3
    wait_for 10 is_deprecated || fail "the host's address is not deprecated within 10 s: $(host_line)"
    echo "deprecated $(since "$begun") s after the prefix was withdrawn"
}

# The daemons end: the gateway by a command, and the others by a signal. Sets a variable to the most memory of each.
try_end() {
    # shellcheck disable=SC2086 # one word for each
    set -- $daemons
    memory="gateway=$(peak "$1") middle=$(peak "$2") far=$(peak "$3")"
    daemons=
    echo quit >&3
    kill "$2" "$3"
    wait_for 8 have_ended "$@" || fail 'a daemon does not end'
    for process; do
        wait "$process" || fail "a daemon ended with status $?"
    done
    for name in gateway middle far; do
        left=$(ip -n "$net-$name" -6 route show proto 44; ip -n "$net-$name" -o -6 addr show scope global)
        [ -z "$left" ] || fail "hnd leaves on $name: $left"
    done
}

# Writes the most memory that a process had.
peak() {
    awk '/^VmHWM/ { print $2 $3 }' "/proc/$1/status"
}

# The captures of the links between routers are judged.
try_judge() {
    if [ -n "$captures" ] && have 'what tools/judge finds' timeout python3 tshark "$HNCP"; then
        # shellcheck disable=SC2086 # one word for each
        kill $captures
        # shellcheck disable=SC2086
        wait_for 5 have_ended $captures || fail 'tcpdump does not end'
        judge gateway-middle.pcap
        judge middle-far.pcap
    fi
}

look_at_clock
deadline=$((clock + 9500)) # all waits end by then, and 20 s later tools/judge ends
make_net
try_routers
try_host
try_ping
try_withdrawal
try_end
try_judge
size=
if have 'the size' strip; then
    strip -o "$work/stripped" "$daemon"
    size=" stripped=$(wc -c < "$work/stripped")B"
fi
echo "figures agree=${time_to_agree}s $memory$size"
echo agreed
