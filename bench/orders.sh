#!/usr/bin/env bash
# What a `no` over all orders costs that the packets allow: processor time and greatest memory of
# `bgp judge` of recordings in which both systems announce COUNT prefixes, RATE in a second, and the
# local system then sends an OPEN again; beside `bgp judge` of the same recording up to that OPEN,
# which is a yes by the order that is made. The more messages pass within the patience (10 seconds),
# the more orders there are; beyond a bound the answer is about one order. Then the same of `bgp
# check`, if both systems send an OPEN again: it looks at both ends, under two configurations each,
# and once more with the greatest patience.
# bench/recordings.py makes the recordings.
# Wants bash, coreutils, python3, GNU time and the program that `rt run` built in crates/bgp/out/bgp.
# Prints figures; it is no test. A word: the program, if it is another one.
set -euo pipefail

here=$(cd "$(dirname "$0")" && pwd)
bgp=${1:-$here/../crates/bgp/out/bgp}
[[ -x $bgp ]] ||
    { echo "build the program first: (cd crates/bgp && rt run -- --version)" >&2; exit 1; }

work=$(mktemp -d)
trap 'rm -rf "$work"' EXIT

judge=(judge --local-as 65001 --peer-as 65002 --local-id 192.0.2.1 --families both
    --local 192.0.2.1 --peer 192.0.2.2)

# What judging a recording takes: seconds of the processor and KiB at the most.
cost() {
    /usr/bin/time -f '%U + %S s, %M KiB' "$bgp" "${judge[@]}" "$1" 2>&1 > /dev/null | tail -1
}

# What checking both ends of one takes.
check_cost() {
    /usr/bin/time -f '%U + %S s, %M KiB' "$bgp" check "$1" 2>&1 > /dev/null | tail -1
}

for size in '100 100' '100 10' '400 400' '400 20' '500 25' '600 60' '700 100' '1000 1000' \
    '1000 100' '3000 300'; do
    read -r count rate <<< "$size"
    "$here/recordings.py" both "$count" "$rate" > "$work/no.pcap"
    # the last packet is the OPEN: a header of 16 octets, two of 40, and 49
    head -c -105 "$work/no.pcap" > "$work/yes.pcap"
    answer=$("$bgp" "${judge[@]}" "$work/no.pcap" 2> /dev/null || true)
    echo "$count UPDATEs of each, $rate in a second: ${answer%%$'\n'*}: $(cost "$work/no.pcap");" \
        "without the OPEN: $(cost "$work/yes.pcap")"
    "$here/recordings.py" each "$count" "$rate" > "$work/each.pcap"
    echo "  both ends checked, each a no: $(check_cost "$work/each.pcap")"
done
