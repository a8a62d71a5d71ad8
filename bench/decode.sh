#!/usr/bin/env bash
# How fast `bgp decode` reads streams, beside `md5sum` and `cat` over the same octets: a mix of
# messages that are mostly UPDATEs which announce, OPENs alone and KEEPALIVEs alone; and how much
# memory it needs for a short stream and for a long one. Wants bash, coreutils and the program that
# `rt run` built in crates/bgp/out/bgp. Prints figures; it is no test.
set -euo pipefail

here=$(cd "$(dirname "$0")" && pwd)
. "$here/measure.sh"
. "$here/mix.sh"
bgp=${1:-$here/../crates/bgp/out/bgp}
[[ -x $bgp ]] ||
    { echo "build the program first: (cd crates/bgp && rt run -- --version)" >&2; exit 1; }

work=$(mktemp -d)
trap 'rm -rf "$work"' EXIT

# A stream of at least so many octets, of copies of what it is to repeat.
stream() {
    printf "$3" > "$work/$1"
    grow "$work/$1" "$2"
}

stream short 2000000 "$(mix)"
stream mix 200000000 "$(mix)"
stream opens 200000000 "$(open)"
stream keepalives 200000000 "$(keepalive)"

# The greatest resident memory of a decoding in KiB, looked at once all octets are handed over and
# before the stream ends.
peak() {
    local pid
    mkfifo "$work/pipe"
    "$bgp" decode - < "$work/pipe" > /dev/null &
    pid=$!
    exec 3> "$work/pipe"
    cat "$1" >&3
    sed -n 's/^VmHWM:[^0-9]*\([0-9]*\).*/\1/p' "/proc/$pid/status"
    exec 3>&-
    wait "$pid" || true
    rm "$work/pipe"
}

echo "cores: $(nproc)"
for name in mix opens keepalives; do
    decode=$(best "$bgp" decode "$work/$name")
    md5=$(best md5sum "$work/$name")
    cat=$(best cat "$work/$name")
    echo "$name: $(stat -c %s "$work/$name") octets, decode: $decode ms, md5sum: $md5 ms," \
        "cat: $cat ms, decode to md5sum: $((decode * 100 / md5))/100"
done
echo "peak memory: $(peak "$work/short") KiB at $(stat -c %s "$work/short") octets," \
    "$(peak "$work/mix") KiB at $(stat -c %s "$work/mix") octets"
