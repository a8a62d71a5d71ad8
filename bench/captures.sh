#!/usr/bin/env bash
# How fast `bgp decode --mrt` reads a capture, beside `md5sum` over the same octets and, where it is
# installed, `bgpdump -m`; and how much memory it needs for a short capture and for a long one, also
# with `--extended`, of a session with UPDATEs of 10,055 octets. And how fast `bgp decode --extended`
# reads a stream of UPDATEs of 65535 octets, beside `md5sum`. The capture is a recorded session of one
# second, again and again: 13 records, 71 octets in the mean; so is that with long UPDATEs: 22
# records, 1902 octets in the mean.
# Wants bash, coreutils and the program that `rt run` built in crates/bgp/out/bgp. Prints figures; it
# is no test. Words: the program, if it is another one, and how many octets the long capture has.
set -euo pipefail

here=$(cd "$(dirname "$0")" && pwd)
. "$here/measure.sh"
bgp=${1:-$here/../crates/bgp/out/bgp}
size=${2:-200000000}
[[ -x $bgp ]] ||
    { echo "build the program first: (cd crates/bgp && rt run -- --version)" >&2; exit 1; }

work=$(mktemp -d)
trap 'rm -rf "$work"' EXIT

session=(decode --mrt --peer 192.0.2.2 --local 192.0.2.1)

# A capture of at least so many octets, of this recording.
capture() {
    cp "$here/../crates/real_captures/data/$3" "$work/$1"
    grow "$work/$1" "$2"
}

capture short 2000000 openbgpd-gobgp.a.up.mrt
capture long "$size" openbgpd-gobgp.a.up.mrt

# UPDATEs of 65535 octets: three attributes, and one of an unknown type that fills them up.
updates() {
    local update=$work/update
    printf '\xff%.0s' {1..16} > "$update"
    printf '\xff\xff\x02\x00\x00\xff\xe6' >> "$update"
    printf '\x40\x01\x01\x00\x40\x02\x06\x02\x01\x00\x00\xfd\xea' >> "$update"
    printf '\x40\x03\x04\xc0\x00\x02\x02\xd0\x63\xff\xce' >> "$update"
    head -c 65486 /dev/zero >> "$update"
    printf '\x08\x0a' >> "$update"
    record "$update"
    mv "$update" "$work/updates"
    grow "$work/updates" "$size"
}

# Captures of these UPDATEs, all received in one second: the body of a record has 65555 octets.
record() {
    local record=$work/record copy
    printf '\x6b\x00\x00\x00\x00\x10\x00\x04\x00\x01\x00\x13' > "$record"
    printf '\x00\x00\xfd\xea\x00\x00\xfd\xe9\x00\x00\x00\x01' >> "$record"
    printf '\xc0\x00\x02\x02\xc0\x00\x02\x01' >> "$record"
    cat "$1" >> "$record"
    for copy in short-extended long-extended; do
        cp "$record" "$work/$copy"
    done
    grow "$work/short-extended" 2000000
    grow "$work/long-extended" "$size"
}

updates

# The greatest resident memory of a decoding in KiB, looked at once all octets are handed over and
# before the capture ends; with further words of `decode`.
peak() {
    local pid
    mkfifo "$work/pipe"
    "$bgp" "${session[@]}" "${@:2}" - < "$work/pipe" > /dev/null &
    pid=$!
    exec 3> "$work/pipe"
    cat "$1" >&3
    sed -n 's/^VmHWM:[^0-9]*\([0-9]*\).*/\1/p' "/proc/$pid/status"
    exec 3>&-
    wait "$pid" || true
    rm "$work/pipe"
}

echo "cores: $(nproc)"
decode=$(best "$bgp" "${session[@]}" "$work/long")
md5=$(best md5sum "$work/long")
echo "$(stat -c %s "$work/long") octets, decode --mrt: $decode ms, md5sum: $md5 ms," \
    "decode to md5sum: $((decode * 100 / md5))/100"
if command -v bgpdump > /dev/null; then
    dump=$(best bgpdump -m "$work/long")
    echo "bgpdump -m: $dump ms, bgpdump to decode: $((dump * 100 / decode))/100"
else
    echo "bgpdump isn't installed"
fi
echo "peak memory: $(peak "$work/short") KiB at $(stat -c %s "$work/short") octets," \
    "$(peak "$work/long") KiB at $(stat -c %s "$work/long") octets"
echo "with --extended: $(peak "$work/short-extended" --extended) KiB at" \
    "$(stat -c %s "$work/short-extended") octets," \
    "$(peak "$work/long-extended" --extended) KiB at $(stat -c %s "$work/long-extended") octets"
decode=$(best "$bgp" decode --extended "$work/updates")
md5=$(best md5sum "$work/updates")
echo "UPDATEs of 65535 octets, $(stat -c %s "$work/updates") octets, decode --extended: $decode ms," \
    "md5sum: $md5 ms, decode to md5sum: $((decode * 100 / md5))/100"
