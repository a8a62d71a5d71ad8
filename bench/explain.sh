#!/usr/bin/env bash
# What the reason of a verdict costs: `bgp judge --explain` beside `bgp judge` of the same capture,
# in instructions, which are the same in each run, and in processor time. The captures are those of
# sessions.py: a peer's table and then further records. In the first the session goes on, which is a
# yes. In the second a change from Idle to Connect stands at the end, which is a no; in the third it
# stands alone after a session that is opened. Then the same of a recording, a yes, and a no at its
# second record.
#
# Wants bash, coreutils, python3, valgrind, and the program that `rt run` built in
# crates/bgp/out/bgp. Prints figures; it is no test. Words: that program, if it is another, how many
# prefixes the table has, and how many records come after it.
set -euo pipefail

here=$(cd "$(dirname "$0")" && pwd)
bgp=${1:-$here/../crates/bgp/out/bgp}
prefixes=${2:-10000}
further=${3:-20000}
[[ -x $bgp ]] ||
    { echo "build the program first: (cd crates/bgp && rt run -- --version)" >&2; exit 1; }

work=$(mktemp -d)
trap 'rm -rf "$work"' EXIT

judge=(judge --local-as 65001 --peer-as 65002 --local-id 192.0.2.1 --families both
    --peer 192.0.2.2 --local 192.0.2.1)

# A change of state from Idle to Connect in the last second that there is, as a record (RFC 6396,
# 4.4.1): its header, both AS numbers, interface 0, IPv4, both addresses, and the states.
impossible() {
    printf '\xff\xff\xff\xff\x00\x10\x00\x05\x00\x00\x00\x18'
    printf '\x00\x00\xfd\xea\x00\x00\xfd\xe9\x00\x00\x00\x01\xc0\x00\x02\x02\xc0\x00\x02\x01'
    printf '\x00\x01\x00\x02'
}

# How many instructions a command takes. The status of a no is 1.
instructions() {
    { valgrind --tool=cachegrind --cache-sim=no --cachegrind-out-file=/dev/null "$@" 2>&1 \
        > /dev/null || true; } | sed -n 's/^.*I *refs: *//p' | tr -d ,
}

# The processor time of a command, in milliseconds.
spent() {
    local TIMEFORMAT='%3U %3S' user system
    read -r user system < <({ time "$@" > /dev/null 2>&1 || true; } 2>&1)
    echo $((10#${user//./} + 10#${system//./}))
}

# The least processor time of judging a capture and of explaining it, in eleven runs by turns.
least_of_both() {
    local run now plain= explained=
    for run in {1..11}; do
        now=$(spent "$bgp" "${judge[@]}" "$1")
        if [[ -z $plain ]] || ((now < plain)); then plain=$now; fi
        now=$(spent "$bgp" "${judge[@]}" --explain "$1")
        if [[ -z $explained ]] || ((now < explained)); then explained=$now; fi
    done
    echo "$plain" "$explained"
}

# So many thousandths as a number.
thousandths() { printf '%d.%03d' $(($1 / 1000)) $(($1 % 1000)); }

# Prints what a capture costs, whose verdict begins with a word.
cost() {
    local name=$1 word=$2 file=$3 verdict plain explained times
    verdict=$("$bgp" "${judge[@]}" "$file" 2> "$work/remarks" | head -n 1 || true)
    [[ $verdict == "$word"* ]] || { echo "it is judged: $verdict" >&2; exit 1; }
    plain=$(instructions "$bgp" "${judge[@]}" "$file")
    explained=$(instructions "$bgp" "${judge[@]}" --explain "$file")
    times=($(least_of_both "$file"))
    echo "$name, $(stat -c %s "$file") octets, $verdict:" \
        "$plain instructions, with the reason $explained," \
        "$(thousandths $((explained * 1000 / plain))) times, $((explained - plain)) more;" \
        "${times[0]} ms, with the reason ${times[1]} ms"
}

echo "cores: $(nproc)"
"$here/sessions.py" "$prefixes" "$further" > "$work/yes"
cost "$prefixes prefixes and $further further records" yes "$work/yes"
{ cat "$work/yes"; impossible; } > "$work/no"
cost "the same, and an impossible record" no "$work/no"
{ "$here/sessions.py" 0 0; impossible; } > "$work/opened"
cost "a session that is opened, and an impossible record" no "$work/opened"
"$here/recordings.py" updates "$further" > "$work/recording"
cost "a recording of $further UPDATEs" yes "$work/recording"
judge+=(--hold 180)
cost "the same, and another Hold Time configured" no "$work/recording"
