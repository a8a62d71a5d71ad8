#!/usr/bin/env bash
# What judging a long session with a large table costs, beside decoding the same capture: processor
# time, and memory before the ends are listed and with them. The captures are those of sessions.py:
# a table that a peer sends in order, and then none, 100,000 and 2,000,000 further records, UPDATEs
# of groups that are announced or withdrawn again and KEEPALIVEs; the peer ends the session, or it
# goes on and its routes are printed. One more goes on and has four ends. Beside the memory stands
# that of the table alone, with the routes of the same UPDATEs and nothing else (`bench_loads
# table`), and beside its time that of the same changes in a table of hashes in C (bench/hash.c),
# which does nothing else.
#
# Wants bash, coreutils, python3, cc, GNU time for the memory with the ends, and the programs that
# `rt run` built in crates/bgp/out/bgp and crates/bench_loads/out/bench_loads. Prints figures; it is
# no test. Words: those programs, if they are others, and how many prefixes the table has.
set -euo pipefail

here=$(cd "$(dirname "$0")" && pwd)
bgp=${1:-$here/../crates/bgp/out/bgp}
loads=${2:-$here/../crates/bench_loads/out/bench_loads}
prefixes=${3:-1000000}
[[ -x $bgp ]] ||
    { echo "build the program first: (cd crates/bgp && rt run -- --version)" >&2; exit 1; }
[[ -x $loads ]] ||
    { echo "build the program first: (cd crates/bench_loads && rt run -- speaker)" >&2; exit 1; }

work=$(mktemp -d)
trap 'rm -rf "$work"' EXIT
cc -O2 -o "$work/hash" "$here/hash.c"

session=(--peer 192.0.2.2 --local 192.0.2.1)
judge=(judge --local-as 65001 --peer-as 65002 --local-id 192.0.2.1 --families both "${session[@]}")
decode=(decode --mrt "${session[@]}")

# The greatest resident memory in KiB of a program that reads a capture, looked at once all octets
# are handed over and before the capture ends.
peak() {
    local capture=$1 pid
    shift
    mkfifo "$work/pipe"
    "$@" "$work/pipe" > /dev/null &
    pid=$!
    exec 3> "$work/pipe"
    cat "$capture" >&3
    sed -n 's/^VmHWM:[^0-9]*\([0-9]*\).*/\1/p' "/proc/$pid/status"
    exec 3>&-
    wait "$pid" || true
    rm "$work/pipe"
}

# The least processor time of two runs, in milliseconds.
least() {
    local TIMEFORMAT='%3U %3S' run user system spent least=
    for run in 1 2; do
        read -r user system < <({ time "$@" > /dev/null; } 2>&1)
        spent=$((10#${user//./} + 10#${system//./}))
        if [[ -z $least ]] || ((spent < least)); then least=$spent; fi
    done
    echo $((least ? least : 1))
}

# So many thousandths as a number.
thousandths() { printf '%d.%03d' $(($1 / 1000)) $(($1 % 1000)); }

# Prints what a capture costs.
cost() {
    local name=$1 file=$work/capture text=$work/text before alone timed=() verdict judging decoding
    "$here/sessions.py" "$prefixes" "${@:2}" > "$file"
    judging=$(least "$bgp" "${judge[@]}" "$file")
    decoding=$(least "$bgp" "${decode[@]}" "$file")
    before=$(peak "$file" "$bgp" "${judge[@]}")
    alone=$(peak "$file" "$loads" table)
    echo "$prefixes prefixes and $name: $(stat -c %s "$file") octets," \
        "judge: $judging ms, decode --mrt: $decoding ms," \
        "judge to decode: $(thousandths $((judging * 1000 / decoding)))," \
        "table alone: $(least "$loads" table "$file") ms, of hashes: $("$work/hash" "$file") ms;" \
        "peak before the ends: $before KiB, of the table alone: $alone KiB," \
        "more: $((before - alone)) KiB"
    [[ ! -x /usr/bin/time ]] || timed=(/usr/bin/time -f "    peak with the ends: %M KiB")
    "${timed[@]}" "$bgp" "${judge[@]}" "$file" 2>&1 > "$text"
    read -r verdict < "$text"
    [[ $verdict == yes ]] || { echo "it is judged: $verdict" >&2; exit 1; }
    echo "    ends: $(grep -c '^end ' "$text"), their routes: $(grep -c '^route ' "$text")"
}

# The nanoseconds that judging has run, by the kernel's count, once it has read the first octets of
# a capture: as many as each further word says, which ascend.
read_up_to() {
    local capture=$1 pid at=0 offset
    shift
    mkfifo "$work/pipe"
    "$bgp" "${judge[@]}" "$work/pipe" > /dev/null &
    pid=$!
    exec 3> "$work/pipe" 4< "$capture"
    for offset in "$@"; do
        head -c $((offset - at)) <&4 >&3
        at=$offset
        sleep 0.2
        cut -d ' ' -f 1 "/proc/$pid/schedstat"
    done
    exec 3>&- 4<&-
    wait "$pid" || true
    rm "$work/pipe"
}

# The size of a capture with so many further records, with which each longer one begins.
size_with() { "$here/sessions.py" "$prefixes" "$1" | wc -c; }

echo "cores: $(nproc)"
# Two of the four ends have the table. The others have IPv4 disabled, and no routes; each is a copy
# of the table at first, so three copies stand at once.
cost "two further records, four ends" 0 several
for ending in ended ""; do
    what="further records${ending:+, ended}"
    cost "0 $what" 0 $ending
    cost "100000 $what" 100000 $ending
    cost "2000000 $what" 2000000 $ending
done

# The last capture is still there: what a record takes early and late in one run, the least of 12.
offsets=($(for further in 0 100000 1900000 2000000; do size_with $further; done))
early= late=
for run in {1..12}; do
    spent=($(read_up_to "$work/capture" "${offsets[@]}"))
    first=$((spent[1] - spent[0])) last=$((spent[3] - spent[2]))
    if [[ -z $early ]] || ((first < early)); then early=$first; fi
    if [[ -z $late ]] || ((last < late)); then late=$last; fi
done
echo "a further record, judged: $(thousandths $((early / 100000))) us of the first 100000," \
    "$(thousandths $((late / 100000))) us of the last 100000 of 2000000"
