#!/usr/bin/env bash
# How fast `bgp list` reads a recording, beside `md5sum` over the same octets: one of packets between
# other hosts, and one of a session's UPDATEs. What `bgp judge` of a recording with 100,000 UPDATEs
# costs, beside `bgp judge` of the capture that `bgp import` makes of it, and that import; and the
# memory of the three. What `bgp check` of it costs, which judges both ends, beside `bgp judge` of
# either, and of one whose OPENs offer extended messages. How much memory
# judging needs behind 10 MB and behind 200 MB of packets between other hosts; and how much where a
# packet near the front is lost of 100 MB of UPDATEs, and what is answered.
# bench/recordings.py makes the recordings.
# Wants bash, coreutils, GNU time, python3 and the program that `rt run` built in crates/bgp/out/bgp.
# Prints figures; it is no test. Words: the program, if it is another one, and how many octets the
# long recordings have.
set -euo pipefail

here=$(cd "$(dirname "$0")" && pwd)
. "$here/measure.sh"
bgp=${1:-$here/../crates/bgp/out/bgp}
size=${2:-200000000}
[[ -x $bgp ]] ||
    { echo "build the program first: (cd crates/bgp && rt run -- --version)" >&2; exit 1; }

work=$(mktemp -d)
trap 'rm -rf "$work"' EXIT

ends=(--local 192.0.2.1 --peer 192.0.2.2)
judge=(judge --local-as 65001 --peer-as 65002 --local-id 192.0.2.1 --families both "${ends[@]}")

peers=(judge --local-as 65002 --peer-as 65001 --local-id 192.0.2.2 --families both
    --local 192.0.2.2 --peer 192.0.2.1)

# Makes a recording: its name, its kind and how much of it.
recording() {
    "$here/recordings.py" "$2" "$3" > "$work/$1"
}

# The least processor time of three runs, in milliseconds.
least() {
    local TIMEFORMAT='%3U %3S' run user system spent least=
    for run in 1 2 3; do
        read -r user system < <({ time "$@" > /dev/null 2>&1; } 2>&1)
        spent=$((10#${user//./} + 10#${system//./}))
        if [[ -z $least ]] || ((spent < least)); then least=$spent; fi
    done
    echo $((least ? least : 1))
}

# The greatest resident memory in KiB of judging a recording, looked at once all octets are handed
# over and before it ends.
peak() {
    local pid
    mkfifo "$work/pipe"
    "$bgp" "${judge[@]}" - < "$work/pipe" > /dev/null 2>&1 &
    pid=$!
    exec 3> "$work/pipe"
    cat "$work/$1" >&3
    sed -n 's/^VmHWM:[^0-9]*\([0-9]*\).*/\1/p' "/proc/$pid/status"
    exec 3>&-
    wait "$pid" || true
    rm "$work/pipe"
}

# The greatest resident memory in KiB of a run to its end.
whole() {
    { /usr/bin/time -f %M "$@" 2>&1 > /dev/null || true; } | tail -n 1
}

# Prints what listing a recording costs beside md5sum.
listing() {
    local list md5
    list=$(best "$bgp" list "$work/$1")
    md5=$(best md5sum "$work/$1")
    echo "$(stat -c %s "$work/$1") octets of $2, list: $list ms, md5sum: $md5 ms," \
        "list to md5sum: $((list * 100 / md5))/100"
}

echo "cores: $(nproc)"
recording others others "$size"
recording octets octets "$size"
listing others "other hosts' packets"
listing octets "a session's UPDATEs"

recording updates updates 100000
"$bgp" import "${ends[@]}" "$work/updates" "$work/made" 2> "$work/notes"
of_recording=$(least "$bgp" "${judge[@]}" "$work/updates")
of_capture=$(least "$bgp" "${judge[@]}" "$work/made")
importing=$(least "$bgp" import "${ends[@]}" "$work/updates" -)
read -r verdict < <("$bgp" "${judge[@]}" "$work/updates" 2> "$work/notes")
[[ $verdict == yes ]] || { echo "it is judged: $verdict" >&2; exit 1; }
echo "100,000 UPDATEs, judge of the recording: $of_recording ms, of the capture made of it:" \
    "$of_capture ms, recording to capture: $((of_recording * 100 / of_capture))/100," \
    "import: $importing ms"
checking=$(least "$bgp" check "$work/updates")
read -r _ tally < <("$bgp" check "$work/updates" 2> "$work/notes" | tail -n 1)
[[ $tally == "2: 2 yes, "* ]] || { echo "it is checked: $tally" >&2; exit 1; }
of_peer=$(least "$bgp" "${peers[@]}" "$work/updates")
echo "check of it, both ends: $checking ms, judge of the end that receives them: $of_recording ms," \
    "of the one that sends them: $of_peer ms, check to judge:" \
    "$((checking * 100 / of_recording))/100"
recording extended extended 100000
checking=$(least "$bgp" check "$work/extended")
of_extended=$(least "$bgp" "${judge[@]}" --extended "$work/extended")
echo "check of one whose OPENs offer extended messages, both ends: $checking ms, judge of the end" \
    "that receives them: $of_extended ms, check to judge: $((checking * 100 / of_extended))/100"
in_recording=$(whole "$bgp" "${judge[@]}" "$work/updates")
in_capture=$(whole "$bgp" "${judge[@]}" "$work/made")
in_import=$(whole "$bgp" import "${ends[@]}" "$work/updates" "$work/again")
echo "its $(stat -c %s "$work/updates") octets, peak memory of judging them: $in_recording KiB, of" \
    "judging the capture: $in_capture KiB, of the import: $in_import KiB"

recording few others 10000000
echo "peak memory of judging: $(peak few) KiB at $(stat -c %s "$work/few") octets," \
    "$(peak others) KiB at $(stat -c %s "$work/others") octets"

recording lost lost $((size / 2))
read -r refusal < <("$bgp" "${judge[@]}" "$work/lost" 2> "$work/notes")
took=$(least "$bgp" "${judge[@]}" "$work/lost")
in_lost=$(whole "$bgp" "${judge[@]}" "$work/lost")
echo "$(stat -c %s "$work/lost") octets of UPDATEs, one packet lost: $refusal; $took ms, peak" \
    "memory $in_lost KiB, $((in_lost * 102400 / $(stat -c %s "$work/lost")))/100 of an octet each"
