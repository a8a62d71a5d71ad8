#!/usr/bin/env bash
# What a speaker's core costs: hearing 100,000 UPDATEs of a prefix each, beside judging the capture
# of what it showed then; and announcing 100,000 prefixes, beside writing the same UPDATEs. The
# program bench_loads does all four in one run (`speaker`), on octets in memory; of several runs the
# least time of each counts. Wanted are ratios of at most 1.5 and 3.
#
# Wants bash, coreutils and the program that `rt run` built in crates/bench_loads/out/bench_loads.
# Prints figures; it is no test. Words: that program, if it is another, how many prefixes there are,
# and how many runs.
set -euo pipefail

here=$(cd "$(dirname "$0")" && pwd)
program=${1:-$here/../crates/bench_loads/out/bench_loads}
prefixes=${2:-100000}
runs=${3:-5}
[[ -x $program ]] ||
    { echo "build the program first: (cd crates/bench_loads && rt run -- speaker)" >&2; exit 1; }

# The lesser of a number and one that may not be there yet.
lesser() { if [[ -z $2 ]] || (($1 < $2)); then echo "$1"; else echo "$2"; fi; }

# The ratio of two numbers, to hundredths.
ratio() { printf '%d.%02d' $(($1 / $2)) $(($1 * 100 / $2 % 100)); }

hear= judge= announce= write=
for ((run = 0; run < runs; run++)); do
    said=$("$program" speaker "$prefixes")
    read -r a b < <(sed -n 's/^hear \([0-9]*\) us, judge \([0-9]*\) us$/\1 \2/p' <<< "$said")
    read -r c d < <(sed -n 's/^announce \([0-9]*\) us, write \([0-9]*\) us$/\1 \2/p' <<< "$said")
    hear=$(lesser "$a" "$hear") judge=$(lesser "$b" "$judge")
    announce=$(lesser "$c" "$announce") write=$(lesser "$d" "$write")
done

echo "cores: $(nproc), $prefixes prefixes, the least of $runs runs"
echo "hear: $hear us, judge: $judge us, ratio: $(ratio "$hear" "$judge") (wanted: 1.50)"
echo "announce: $announce us, write: $write us, ratio: $(ratio "$announce" "$write") (wanted: 3.00)"
