#!/usr/bin/env bash
# How fast UPDATEs are read into their outcomes, as a ratio to `md5sum` over the same octets: the
# UPDATEs of the mix of bench/decode.sh alone, read in blocks, whose outcomes are kept in an arena.
# Wants bash, coreutils and the program that `rt run` built in crates/bench_loads/out/bench_loads.
# Prints figures; it is no test.
set -euo pipefail

here=$(cd "$(dirname "$0")" && pwd)
. "$here/measure.sh"
. "$here/mix.sh"
program=${1:-$here/../crates/bench_loads/out/bench_loads}
[[ -x $program ]] ||
    { echo "build the program first: (cd crates/bench_loads && rt run -- speaker)" >&2; exit 1; }

work=$(mktemp -d)
trap 'rm -rf "$work"' EXIT

printf "$(updates)" > "$work/updates"
"$program" updates "$work/updates"
grow "$work/updates" 200000000

read=$(best "$program" updates "$work/updates")
md5=$(best md5sum "$work/updates")
echo "updates: $(stat -c %s "$work/updates") octets, cores: $(nproc)"
echo "read into outcomes: $read ms, md5sum: $md5 ms, ratio: $((read * 100 / md5))/100"
