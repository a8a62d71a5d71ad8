#!/usr/bin/env bash
# How a table of routes grows: prefixes of both families, a fifth as many of IPv6 as of IPv4, put
# in no order in UPDATEs of six, a tenth of them withdrawn and put again, and all listed in order.
# `read` is the time that `read_update` takes for the UPDATEs, and `apply` what applying the changes
# of the same UPDATEs takes; behind `ascending`, both where each prefix is above the one before it.
# Beside it the same routes in no order in the balanced tree of the C library (bench/routes.c): it
# holds what the table holds, in a structure of the same growth, and does nothing else, which is why
# it is the baseline. Octets a route are those of a table whose routes share one path.
#
# `apply` takes longer than `read`. An UPDATE is read once through, from octets that lie side by
# side. A prefix goes to its place in a sorted table, 4 to 6 nodes down, and on the way it is
# compared with 20 to 30 others; and in no order the lowest nodes are in no cache where the table is
# large. The tree of the C library, with one route to a node, waits more often.
#
# Wants bash, coreutils, sed, cc and the program that `rt run` built in
# crates/bench_loads/out/bench_loads. Prints figures; it is no test.
set -euo pipefail

here=$(cd "$(dirname "$0")" && pwd)
program=${1:-$here/../crates/bench_loads/out/bench_loads}
[[ -x $program ]] ||
    { echo "build the program first: (cd crates/bench_loads && rt run -- speaker)" >&2; exit 1; }

work=$(mktemp -d)
trap 'rm -rf "$work"' EXIT
cc -O2 -o "$work/tree" "$here/routes.c"

# A figure of what a program printed: the microseconds of a phase, or KiB at most.
figure() { sed -n "s/.*$1[^0-9]*\([0-9]*\).*/\1/p" "$2"; }

# Runs a program three times, and keeps what it printed.
thrice() {
    local name=$1 run
    shift
    for run in 1 2 3; do
        "$@" > "$work/$name.$run"
        grep -q 'in order: true' "$work/$name.$run"
    done
}

# The least figure of those runs.
least() { for run in 1 2 3; do figure "$2" "$work/$1.$run"; done | sort -n | head -1; }

# Microseconds as milliseconds.
ms() { printf '%d.%d ms' $(($1 / 1000)) $(($1 % 1000 / 100)); }

"$program" routes 1 1 1 > "$work/empty"
empty=$(figure VmHWM: "$work/empty")
echo "cores: $(nproc), no routes: $empty KiB"
for v4 in 10000 100000 1000000; do
    size=("$v4" $((v4 / 5)) $((v4 / 5)))
    routes=$((v4 + v4 / 5))
    thrice tree "$work/tree" "${size[@]}"
    thrice table "$program" routes "${size[@]}"
    thrice ascending "$program" routes "${size[@]}" sorted
    "$program" routes "${size[@]}" shared > "$work/shared"
    alone=$(figure VmHWM: "$work/shared")
    echo "$routes routes: read $(ms "$(least table read)")," \
        "apply $(ms "$(least table apply)"), list $(ms "$(least table list)")," \
        "$(least table VmHWM:) KiB;" \
        "ascending: read $(ms "$(least ascending read)")," \
        "apply $(ms "$(least ascending apply)");" \
        "$(((alone - empty) * 1024 / routes)) octets a route beside its path;" \
        "tsearch: $(ms "$(least tree apply)"), list $(ms "$(least tree list)")," \
        "$(least tree VmHWM:) KiB"
done
