#!/usr/bin/env bash
# How fast path attributes are split and classed, as a ratio to `md5sum` over the same octets: the
# attribute fields of real UPDATEs with four-octet AS numbers, one after another. Wants bash,
# coreutils, python3 and the program that `rt run` built in crates/bench_loads/out/bench_loads.
# Prints figures; it is no test.
set -euo pipefail

here=$(cd "$(dirname "$0")" && pwd)
. "$here/measure.sh"
program=${1:-$here/../crates/bench_loads/out/bench_loads}
[[ -x $program ]] ||
    { echo "build the program first: (cd crates/bench_loads && rt run -- speaker)" >&2; exit 1; }

work=$(mktemp -d)
trap 'rm -rf "$work"' EXIT

# The fields of the UPDATEs of examples/real: those of `as-trans` have AS numbers of two octets, in
# `extmsg` some are longer than 4096 octets, and of `refresh` counts what is before ROUTE-REFRESH.
fields() {
    python3 - "$here"/../examples/real/*.bgp << 'END'
import sys
for path in sys.argv[1:]:
    octets, at = open(path, 'rb').read(), 0
    if 'as-trans' in path or 'extmsg' in path:
        continue
    while at < len(octets) and octets[at + 18] != 5:
        if octets[at + 18] == 2:
            start = at + 21 + int.from_bytes(octets[at + 19:at + 21], 'big')
            end = start + 2 + int.from_bytes(octets[start:start + 2], 'big')
            sys.stdout.buffer.write(octets[start + 2:end])
        at += int.from_bytes(octets[at + 16:at + 18], 'big')
END
}

fields > "$work/fields"
"$program" attributes "$work/fields"
grow "$work/fields" 200000000

classed=$(best "$program" attributes "$work/fields")
md5=$(best md5sum "$work/fields")
echo "attributes: $(stat -c %s "$work/fields") octets, cores: $(nproc)"
echo "split and classed: $classed ms, md5sum: $md5 ms, ratio: $((classed * 100 / md5))/100"
