#!/bin/sh
# Runs generated chains through the built program, and prints for each the seconds of the processor, the peak memory in KB
# and how many rows its normal text has.
here=$(cd "$(dirname "$0")" && pwd) || exit 1
program=$here/../crates/occ_tool/out/occ_tool
if [ ! -x "$program" ]; then
    echo "build the program first, by ./occam build" >&2
    exit 1
fi
out=$(mktemp) || exit 1
for chain in "buffers 12" "buffers 24" "buffers 48" "adders 5" "adders 48" "muxes 3" "muxes 48"; do
    # the words of a chain are two arguments
    # shellcheck disable=SC2086
    cost=$(/usr/bin/time -f '%U s %M KB' "$program" stress $chain 2>&1 >"$out")
    printf '%-12s %s %s\n' "$chain" "$cost" "$(sed -n 2p "$out")"
done
rm -f "$out"
