#!/bin/sh
# Chains of one-place buffers, 2 to 48 stages: the rows made, those of the result and the milliseconds, and then the peak memory of
# all of them together, where GNU time is there.
# usage: bench/chains.sh [PROGRAM], where PROGRAM is the built program of crates/occ_bench
here=$(cd "$(dirname "$0")/.." && pwd) || exit 1
program=${1:-$here/crates/occ_bench/out/occ_bench}
if [ -x /usr/bin/time ]; then
    /usr/bin/time -f "peak memory: %M KB" "$program" chains long times
else
    "$program" chains long times
fi
