#!/bin/sh
# Parts of scripts of about a megabyte, each large in one direction, on a stack of 8 MiB: what it is, its bytes, lines, controls and
# milliseconds, or why it is refused, and then the peak memory of all of them together, where GNU time is there.
# usage: bench/parts.sh [PROGRAM], where PROGRAM is the built program of crates/occ_bench
here=$(cd "$(dirname "$0")/.." && pwd) || exit 1
program=${1:-$here/crates/occ_bench/out/occ_bench}
ulimit -s 8192
if [ -x /usr/bin/time ]; then
    /usr/bin/time -f "peak memory: %M KB" "$program" parts times
else
    "$program" parts times
fi
