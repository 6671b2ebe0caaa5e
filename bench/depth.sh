#!/bin/sh
# Texts that are deep or long in one direction, on a stack of 8 MiB: thousands of declarations in a row, one declaration of very
# many names, brackets in brackets, a line of many tokens. Each prints its answer, never a fault of the system.
# usage: bench/depth.sh [PROGRAM], where PROGRAM is the built program
here=$(cd "$(dirname "$0")/.." && pwd) || exit 1
program=${1:-$here/crates/occ_tool/out/occ_tool}
room=$(mktemp -d) || exit 1
trap 'rm -rf "$room"' EXIT
ulimit -s 8192

show() {
    answer=$("$program" same "$room/text.occ" "$room/text.occ")
    status=$?
    echo "$1: $(echo "$answer" | head -n 1), status $status"
}

awk 'BEGIN { print "PROC p ()"; for (n = 0; n < 2900; n++) print "  CHAN OF BOOL c" n ":"; print "  SKIP"; print ":" }' > "$room/text.occ"
show "2,900 declarations"
awk 'BEGIN { print "PROC p ()"; for (n = 0; n < 6000; n++) print "  BOOL x:"; print "  SKIP"; print ":" }' > "$room/text.occ"
show "6,000 declarations of one name"
awk 'BEGIN { print "PROC p ()"; printf "  CHAN OF BOOL c"; for (n = 0; n < 30000; n++) printf ",c"; print ":"; print "  SKIP"; print ":" }' > "$room/text.occ"
show "a declaration of 30,000 names"
awk 'BEGIN { print "PROC p ()"; printf "  CHAN OF BOOL c"; for (n = 0; n < 2000; n++) printf ",c" n; print ":"; print "  SKIP"; print ":" }' > "$room/text.occ"
show "a declaration of 2,001 names"
awk 'BEGIN { print "PROC p (WORD8 x)"; printf "  x := "; for (n = 0; n < 1000; n++) printf "("; printf "1"; for (n = 0; n < 1000; n++) printf ")"; print ""; print ":" }' > "$room/text.occ"
show "1,000 brackets"
awk 'BEGIN { print "PROC p (BOOL x)"; printf "  x := x"; for (n = 0; n < 2000; n++) printf " AND x"; print ""; print ":" }' > "$room/text.occ"
show "a chain of 2,001 operands"
awk 'BEGIN { print "PROC p (BOOL x)"; printf "  x := "; for (n = 0; n < 2000; n++) printf "NOT ("; printf "x"; for (n = 0; n < 2000; n++) printf ")"; print ""; print ":" }' > "$room/text.occ"
show "2,000 NOTs, over the tokens of a line"
awk 'BEGIN { print "PROC p (BOOL x)"; printf "  x := "; for (n = 0; n < 1300; n++) printf "NOT ("; printf "x"; for (n = 0; n < 1300; n++) printf ")"; print ""; print ":" }' > "$room/text.occ"
show "1,300 NOTs"
awk 'BEGIN { print "PROC p ()"; for (n = 1; n < 66; n++) { for (k = 0; k < n; k++) printf "  "; print "SEQ" } print ":" }' > "$room/text.occ"
show "level 65"
