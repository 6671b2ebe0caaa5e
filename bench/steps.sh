#!/bin/sh
# Seconds to replay scripts of many small steps on large programs, on a stack of 8 MiB: thousands of steps on programs of some 4,000
# controls, whose new parts use no more than the old ones; a program that grows 6,000 and 12,000 levels deep.
# usage: bench/steps.sh [PROGRAM], where PROGRAM is the built program
here=$(cd "$(dirname "$0")/.." && pwd) || exit 1
program=${1:-$here/crates/occ_tool/out/occ_tool}
room=$(mktemp -d) || exit 1
trap 'rm -rf "$room"' EXIT
ulimit -s 8192

show() {
    begin=$(date +%s%N)
    answer=$("$program" replay "$room/steps.script" | head -n 1)
    end=$(date +%s%N)
    echo "$1: $(((end - begin) / 1000000)) ms, $answer"
}

# the program: parts in a SEQ or a PAR, each `long`, or `short` where a step has cut it
parts() {
    awk -v kind="$1" -v count="$2" -v passes="$3" -v inside="$4" '
    function part(line, long) {
        if (inside) print line "BOOL x:"
        print line "SEQ"
        print line (inside ? "  x := TRUE" : "  a ! TRUE")
        if (long) print line "  SKIP"
    }
    function whole(long) {
        print inside ? "PROC p ()" : "PROC p (CHAN OF BOOL a!)"
        print "  " kind
        for (n = 0; n < count; n++) part("    ", long)
        print ":"
    }
    BEGIN {
        print "occam-script 2"
        print "FROM"
        whole(1)
        for (pass = 0; pass < passes; pass++)
            for (n = 0; n < count; n++) {
                print "STEP seq-skip " (pass % 2 ? "BACKWARD" : "FORWARD") " /" n (inside ? "/0" : "")
                print "  SEQ"
                print inside ? "    x := TRUE" : "    a ! TRUE"
                if (pass % 2) print "    SKIP"
            }
        print "TO"
        whole(1)
    }' > "$room/steps.script"
}

# a SKIP grows 58 levels deep at each step, within a choice that is never taken
levels() {
    awk -v levels="$1" '
    BEGIN {
        print "occam-script 2\nFROM\nPROC p ()\n  IF\n    TRUE\n      SKIP\n:"
        path = ""
        for (deep = 1; deep < levels; deep += 58) {
            print "STEP if-false BACKWARD " (path == "" ? "/" : path)
            print "  IF\n    FALSE"
            line = "      "
            for (n = 0; n < 57; n++) { print line "SEQ"; line = line "  " }
            print line "IF"
            print line "  TRUE"
            print line "    SKIP"
            print "    TRUE\n      SKIP"
            for (n = 0; n < 58; n++) path = path "/0"
        }
        print "TO\nPROC p ()\n  SKIP\n:"
    }' > "$room/steps.script"
}

parts SEQ 1333 4 0
show "5,332 steps on a SEQ of 1,333 parts"
parts PAR 1000 4 1
show "4,000 steps on a PAR of 1,000 parts"
levels 6000
show "104 steps to 6,000 levels"
levels 12000
show "207 steps to 12,000 levels"
