#!/bin/sh
# How long reading takes: programs of 16, 32 and 64 KiB are read, judged and accepted, ten times each, and the milliseconds of
# one reading are printed. The second text is refused on its first line, so nothing is compared.
# usage: bench/reading.sh [PROGRAM], where PROGRAM is the built program
here=$(cd "$(dirname "$0")/.." && pwd) || exit 1
program=${1:-$here/crates/occ_tool/out/occ_tool}
room=$(mktemp -d) || exit 1
trap 'rm -rf "$room"' EXIT

# write KIND BYTES: a program of at most so many bytes
write() {
    awk -v kind="$1" -v most="$2" 'BEGIN {
        if (kind == "assignments") { head = "PROC p (WORD1 x)\n  SEQ\n"; line = "    x := x PLUS 1\n"; tail = ":\n" }
        if (kind == "elements") { head = "PROC p ([8]WORD1 x, [4]CHAN OF WORD1 c!)\n  SEQ\n"; line = "    SEQ i = 0 FOR 2\n      c[i] ! ((x[i PLUS 1] /\\ x[i]) >< x[7])\n"; tail = ":\n" }
        if (kind == "alternatives") { head = "PROC p (WORD2 x, CHAN OF WORD2 c?)\n  ALT\n"; line = "    (x = 1) OR (x > 2) & c ? x\n      SKIP\n"; tail = ":\n" }
        if (kind == "declarations") { head = "PROC p (CHAN OF WORD1 a?)\n"; tail = "  SKIP\n:\n"
            size = length(head) + length(tail); text = head
            for (n = 0; ; n++) { line = "  CHAN OF WORD8 c" n ":\n"; if (size + length(line) > most) break; text = text line; size += length(line) }
            printf "%s%s", text, tail; exit }
        size = length(head) + length(tail); text = head
        while (size + length(line) <= most) { text = text line; size += length(line) }
        printf "%s%s", text, tail
    }'
}

printf 'x\n' > "$room/refused.occ"
for kind in assignments elements alternatives declarations; do
    for kib in 16 32 64; do
        write "$kind" $((kib * 1024)) > "$room/$kind.occ"
        begin=$(date +%s%N)
        for time in 1 2 3 4 5 6 7 8 9 10; do
            answer=$("$program" same "$room/$kind.occ" "$room/refused.occ")
        done
        end=$(date +%s%N)
        echo "$kind $kib KiB: $(((end - begin) / 10000000)) ms, $answer"
    done
done
