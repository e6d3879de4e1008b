#!/usr/bin/env bash
# Host instructions of `macro` (callgrind, the difference of two lengths): for a line of a source of the subset, for the same
# line behind an assignment, which is not in the subset, and for a call of a macro of five lines.
set -eu
cd "$(dirname "$0")"
. ./counted.sh
program=${MACRO:-../crates/macro_main/out/macro_main}
[ -x "$program" ] || { echo "macro.sh: $program is no program: build it first" >&2; exit 2; }
lines() {
    awk -v n="$1" 'BEGIN {
        for (i = 0; i < n; i += 5) {
            k = i / 5
            printf "L%05d: MOVEI 1,5\n ADD 2,L%05d\n JRST .+1\n MOVEM 1,1000(2) ; a comment\n -17\n", k % 100000, (k * 7919) % (n / 5)
        }
        print " END"
    }'
}
calls() {
    awk -v n="$1" 'BEGIN {
        print "DEFINE FIVE(A,B)<\n MOVEI A,B\n ADD A,100\n MOVEM A,200\n SOJG A,.-1\n JFCL\n>"
        for (i = 0; i < n; i++) print " FIVE 1,17"
        print " END"
    }'
}
for n in 10000 20000; do
    eval "lines_$n=$(lines $n | counted "$program")"
done
echo "$(((lines_20000 - lines_10000) / 10000)) host instructions a line"
for n in 10000 20000; do
    eval "more_$n=$({ echo 'A=1'; lines $n; } | counted "$program")"
done
echo "$(((more_20000 - more_10000) / 10000)) host instructions a line behind an assignment"
for n in 1000 2000; do
    eval "calls_$n=$(calls $n | counted "$program")"
done
echo "$(((calls_2000 - calls_1000) / 1000)) host instructions a call"
