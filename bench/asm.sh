#!/usr/bin/env bash
# Host instructions for a line of `lockmon asm` (callgrind, the difference of two lengths), and the time of 100,000
# lines with 20,000 labels and as many references.
set -eu
cd "$(dirname "$0")"
. ./counted.sh
program=../crates/lockmon/out/lockmon
source() {
    awk -v n="$1" 'BEGIN {
        for (i = 0; i < n; i += 5) {
            k = i / 5
            printf "L%05d: MOVEI 1,5\n ADD 2,L%05d\n JRST .+1\n MOVEM 1,1000(2) ; a comment\n -17\n", k % 100000, (k * 7919) % (n / 5)
        }
        print " END"
    }'
}
for n in 10000 20000; do
    eval "at_$n=$(source $n | counted "$program" asm)"
done
echo "$(((at_20000 - at_10000) / 10000)) host instructions a line"
time source 100000 | "$program" asm >/dev/null
