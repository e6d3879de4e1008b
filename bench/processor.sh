#!/usr/bin/env bash
# Host instructions for a simulated one, of ka_run on the two loops (callgrind, the difference of two lengths).
set -eu
cd "$(dirname "$0")"
. ./counted.sh
program=../crates/ka_run/out/ka_run
for loop in tight mixed; do
    for n in 200000 1200000; do
        eval "at_$n=$(counted "$program" $n <loop_$loop.words)"
    done
    echo "$loop: $(((at_1200000 - at_200000) / 10000)) hundredths of a host instruction a simulated one"
done
