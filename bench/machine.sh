#!/usr/bin/env bash
# Host instructions for a bare instruction, a step of the machine, a step with a tick behind it, the same
# as a pair of events that `System::run` is given, and a tick, of jobs that run the tight loop (callgrind,
# the difference of two lengths).
set -eu
cd "$(dirname "$0")"
. ./counted.sh
program=../crates/machine_check/out/machine_check
for load in "bare 1 1" "steps 1 60" "steps 16 1" "ticked 1 1" "ticked 1 60" "ticked 16 1" "ticked 16 60" "pairs 16 1" "pairs 1 60" "ticks 1 1"; do
    set -- $load
    short=$(counted "$program" bench "$1" 100000 "$2" "$3")
    long=$(counted "$program" bench "$1" 300000 "$2" "$3")
    echo "$1, $2 jobs, quantum $3: $(((long - short) / 2000)) hundredths of a host instruction each"
done
