#!/usr/bin/env bash
# Host instructions for a step of `ten` (callgrind, the difference of two lengths): one job that jumps to itself, without an
# option and with --locks; and two jobs that count under a lock by turns of one step.
set -eu
cd "$(dirname "$0")"
. ./counted.sh
program=$(realpath "${TEN:-../crates/ten/out/ten}")
room=$(mktemp -d)
trap 'rm -rf "$room"' EXIT
cp ../examples/counter.mac "$room"
printf 'LOOP:\tJRST\tLOOP\n\tEND\tLOOP\n' >"$room/loop.mac"
cd "$room"
step() { # STEPS WORD..
    local more=$1 less
    shift
    less=$(counted "$program" --steps 400 "$@" </dev/null)
    echo $((($(counted "$program" --steps $((400 + more)) "$@" </dev/null) - less) / more))
}
echo "one job, no option: $(step 200000 loop.mac)"
echo "one job, --locks: $(step 200000 --locks loop.mac)"
echo "two jobs, no option: $(step 1000 --quantum 1 counter.mac counter.mac)"
echo "two jobs, --locks: $(step 1000 --quantum 1 --locks counter.mac counter.mac)"
