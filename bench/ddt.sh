#!/usr/bin/env bash
# Host instructions of `ddt` for a step of one job that computes, with its tick, on the way to a breakpoint that is
# not come to (callgrind, the difference of two lengths); and the seconds of ten million steps, without and with
# `.BACK 1` behind them.
set -eu
cd "$(dirname "$0")"
. ./counted.sh
program=$(readlink -f "${DDT:-../crates/ddt/out/ddt}")
folder=$(mktemp -d)
trap 'rm -rf "$folder"' EXIT
cd "$folder"
printf 'START: MOVSI 1,377777\nLOOP: ADDI 2,1\n SOJG 1,LOOP\nDONE: EXIT\n END START\n' >loop.mac
session() { printf '$X\nDONE$B\n.STEP %d\n' "$1"; }
echo "a step to a breakpoint: $((($(session 300000 | counted "$program" loop.mac) - $(session 100000 | counted "$program" loop.mac)) / 200000)) host instructions"
TIMEFORMAT='%U s of processor time'
echo "10,000,000 steps:" && time session 10000000 | "$program" loop.mac >/dev/null
echo "the same, and .BACK 1:" && time { session 10000000; echo .BACK 1; } | "$program" loop.mac >/dev/null
