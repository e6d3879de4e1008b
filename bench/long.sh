#!/usr/bin/env bash
# A long run of the machine: so many events (10,000,000) from a seed (1), as an operator and sixteen users might
# make them, with a look at the whole state every 10,000. After each million: the faults found so far, and the
# memory that the process has. Before it: cd crates/machine_check && rt run
set -eu
cd "$(dirname "$0")"
folder=$(mktemp -d)
trap 'rm -rf "$folder"' EXIT
mkfifo "$folder/lines"
../crates/machine_check/out/machine_check events "${1:-10000000}" "${2:-1}" >"$folder/lines" &
program=$!
while read -r line; do
    memory=$(awk '/VmRSS/ { print " MEMORY", $2, $3 }' "/proc/$program/status" 2>/dev/null || true)
    echo "$line$memory"
done <"$folder/lines"
wait "$program"
