#!/bin/bash
# bench.sh words-file N: runs N instructions of the words in a file (for bench/simh.sh's OTHER).
exec "$(dirname "$0")/out/ka_run" "$2" < "$1"
