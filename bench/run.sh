#!/usr/bin/env bash
# Host instructions of `lockmon run` for an event (callgrind, the difference of two lengths): one job that computes,
# sixteen of them, two jobs that count under a lock, sixteen that want one lock, one that prints among fifteen that
# compute, sixteen that echo what is typed, and one that answers it. An event is a step with its tick, a character
# that is typed, or a TAKE.
set -eu
cd "$(dirname "$0")"
. ./counted.sh
program=${LOCKMON:-../crates/lockmon/out/lockmon}
sentence='THE QUICK BROWN FOX JUMPS OVER THE LAZY DOG AND SLEEPS. 01'

# Jobs of a source that stands on standard input, so many, at lines from one on.
jobs() { # name, how many, the first line
    printf 'ASSEMBLE %s\n' "$1"
    cat
    printf 'ENDASM\n'
    for ((i = 0; i < $2; i++)); do printf 'LOGIN %d %s\nSTART %d\n' $(($3 + i)) "$1" $(($3 + i + 1)); done
}
compute_jobs() { printf ' LOC 1\n 0\n 377777777777\n LOC 140\n ADDI 1,1\n SOJG 2,.-1\n END 140\n' | jobs L "$1" "$2"; }
compute() { # jobs steps
    compute_jobs "$1" 0
    printf 'RUN %d\n' "$2"
}
count() { # rounds
    sed -e "s/\^D100/^D$1/" -e "s/^RUN .*/RUN $((22 * $1 + 4))/" ../examples/count_with_lock.run
}
contend() { # steps
    printf 'LOOP: MOVE 1,[BLK]\n ENQ. 1,\n HALT\n MOVE 1,[BLK]\n DEQ. 1,\n HALT\n JRST LOOP\nBLK: 1,,5\n 0,,7\n 777777\n POINT 7,[ASCIZ /X/]\n 0\n END 140\n' | jobs D 16 0
    printf 'RUN %d\n' "$1"
}
print() { # times
    printf ' OUTSTR T\n JRST .-1\nT: ASCIZ /%s/\n END 140\n' "$sentence" | jobs T 1 0
    compute_jobs 15 1
    for ((n = 0; n < $1; n++)); do printf 'RUN 256\nTAKE 0\n'; done
}
echoes() { # rounds
    printf ' INCHRW 3\n OUTCHR 3\n JRST .-2\n END\n' | jobs E 16 0
    for ((n = 0; n < $1; n++)); do
        for ((i = 0; i < 16; i++)); do printf 'TYPE %d %s\n' "$i" "${sentence:0:40}"; done
        printf 'RUN 1920\n'
        for ((i = 0; i < 16; i++)); do printf 'TAKE %d\n' "$i"; done
    done
}
answers() { # rounds
    printf ' INCHRW 3\n CLRBFI\n OUTSTR T\n JRST .-3\nT: ASCIZ /%s/\n END 140\n' "$sentence" | jobs R 1 0
    local typed=$sentence$sentence
    for ((n = 0; n < $1; n++)); do printf 'TYPE 0 %s\nRUN 4\nTAKE 0\n' "${typed:0:100}"; done
}
count_run() { counted "$program" run "$@"; }
# What is measured, and the instructions and the events of a short and of a long run.
each() { echo "$1: $((($4 - $2) / ($5 - $3))) host instructions an event"; }
for jobs in 1 16; do
    for quantum in 1 60; do
        short=$(compute $jobs 100000 | count_run --quantum $quantum)
        long=$(compute $jobs 300000 | count_run --quantum $quantum)
        each "$jobs jobs, quantum $quantum" "$short" 100000 "$long" 300000
    done
done
each "two jobs that count under a lock" "$(count 1000 | count_run)" 22004 "$(count 3000 | count_run)" 66004
each "16 jobs that want one lock" "$(contend 100000 | count_run)" 100000 "$(contend 300000 | count_run)" 300000
each "one job that prints among 15" "$(print 500 | count_run)" 128500 "$(print 1500 | count_run)" 385500
each "16 jobs that echo what is typed" "$(echoes 50 | count_run)" 128800 "$(echoes 150 | count_run)" 386400
each "one job that answers what is typed" "$(answers 1000 | count_run)" 105000 "$(answers 3000 | count_run)" 315000
