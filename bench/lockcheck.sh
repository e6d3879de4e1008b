#!/usr/bin/env bash
# States, seconds of a processor and bytes a state of `lockcheck` for 5 to 8 jobs round a table, each of which asks for its
# fork, then for that of the next job, and gives both up, by one call or by two. Where `spin` is installed, the same of
# the model checker it makes of dining.pml, which goes through the same states.
set -eu
cd "$(dirname "$0")"
program=$(realpath "${LOCKCHECK:-../crates/lockcheck/out/lockcheck}")
model=$PWD/dining.pml
room=$(mktemp -d)
trap 'rm -rf "$room"' EXIT
cd "$room"
dining() { # jobs calls
    awk -v jobs="$1" -v calls="$2" 'BEGIN {
        for (job = 1; job <= jobs; job++) {
            other = job % jobs + 1
            print "ENQ " job " 0 1 F" job "\nENQ " job " 0 2 F" other "/B"
            if (calls == 3) print "FREE " job
            else print "DEQ " job " 0 F" job "\nDEQ " job " 0 F" other
        }
    }'
}
timed() { # words; the seconds and the memory in kB go to the file `took`
    /usr/bin/time -q -o took -f '%U %M' "$@"
}
# A circle has status 4.
checked() { timed "$program" <"$1" >report || [ $? -eq 4 ]; }
dining 2 3 >script
checked script
read -r _ least <took
for calls in 3 4; do
    for jobs in 5 6 7 8; do
        dining "$jobs" "$calls" >script
        checked script
        read -r seconds kilobytes <took
        states=$(sed -n 's/.* \([0-9]*\) states, all looked at/\1/p' report)
        echo "$jobs jobs, $calls calls each: $states states, $seconds s, $(((kilobytes - least) * 1024 / states)) bytes a state"
        [ -n "$(command -v spin)" ] || continue
        spin -a -DJOBS="$jobs" -DCALLS="$calls" "$model" >/dev/null
        cc -O2 -DSAFETY -o pan pan.c 2>/dev/null
        timed ./pan -E -m1000000 -w20 >found
        read -r seconds _ <took
        awk -v seconds="$seconds" '
            /states, stored/ { states = $1 }
            /actual memory usage for states/ { bytes = $1 * 1048576 }
            END { printf "    SPIN: %d states, %s s, %d bytes a state, without its table of hashes\n", states, seconds, bytes / states }
        ' found
    done
done
