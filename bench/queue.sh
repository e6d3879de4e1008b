#!/usr/bin/env bash
# Host instructions for a command of `lockmon queue` (callgrind, the difference of two lengths): one lock taken
# and given up by turns, with the time of a million; then the same beside 200 and 1,000 requests that are present; a
# command on a busy table (busy.py); a request of sixteen locks that leaves a table of 256 such requests, where
# 31 want each of its locks; and the same of a full table of 1,024, where 63 do.
set -eu
cd "$(dirname "$0")"
. ./counted.sh
program=${LOCKMON:-../crates/lockmon/out/lockmon}
turns() { awk -v n="$1" 'BEGIN { for (i = 0; i < n; i += 2) print "ENQ 1 1 1 X\nDEQ 1 0 X" }'; }
present() { awk -v n="$1" 'BEGIN { for (i = 0; i < n; i++) print "ENQ " 2 + i % 60 " 1 " i " N" i "/B" }'; }
held() { # requests jobs leaving
    awk -v requests="$1" -v jobs="$2" -v n="$3" 'BEGIN {
        for (i = 0; i < requests; i++) {
            job = 1 + i % jobs
            part = int(i / jobs)
            printf "ENQ %d 2 %d", job, 100 * part + job
            for (k = 0; k < 16; k++) printf " KEY%d/B", 16 * part + k
            print ""
        }
        for (job = 1; job <= n; job++) print "DEQ " job " 2 " job
    }'
}
count_queue() { counted "$program" queue; }
each() { # what shorter longer commands
    echo "$1: $((($3 - $2) / $4)) host instructions"
}
each "by turns" "$(turns 2000 | count_queue)" "$(turns 12000 | count_queue)" 10000
time turns 1000000 | "$program" queue >/dev/null
for n in 200 1000; do
    each "beside $n requests" "$( (present $n; turns 1000) | count_queue)" "$( (present $n; turns 2000) | count_queue)" 1000
done
busy=$(mktemp)
trap 'rm -f "$busy"' EXIT
python3 busy.py 20000 >"$busy"
each "on a busy table" "$(head -10000 "$busy" | count_queue)" "$(count_queue <"$busy")" 10000
each "leaving a table of 256" "$(held 256 31 10 | count_queue)" "$(held 256 31 20 | count_queue)" 10
each "leaving a full table" "$(held 1024 63 10 | count_queue)" "$(held 1024 63 20 | count_queue)" 10
