#!/bin/bash
# simh.sh [instructions [runs]]  - speed of SIMH's PDP-10 on the two loops.
# Prints one line a run: loop, instructions, CPU seconds (user+system), wall seconds,
# instructions per CPU second; then the median, least and largest a loop.
# The loops are loop_tight.words and loop_mixed.words (address word, octal), start 140,
# flags User, and neither ends, so that any number of instructions can be run.
# STATE=1 simh.sh N: instead the state after N instructions (to check another simulator).
# IR=1 simh.sh: instead host instructions a simulated one by callgrind
# (two lengths, the difference; a repeatable figure).
# OTHER=/path/program simh.sh N RUNS: also times `program words-file N` (which must run
# just N instructions from start 140), turn about with SIMH, and prints the ratio of the medians;
# turn about is what to use, as this machine's speed moves by tens of a hundred.
cd "$(dirname "$0")" || exit 1
N=${1:-200000000}; RUNS=${2:-5}
P=${SIMH_PDP10:-pdp10}
T=$(mktemp -d); trap 'rm -rf "$T"' EXIT
ini() { # words n
  { echo "d flags 010000"
    sed -n 's/^\([0-7]\+\) \([0-7]\+\).*/d \1 \2/p' "$1"
    echo "d pc 140"; echo "step $2"; echo "ex pc,0-6,17,200-206"; echo quit; } >"$T/$$.ini"
}
if [ -n "$IR" ]; then
  for l in tight mixed; do
    for n in 1000000 3000000; do
      ini loop_$l.words $n
      valgrind --tool=callgrind --callgrind-out-file="$T/cg" "$P" "$T/$$.ini" </dev/null >"$T/out" 2>"$T/err"
      v=$(sed -n 's/.*Collected : *//p' "$T/err"); eval "ir_$n=$v"
    done
    echo "$l: $(echo "$ir_1000000 $ir_3000000" | awk '{printf "%d at 1000000, %d at 3000000: %.3f host instructions a simulated one", $1, $2, ($2-$1)/2000000}')"
  done
  exit
fi
if [ -n "$STATE" ]; then
  for l in tight mixed; do
    echo "$l after $N instructions:"
    ini loop_$l.words "$N"
    sed -i 's/^ex .*/ex pc,flags,0-17,200-206,1001/' "$T/$$.ini"
    "$P" "$T/$$.ini" </dev/null | grep -P ':\t' | grep -vP ':\t0*\r?$'
  done
  exit
fi
TIMEFORMAT='%U %S %R'
one() { # label command..
  local who=$1 t; shift
  t=$( { time "$@" </dev/null >"$T/out" 2>"$T/err"; } 2>&1 ) || { echo "run failed: $*"; cat "$T/out" "$T/err"; exit 1; }
  echo "$t" | awk -v w="$who" -v l=$l -v n=$N '{c=$1+$2; printf "%s %s %d cpu %.3f wall %.3f  %.2f M/s\n", w, l, n, c, $3, n/c/1e6}' | tee -a "$T/all.$who"
}
stat() { sort -n -k8 "$T/all.$1" | awk -v l="$1 $l" '{v[NR]=$8} END {m = NR%2 ? v[(NR+1)/2] : (v[NR/2]+v[NR/2+1])/2; printf "%s: median %.2f least %.2f largest %.2f million instructions a CPU second (spread %.1f%%)\n", l, m, v[1], v[NR], (v[NR]-v[1])/m*100}' | tee "$T/med.$1"; }
for l in tight mixed; do
  rm -f "$T"/all.*
  ini loop_$l.words "$N"
  for r in $(seq "$RUNS"); do
    one simh "$P" "$T/$$.ini"
    grep -q 'Step expired' "$T/out" || { echo "SIMH did not run $N steps:"; cat "$T/out"; exit 1; }
    [ -n "$OTHER" ] && one other "$OTHER" "$PWD/loop_$l.words" "$N"
  done
  stat simh
  if [ -n "$OTHER" ]; then
    stat other
    awk '{print $4}' "$T/med.simh" "$T/med.other" | paste -s | awk -v l=$l '{printf "%s: other is %.2f times SIMH (medians)\n", l, $2/$1}'
  fi
done
