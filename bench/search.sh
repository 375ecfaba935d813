#!/bin/bash
# The processor time of searches over ground programs, with how many answers there are and from how many conflicts was learned: all
# subsets of 10, 12 and 14 atoms, pigeons in one hole less by choices, and a chain of 1,000 sums of two items over 0 to 10,000 that
# leaves each variable one value. Run it behind .ci/run, which builds the program.
cd "$(dirname "$0")/.." || exit
trial=$PWD/crates/search_trial/out/search_trial
subsets() {
    echo "atoms $(seq -f x%.0f -s ' ' 1 "$1"). choose - - $(seq -f a%.0f -s ' ' 1 "$1")."
}
pigeons() {
    awk -v p="$1" -v h="$2" 'BEGIN {
        printf "atoms"; for (i = 0; i < p * h; i++) printf " p%d", i; print "."
        for (i = 0; i < p; i++) { printf "choose >=1 <=1"; for (j = 1; j <= h; j++) printf " a%d", i * h + j; print "." }
        for (j = 1; j <= h; j++) for (i = 0; i < p; i++) for (k = 0; k < i; k++) print ":- a" i * h + j " a" k * h + j "."
    }'
}
chain() {
    echo "variables $(seq -f v%.0f -s ' ' 1 "$(($1 + 1))"). ends 0 $(($1 * 10))."
    for x in $(seq 1 "$1"); do echo "sum 1*$x -1*$((x + 1)) <=-10."; done
}
timed() {
    echo "$1: $( { TIMEFORMAT='%U s'; time timeout 60 "$trial"; } 2>&1 | tr '\n' ' ')"
}
for n in 10 12 14; do subsets $n | timed "subsets of $n"; done
for n in 6 7 8; do pigeons $n $((n - 1)) | timed "$n pigeons"; done
chain 1000 | timed "a chain of 1000 sums"
