#!/bin/sh
# Runs a dozen descriptions by 4 and by 16 workers again and again, and compares each output with the one beside the description.
#
#   many_runs.sh [RUNS]
#
# RUNS is how many runs of each of the two are made in all (1000). PORTALS_RUN is the program (crates/portals_run/out/portals_run,
# which `rt ci` leaves). The status is 0 where every run ended with the right text and with the status 0, 1 after the first that didn't,
# and 2 where nothing is run.
set -u
top=$(cd "$(dirname "$0")/.." && pwd)
program=${PORTALS_RUN:-$top/crates/portals_run/out/portals_run}
runs=${1:-1000}
[ $# -le 1 ] && case $runs in *[!0-9]* | 0*) false ;; esac || { echo 'usage: many_runs.sh [RUNS], which is a number from 1' >&2; exit 2; }
[ -x "$program" ] || { echo "many_runs: no program at $program: rt ci leaves it there" >&2; exit 2; }
said=$(mktemp)
trap 'rm -f "$said"' EXIT
names='allgather allreduce allreduce_and_scan alltoall barrier exscan gather gatherv groups ranks_16 reducescatter scan'
for workers in 4 16; do
    made=0
    while [ "$made" -lt "$runs" ]; do
        for name in $names; do
            [ "$made" -lt "$runs" ] || break
            status=0
            timeout 60 "$program" run "$workers" <"$top/examples/$name.coll" >"$said" || status=$?
            if [ "$status" != 0 ] || ! cmp -s "$said" "$top/examples/$name.out"; then
                echo "run $workers of $name.coll, run number $made: another text, or the status $status (124: none within a minute)"
                exit 1
            fi
            made=$((made + 1))
        done
    done
    echo "run $workers: $made runs with the right text"
done
