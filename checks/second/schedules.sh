#!/bin/bash
# Runs many cycles with workers under drawn schedules, and checks that each prints what a cycle on one thread prints.
#
#   checks/second/schedules.sh [RUNS [SEED]]      5000 and 1 unless given
#
# For each of two repositories, that of one target and that of roles which share keys, the program `trials`, which is
# proved and built first unless TRIALS in the environment names it, makes RUNS runs: with up to 8 workers, plans of 3 or
# up to 4,096 checks, and gates that do nothing, block each worker until the end, or make it wait for a drawn time. The
# script ends with status 1 if a run printed something else, and with 2 if the program couldn't be built or run.
set -u
runs=${1:-5000} seed=${2:-1}
. "$(dirname "$0")/../common.sh"
find_trials
mkdir -p "$work/room/cases" && cp "$top"/crates/trials/data/cases/*.script "$work/room/cases" && cd "$work/room" || exit 2
cat > cases/stress.rows <<CASE
  \$ make first
  \$ stress first $runs $seed abc.txt abd.txt
  $runs runs, 0 differ
  \$ make shared
  \$ stress shared $runs $seed x/1 y/1 x/1 y/1
  $runs runs, 0 differ
CASE
"$trials"
