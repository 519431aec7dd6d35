#!/usr/bin/env bash
# Compares the limits of the bench with the oracle: tuned C with the cases of the
# two comparing calls, the SSE2 loop with those of the two drawing calls.
#
#   tuned.sh ORACLE SEED TIMES -- COMPARE...
#
# COMPARE... is the command that runs the compare program with both.
set -euo pipefail

oracle=$1
seed=$2
times=$3
shift 4

cases=("$oracle" cases --seed "$seed"
       --singles 0 --events 0 --runs 0 --listings 0 --starts 0
       --wide-singles 0 --wide-runs 0 --pages 0 --wide-listings 0
       --compared-frames $((280 * times)) --compared-memories $((1300 * times))
       --draws $((2000 * times)) --wide-draws $((600 * times)))

echo 'tuned C for the two comparing calls, SSE2 for the two drawing calls:'
"${cases[@]}" | "$@" --shown-by "${cases[*]} | $oracle show" | tail -n 1
