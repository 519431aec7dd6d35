#!/usr/bin/env bash
# Compares the library with the oracle: pipes the oracle's cases into compare.
#
#   compare.sh ORACLE [SEED [TIMES]] -- COMPARE...
#
# COMPARE... is the command that runs the compare program.  TIMES makes the
# stream that many times longer.
set -euo pipefail

oracle=$1
shift
seed=1
times=1
if [ "$1" != -- ]; then seed=$1; shift; fi
if [ "$1" != -- ]; then times=$1; shift; fi
shift

stream=(oracle/stream.sh "$oracle" "$seed" "$times")

"${stream[@]}" | "$@" --shown-by "${stream[*]} | $oracle show" \
  --at-least $((1200000 * times)) $((20000 * times)) $((33000 * times)) $((150 * times))
