#!/usr/bin/env bash
# Writes the stream of cases that the library and the second reading are held to.
#
#   stream.sh ORACLE [SEED [TIMES]]
#
# TIMES makes the stream that many times longer; 1 has a million events and
# 20,000 frames.
set -euo pipefail

oracle=$1
seed=${2:-1}
times=${3:-1}

exec "$oracle" cases --seed "$seed" \
  --singles $((200000 * times)) --events $((1000000 * times)) \
  --runs $((5000 * times)) --draws $((27000 * times)) \
  --listings $((500 * times)) \
  --compared-frames $((280 * times)) --compared-memories $((1300 * times)) \
  --starts $((400 * times)) \
  --wide-singles $((33500 * times)) --wide-runs $((1000 * times)) \
  --wide-draws $((200 * times)) --pages $((200 * times)) \
  --wide-listings $((100 * times))
