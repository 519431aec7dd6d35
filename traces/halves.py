#!/usr/bin/env python3
"""A wide trace as two traces, one for each chip.

  halves.py ORACLE left < TRACE           the left chip's own trace; or right
  halves.py ORACLE [--upright] < TRACE    what each chip is left with, by the oracle's run of its own trace

Document 02, Order 4: "Demand 2 reads for each chip over the events it was selected for".  So the events of each chip, up to the
byte at which the oracle's wide listing stops, are put together as a trace of its own.  The second form prints as `oracle run`
does: number, offset and whole records of the wide run, then state and memory of the left chip, then of the right.
"""

import re
import subprocess
import sys

sys.dont_write_bytecode = True
from make import SELECT, SELECTIONS, record  # noqa: E402


def output(oracle, words, trace):
    return subprocess.run([oracle, *words], input=trace, stdout=subprocess.PIPE, check=True).stdout.decode()


def stop_of(oracle, options, trace):
    """The number and the offset of the wide run."""
    refused = re.match(r"refused (\d+) at (\d+)\n", output(oracle, ["list", "--wide", *options], trace))
    return (int(refused[1]), int(refused[2])) if refused else (0, len(trace))


def halves(trace, until):
    """The trace of each chip, of the bytes before an offset; and how many records end there."""
    own, count, at, selected = {"left": b"", "right": b""}, 0, 0, SELECTIONS["both"]
    while at < until:
        length, kind = (int.from_bytes(trace[place:place + 2], "little") for place in (at, at + 2))
        payload = trace[at + 4:min(at + 4 + length, until)]
        at += 4 + length
        count += at <= until
        if kind == SELECT:
            selected = payload[0]
            continue
        for side in own:
            if selected & SELECTIONS[side]:
                own[side] += record(kind, payload)
    return own, count


def print_runs(oracle, options, trace):
    """What each chip is left with."""
    number, offset = stop_of(oracle, options, trace)
    own, count = halves(trace, offset)
    print(number, offset, count)
    for half in own.values():
        answer, _, left = output(oracle, ["run", *options], half).partition("\n")
        if not answer.startswith("0 "):
            sys.exit(f"halves.py: the events of one chip are refused: {answer}")
        print(left, end="")


def main(oracle, options):
    trace = sys.stdin.buffer.read()
    if options in (["left"], ["right"]):
        own, _ = halves(trace, stop_of(oracle, [], trace)[1])
        sys.stdout.buffer.write(own[options[0]])
    else:
        print_runs(oracle, options, trace)


if __name__ == "__main__":
    if len(sys.argv) < 2 or sys.argv[2:] not in ([], ["--upright"], ["left"], ["right"]):
        sys.exit(__doc__)
    main(sys.argv[1], sys.argv[2:])
