#!/usr/bin/env python3
"""Runs a typed source through the tool, and tells a refusal by the source's line.

  typed.py [OPTION...] FILE.txt                what `ssd1815b show` shows of it
  typed.py COMMAND [OPTION...] FILE.txt        the same for another command of
                                               the tool
  typed.py [COMMAND] [OPTION...] FILE.trace    a trace; the lines are those of
                                               FILE.txt, if it was made from that

An OPTION is the tool's.  With --upright it begins as an old cabinet does,
without as a new one; --wide is for a source of a wide terminal, one with select
lines.

Where the trace is refused, the line that the refused byte came from stands
before the tool's own words, and that of an earlier byte after them:

  mine.txt:7: write 00
  refused 6 at 23 (0x17): ...
    awaited is the n of 81 ..., since 18 (0x12) in record 3
    mine.txt:5: command 81

No file is written; make.py makes FILE.trace, and says how a source is typed.

The tool is what SSD1815B_TOOL says; else this repository's proved one, or its
plain C one, where they are built; else the installed ssd1815b.  Status: the
tool's, or 2 where the source has a fault or there is no tool.
"""

import itertools
import os
import pathlib
import re
import shlex
import shutil
import signal
import subprocess
import sys

sys.dont_write_bytecode = True
import make  # noqa: E402  (make.py beside this)

FAILED = 2
LONGEST_TEXT = 100
REFUSED = re.compile(rb"refused [0-9]+ at ([0-9]+) \(0x[0-9A-F]+\)")
EARLIER = re.compile(rb"  .*since ([0-9]+) \(0x[0-9A-F]+\) in record")
# Where check and diff name a trace that they were given as -.
NAMED = re.compile(rb"^(ssd1815b: (?:--after [0-9]+: )?|.* and |)-(?=:| has | is empty)", re.M)
# Their standard output is for other programs; they tell refusals on standard error.
TOLD_ON_STANDARD_ERROR = ("list", "picture")
COMMANDS = ("list", "show", "picture", "state", "memory", "diff", "check")


def fail(words):
    """Says why nothing was run."""
    print(words, file=sys.stderr)
    sys.exit(FAILED)


def tool():
    """The command that runs the tool."""
    if os.environ.get("SSD1815B_TOOL"):
        return shlex.split(os.environ["SSD1815B_TOOL"])
    built = pathlib.Path(__file__).resolve().parent.parent / "target" / "c"
    if (built / "proved" / "ssd1815b").exists():
        return [str(built / "proved" / "ssd1815b")]
    if (built / "plain" / "ssd1815b").exists():
        print("typed.py: by plain C, as the tool over the proved library is not built (`make`)", file=sys.stderr)
        return [str(built / "plain" / "ssd1815b")]
    installed = shutil.which("ssd1815b")
    if installed is None:
        fail("typed.py: no tool: `make` builds it, or SSD1815B_TOOL says where it is")
    return [installed]


def line_at(lines, offset):
    """The line that the byte at an offset of the trace came from."""
    ends = itertools.accumulate(len(line.made) for line in lines)
    return next((line for line, end in zip(lines, ends) if offset < end), None)


def told_line(source, lines, match):
    """The line at the offset that a match of the tool's words has; nothing where there is none."""
    line = match and line_at(lines, int(match[1]))
    if not line:
        return b""
    text = line.text if len(line.text) <= LONGEST_TEXT else line.text[:LONGEST_TEXT] + " ..."
    return f"{source}:{line.place}: {text}\n".encode()


def named(words, source):
    """What the tool printed of a source's trace, with the source's name."""
    return NAMED.sub(lambda match: match[1] + os.fsencode(source), words)


def told(words, source, lines):
    """What the tool printed, with the lines of the source that it speaks of, each once."""
    rows, said = [], set()
    for row in words.splitlines(keepends=True):
        refused = told_line(source, lines, REFUSED.match(row))
        earlier = told_line(source, lines, EARLIER.match(row))
        rows += [refused, row, b"  " + earlier if earlier and earlier not in said else b""]
        said |= {refused, earlier}
    return b"".join(rows)


def lines_behind(trace):
    """The lines that a trace was made from; none where there is no such source."""
    source = trace.with_suffix(".txt")
    lines, faults = make.lines_of(source) if source.exists() else ([], [])
    return lines if not faults and make.trace(lines) == trace.read_bytes() else []


def lines_typed(source):
    """The lines of a source; ends where it has a fault."""
    lines, faults = make.lines_of(source)
    if faults:
        fail("\n".join(faults))
    return lines


def run(command, options, path):
    """Runs the tool on a trace, or on that of a source; answers its status."""
    typed = path.suffix == ".txt"
    lines = lines_typed(path) if typed else lines_behind(path)
    source = path.with_suffix(".txt")
    output = None if command in TOLD_ON_STANDARD_ERROR else subprocess.PIPE
    done = subprocess.run([*tool(), command, *options, "-" if typed else str(path)], input=make.trace(lines) if typed else b"",
                          stdout=output, stderr=subprocess.PIPE, check=False)
    # From here on a reader that has seen enough ends this; a tool that ends before it has read all does not.
    signal.signal(signal.SIGPIPE, signal.SIG_DFL)
    for stream, words in (sys.stderr, done.stderr), (sys.stdout, done.stdout or b""):
        stream.buffer.write(told(named(words, source) if typed else words, source, lines))
    sys.stdout.flush()
    return done.returncode


def main(arguments):
    if not arguments or "--help" in arguments or "-h" in arguments:
        print(__doc__, end="")
        return 0 if arguments else FAILED
    *before, name = arguments
    if not name.endswith((".txt", ".trace")):
        fail(f"typed.py: {name}: FILE.txt or FILE.trace is wanted, and stands last")
    if not before or before[0].startswith("-"):
        late = next((word for word in before if word in COMMANDS), None)
        if late:
            fail(f"typed.py: {late}: the command stands before its options")
        before.insert(0, "show")
    command, *options = before
    return run(command, options, pathlib.Path(name))


if __name__ == "__main__":
    try:
        sys.exit(main(sys.argv[1:]))
    except OSError as failure:
        fail(f"typed.py: {failure.filename}: {failure.strerror}")
