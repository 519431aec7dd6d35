#!/usr/bin/env python3
"""Makes the stored run of crates/listpack, which `rt ci` compares.

`stdin` is a pack of every NAME.trace of this folder but recorded/ and wide/
(the program for packs is for one chip), in the order of their names: for each the length of its name and of its trace (four
bytes each, little-endian), the name, the trace.  An entry that is named
`upright NAME` is listed from the old start, any other from the new one: a
trace with NAME.upright.list stands there as `upright NAME`, one with NAME.list
as `NAME`, and one with both twice.  `stdout` has for each entry a line `trace`
and its name, and then that listing, which is the oracle's; then how many there
are.

`pack.py --check` writes nothing, and fails where a file is not what the
traces and listings say.
"""

import pathlib
import sys

# What an entry's name begins with where it is listed from the old start.
UPRIGHT = "upright "
# Folders whose traces are not in the pack.
LEFT_OUT = ("recorded", "wide")
LONGEST_PACK = 131072


def entry(name, trace):
    """A trace as it stands in a pack."""
    return len(name).to_bytes(4, "little") + len(trace).to_bytes(4, "little") + name + trace


def listings(here, name):
    """The entries of a trace: what each is called, and its listing."""
    if name.startswith(UPRIGHT) or name.endswith(".upright"):
        sys.exit(f"traces/{name}.trace: a trace is not named so, since that is how the old start is named")
    kept = [(UPRIGHT + name, here / f"{name}.upright.list"), (name, here / f"{name}.list")]
    found = [(called, path.read_bytes()) for called, path in kept if path.exists()]
    if not found:
        sys.exit(f"traces/{name}.trace has no listing: `make traces` makes one")
    return found


def stored_run(here):
    """What `stdin` and `stdout` must have."""
    pack, listed, count = b"", b"", 0
    names = sorted(path.relative_to(here).with_suffix("").as_posix()
                   for path in here.glob("*/*.trace") if path.parent.name not in LEFT_OUT)
    for name in names:
        trace = (here / f"{name}.trace").read_bytes()
        for called, listing in listings(here, name):
            pack += entry(called.encode(), trace)
            listed += b"trace %b\n" % called.encode() + listing
            count += 1
    if len(pack) > LONGEST_PACK:
        sys.exit(f"the pack would have {len(pack)} bytes, and the program for packs takes {LONGEST_PACK}")
    listed += b"%d traces\n" % count
    return {"stdin": pack, "stdout": listed}


def main(arguments):
    if arguments not in ([], ["--check"]):
        sys.exit(__doc__)
    here = pathlib.Path(__file__).resolve().parent
    program = here.parent / "crates" / "listpack"
    stale = 0
    for name, content in stored_run(here).items():
        target = program / name
        if not arguments:
            target.write_bytes(content)
        elif not target.exists() or target.read_bytes() != content:
            stale += 1
            print(f"crates/listpack/{name} is not what the traces and listings say: `make traces` makes it again")
    return 0 if stale == 0 else 1


if __name__ == "__main__":
    sys.exit(main(sys.argv[1:]))
