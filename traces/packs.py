#!/usr/bin/env python3
"""packs.py LISTPACK ORACLE: the program that lists packs, on packs that are whole,
cut, and about its limit of 131,072 bytes, and on names about the word `upright`,
by which an entry is listed from the old start.  What it must print for a trace
is what the second program prints from that start.
"""

import pathlib
import subprocess
import sys

sys.dont_write_bytecode = True
from make import KINDS, record  # noqa: E402
from pack import LONGEST_PACK, entry  # noqa: E402

# Entries of these names are listed from the old start, all others from the new one.
OLD_START = (b"upright rules/bits", b"upright errors/version-3-recipe-3E5", b"upright ", b"upright x", b"upright  x",
             b"upright upright x", b"upright \n", b"upright \0", b"upright \xff")
NEW_START = (b"upright", b"uprightx", b"upright/x", b"upright_x", b"upright\tx", b"upright\nx", b"upright\0x",
             b"upright\x1fx", b"upright!x", b"upright\xa0x", b"uprigh", b"uprigh t x", b"uprigh  x", b"upr1ght x",
             b"pright x", b"Upright x", b"UPRIGHT x", b"uprighT x", b" upright x", b"\0upright x", b"xupright x",
             b"x upright ", b"rules/upright x", b"--upright x", b" ", b"x", b"")


def output(program, given):
    return subprocess.run(program, input=given, stdout=subprocess.PIPE, check=True).stdout


def listing(oracle, name, trace):
    """The listing of an entry, from its start."""
    return output([oracle, "list", "--upright"] if name in OLD_START else [oracle, "list"], trace)


def expected(oracle, entries, end):
    """The names and listings of the entries, and the last line."""
    return b"".join(b"trace %b\n" % name + listing(oracle, name, trace) for name, trace in entries) + end


def counted(count):
    """A trace whose first bytes are the length of a record: data, and then the display is on."""
    return record(KINDS["write"], bytes(count - 1) + b"\3") + record(KINDS["command"], b"\xaf")


def names(oracle, bits):
    """Entries of one trace under each name, and of two traces that go on as if they were the name."""
    entries = [(name, bits) for name in OLD_START + NEW_START]
    entries += [(b"upright", counted(int.from_bytes(b" \0", "little"))), (b"uprigh", counted(int.from_bytes(b"t ", "little")))]
    for name, trace in entries:
        if listing(oracle, OLD_START[0], trace) == listing(oracle, NEW_START[0], trace):
            sys.exit(f"packs.py: the trace under {name!r} is listed the same from both starts, and tells nothing")
        yield name, trace


def cases(oracle, here):
    """What each is called, the pack, and what must be printed."""
    some = [(name, (here / f"{name.split()[-1].decode()}.trace").read_bytes())
            for name in (b"upright rules/bits", b"rules/bits", b"refusals/9-kind-5", b"upright errors/version-3-recipe-3E5")]
    empty = (b"", b"")
    for entries in ([], some, some[::-1], [empty], [empty] * 3, some + [empty]):
        pack = b"".join(entry(*one) for one in entries)
        yield f"{len(entries)} entries", pack, expected(oracle, entries, b"%d traces\n" % len(entries))

    # names by which an entry is listed from the old start, and others
    named = list(names(oracle, some[0][1]))
    for name, trace in named:
        yield f"named {name!r}", entry(name, trace), expected(oracle, [(name, trace)], b"1 traces\n")
    yield "all these names", b"".join(entry(*one) for one in named), expected(oracle, named, b"%d traces\n" % len(named))

    # cut at each byte
    starts, whole = [], b""
    for one in some:
        starts.append(len(whole))
        whole += entry(*one)
    for size in range(1, len(whole)):
        if size not in starts:
            before = sum(start < size for start in starts) - 1
            yield f"cut at {size}", whole[:size], expected(oracle, some[:before], b"pack cut short at %d\n" % starts[before])

    # lengths of four bytes, of which each counts
    for lengths in ("01000000 00000000", "00000000 01000000", "00010000 00000000", "00000000 00000001", "ffffffff ffffffff"):
        yield lengths, bytes.fromhex(lengths), b"pack cut short at 0\n"

    # about the limits: of a trace 65,536 bytes, of a pack 131,072
    for name in (b"x", b"upright x"):
        for size in (65535, 65536, 65537):
            entries = [(name, bytes(size)), some[0]]
            yield f"a trace of {size} bytes", b"".join(entry(*one) for one in entries), expected(oracle, entries, b"2 traces\n")
    for size in (LONGEST_PACK - 1, LONGEST_PACK):
        entries = [(b"n" * (size - 16), b""), empty]
        yield f"{size} bytes", b"".join(entry(*one) for one in entries), expected(oracle, entries, b"2 traces\n")
    for size in (LONGEST_PACK + 1, 2 * LONGEST_PACK):
        yield f"{size} bytes", bytes(size), b"pack too long\n"


def main(listpack, oracle):
    here = pathlib.Path(__file__).resolve().parent
    count, wrong = 0, 0
    for name, pack, wanted in cases(oracle, here):
        count += 1
        found = output([listpack], pack)
        if found != wanted:
            wrong += 1
            print(f"listpack: {name}: prints {found[-60:]!r}, wanted {wanted[-60:]!r}", file=sys.stderr)
    print(f"listpack: {count} packs, {wrong} differences")
    return 0 if wrong == 0 else 1


if __name__ == "__main__":
    if len(sys.argv) != 3:
        sys.exit(__doc__)
    sys.exit(main(*sys.argv[1:]))
