#!/usr/bin/env python3
"""Makes traces from typed sources.

  make.py               each NAME.trace under this folder from its NAME.txt
  make.py FILE.txt...   FILE.trace beside each of these
  make.py --check       writes nothing, and fails where a trace under this
                        folder is not what its source says
  --force               with the first two: overwrites any FILE.trace

A source that has a fault is answered by a line FILE:LINE: what is wrong, and
then no trace is written.

Nothing is written to recorded/, not even by --force.  Elsewhere a FILE.trace
that was not made here from FILE.txt is not overwritten without --force, and
then no trace is written either.  What was made is known by its digest: the
file made.sha256 beside the traces has them (`sha256sum -c` reads it).

A line of a .txt is one thing of the trace; # begins a remark.  Bytes are
hexadecimal.

  command AE A1     a record of command bytes
  write 00 7F       a record of data written
  write 00 x 132    the same, its bytes repeated 132 times
  text RECIPE 3E5   a record of data written: letters, each five columns wide
                    and one blank column, in the bits of one page
  read 00 7F        a record of bytes that the firmware read
  reset             a record of the reset pin
  select left       a record of a wide terminal: from here on the bus is for
                    the left chip; right, or both
  record 0006 00    a record of this kind (two bytes, the higher first)
  bytes 01 00       bytes as they are, where a record is to be broken

traces/typed.py shows what a source leaves, and at which line it is refused.
"""

import hashlib
import os
import pathlib
import re
import sys
import tempfile
import typing

FONT = {
    " ": "00 00 00 00 00", "-": "08 08 08 08 08", ".": "00 60 60 00 00",
    ":": "00 36 36 00 00", "0": "3E 51 49 45 3E", "1": "00 42 7F 40 00",
    "2": "42 61 51 49 46", "3": "21 41 45 4B 31", "4": "18 14 12 7F 10",
    "5": "27 45 45 45 39", "6": "3C 4A 49 49 30", "7": "01 71 09 05 03",
    "8": "36 49 49 49 36", "9": "06 49 49 29 1E", "A": "7E 11 11 11 7E",
    "B": "7F 49 49 49 36", "C": "3E 41 41 41 22", "D": "7F 41 41 22 1C",
    "E": "7F 49 49 49 41", "F": "7F 09 09 09 01", "G": "3E 41 49 49 7A",
    "H": "7F 08 08 08 7F", "I": "00 41 7F 41 00", "J": "20 40 41 3F 01",
    "K": "7F 08 14 22 41", "L": "7F 40 40 40 40", "M": "7F 02 0C 02 7F",
    "N": "7F 04 08 10 7F", "O": "3E 41 41 41 3E", "P": "7F 09 09 09 06",
    "Q": "3E 41 51 21 5E", "R": "7F 09 19 29 46", "S": "46 49 49 49 31",
    "T": "01 01 7F 01 01", "U": "3F 40 40 40 3F", "V": "1F 20 40 20 1F",
    "W": "3F 40 38 40 3F", "X": "63 14 08 14 63", "Y": "07 08 70 08 07",
    "Z": "61 51 49 45 43",
}

KINDS = {"command": 1, "write": 2, "read": 3}
RESET_PIN = 4
SELECT = 5
SELECTIONS = {"left": 1, "right": 2, "both": 3}
LONGEST_PAYLOAD = 65535


def record(kind, payload):
    """A record of a kind, its header first."""
    return len(payload).to_bytes(2, "little") + kind.to_bytes(2, "little") + payload


def limited(count):
    """A line has no more bytes than a record can have."""
    if count > LONGEST_PAYLOAD:
        raise ValueError(f"a line has at most {LONGEST_PAYLOAD} bytes, not {count}")


def number(word, digits):
    """The number that so many hexadecimal digits are."""
    if not re.fullmatch(f"[0-9A-Fa-f]{{{digits}}}", word):
        raise ValueError(f"{word!r} is not {digits} hexadecimal digits")
    return int(word, 16)


def repeats(words):
    """The N of `x N`, from 1 to 65,535."""
    if len(words) != 1 or not re.fullmatch("[0-9]{1,5}", words[0]) or not 1 <= int(words[0]) <= LONGEST_PAYLOAD:
        raise ValueError(f"x wants one number from 1 to {LONGEST_PAYLOAD} after it, and nothing else")
    return int(words[0])


def hexadecimal(words):
    """Bytes, or bytes and `x N`."""
    times = 1
    if "x" in words:
        place = words.index("x")
        if place == 0:
            raise ValueError("x wants bytes before it")
        times = repeats(words[place + 1:])
        words = words[:place]
    limited(len(words) * times)
    return bytes(number(word, 2) for word in words) * times


def letters(text):
    """The columns of a text."""
    for letter in text:
        if letter not in FONT:
            raise ValueError(f"no letter for {letter!r}: capitals, digits, - . : and space")
    columns = b"".join(bytes.fromhex(FONT[letter]) + b"\0" for letter in text)
    limited(len(columns))
    return columns


def selection(words):
    """The payload of a select record."""
    if len(words) != 1 or words[0] not in SELECTIONS:
        raise ValueError("select wants one word after it: left, right or both")
    return bytes([SELECTIONS[words[0]]])


def part(line):
    """The bytes of one line."""
    word, _, rest = line.replace("\t", " ").partition(" ")
    words = rest.split()
    if word in KINDS:
        return record(KINDS[word], hexadecimal(words))
    if word == "text":
        return record(KINDS["write"], letters(rest))
    if word == "reset":
        if words:
            raise ValueError("reset stands alone")
        return record(RESET_PIN, b"")
    if word == "select":
        return record(SELECT, selection(words))
    if word == "record":
        if not words:
            raise ValueError("record wants a kind, 4 hexadecimal digits")
        return record(number(words[0], 4), hexadecimal(words[1:]))
    if word == "bytes":
        return hexadecimal(words)
    raise ValueError(f"a line begins with command, write, text, read, reset, select, record or bytes, not {word!r}")


class Line(typing.NamedTuple):
    """A line of a source: where it stands, what it says, the bytes made of it."""
    place: int
    text: str
    made: bytes


def text_of(raw):
    """A line as it stands in the file, without its remark."""
    try:
        return raw.decode("utf-8-sig").partition("#")[0].strip()
    except UnicodeDecodeError as fault:
        raise ValueError(f"not UTF-8: byte {fault.object[fault.start]:02X}") from fault


def lines_of(source):
    """The lines of a source that are no mere remarks, and a line for each fault."""
    lines, faults = [], []
    for place, raw in enumerate(source.read_bytes().splitlines(), 1):
        try:
            text = text_of(raw)
            if text:
                lines.append(Line(place, text, part(text)))
        except ValueError as fault:
            faults.append(f"{source}:{place}: {fault}")
    return lines, faults


def trace(lines):
    """The bytes of a source's lines."""
    return b"".join(line.made for line in lines)


# ---- what may be written ----

HERE = pathlib.Path(__file__).resolve().parent
RECORD = "made.sha256"
RECORD_HEAD = "# The traces that make.py made from the .txt of their name, and may make again.\n"


def among_recordings(target):
    """Whether a file lies in recorded/, which nothing of ours writes to."""
    recordings = (HERE / "recorded").resolve()
    folder = target.parent.resolve()
    return folder == recordings or recordings in folder.parents


def digest(content):
    """What a trace is known by."""
    return hashlib.sha256(content).hexdigest()


def record_of(folder):
    """The digests of the traces made in a folder, by their names."""
    path = folder / RECORD
    if not path.exists():
        return {}
    rows = [row.split("  ", 1) for row in path.read_text().splitlines() if not row.startswith("#")]
    return {row[1]: row[0] for row in rows if len(row) == 2}


def kept_from(target, made):
    """Why a trace is not to be overwritten; nothing where it may be."""
    if not os.path.lexists(target):
        return ""
    present = target.read_bytes()
    if present == made or record_of(target.parent).get(target.name) == digest(present):
        return ""
    return (f"{target} is not overwritten: it was not made here from {target.with_suffix('.txt').name}"
            " (--force overwrites it)")


def write_whole(target, content):
    """Writes a file whole or not at all."""
    handle, name = tempfile.mkstemp(dir=target.parent, prefix=f".{target.name}.")
    try:
        with os.fdopen(handle, "wb") as file:
            file.write(content)
        umask = os.umask(0)
        os.umask(umask)
        os.chmod(name, 0o666 & ~umask)
        os.replace(name, target)
    except BaseException:
        os.unlink(name)
        raise


def note_made(target, made):
    """Notes in the folder's record that a trace was made here."""
    record = record_of(target.parent) | {target.name: digest(made)}
    rows = (f"{record[name]}  {name}\n" for name in sorted(record) if (target.parent / name).exists())
    write_whole(target.parent / RECORD, (RECORD_HEAD + "".join(rows)).encode())


def write_traces(traces, force):
    """Writes the traces that are not so yet; where forced, all are noted as made here."""
    for target, made in traces.items():
        if force or not target.exists() or target.read_bytes() != made:
            write_whole(target, made)
            note_made(target, made)


# ---- the command line ----

OPTIONS = ("--check", "--force")


def sources_of(names):
    """The sources that are named, or else all under this folder but recorded/."""
    for name in names:
        if not name.endswith(".txt"):
            sys.exit(f"make.py: {name}: a source is named FILE.txt")
        if among_recordings(pathlib.Path(name)):
            sys.exit(f"make.py: {name}: nothing is written to recorded/; type a trace in another folder")
    if names:
        return [pathlib.Path(name) for name in names]
    found = (pathlib.Path(os.path.relpath(source)) for source in HERE.glob("*/*.txt"))
    return sorted(source for source in found if not among_recordings(source))


def options_of(arguments):
    """The options and the names of a command line."""
    options = {word for word in arguments if word.startswith("-")}
    for option in options:
        if option not in OPTIONS:
            sys.exit(f"make.py: no such option: {option}\nmake.py --help says more")
    if "--check" in options and len(arguments) > 1:
        sys.exit("make.py: --check stands alone")
    return options, [word for word in arguments if not word.startswith("-")]


def traces_of(sources):
    """What the trace of each source must be; ends where a source has a fault."""
    traces, faults = {}, []
    for source in sources:
        lines, found = lines_of(source)
        traces[source.with_suffix(".trace")] = trace(lines)
        faults += found
    if faults:
        sys.exit("\n".join(faults))
    return traces


def differing(traces):
    """How many traces are not what their sources say; a line for each."""
    wrong = 0
    for target, made in traces.items():
        if not target.exists() or target.read_bytes() != made:
            wrong += 1
            print(f"{target} is not what its source says: `make traces` makes it again")
    return wrong


def main(arguments):
    if "--help" in arguments or "-h" in arguments:
        print(__doc__, end="")
        return 0
    options, names = options_of(arguments)
    traces = traces_of(sources_of(names))
    wrong = 0
    if "--check" in options:
        wrong = differing(traces)
    else:
        force = "--force" in options
        kept = [] if force else [words for words in map(kept_from, traces, traces.values()) if words]
        if kept:
            sys.exit("\n".join(kept))
        write_traces(traces, force)
    print(f"traces: {len(traces)} source{'' if len(traces) == 1 else 's'}, {wrong} wrong")
    return 0 if traces and wrong == 0 else 1


if __name__ == "__main__":
    try:
        sys.exit(main(sys.argv[1:]))
    except OSError as failure:
        sys.exit(f"make.py: {failure.filename}: {failure.strerror}")
