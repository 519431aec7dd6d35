#!/usr/bin/env python3
"""Makes crates/tracelisting/proofs/Spread.antt: the definitions of specs/ beside this second program.

The cases are chosen here, the same at every call; every value that the table
expects is the oracle's answer to `play`, `run`, `frame` or `list`.  The prover
computes the definitions on the same cases, and they must come to the table.

    spread.py            writes the table
    spread.py --check    writes nothing, and fails where the stored table is another

The oracle must be built (`make oracle`).
"""

import pathlib
import subprocess
import sys
import tempfile

HERE = pathlib.Path(__file__).resolve().parent
ORACLE = HERE / "target" / "release" / "oracle"
TABLE = HERE.parent / "crates" / "tracelisting" / "proofs" / "Spread.antt"

WIDTH, ROWS, MEMORY, IMAGE = 132, 65, 1188, 23
SEED = 0x1815
# document 01's ranges in the image's order, and its awaited codes
LARGEST = [8, 255, 63, 63, 63, 63, 7, 7, 1, 1, 255, 3, 1, 1, 1, 1, 1, 1, 3, 255, 1, 255, 1]
CODES = [0x81, 0xA8, 0xA9, 0xAD, 0xD3, 0xD4]
FIELDS = ("page column start offset multiplex contrast ratio power bias quarter held phases mirrored rows "
          "entire reverse on indicator mode awaited modify saved fresh").split()
POWER_ON = bytes.fromhex("000000003F200400000000000000000000000000000001")
PLACE = {name: place for place, name in enumerate(FIELDS)}


class Chance:
    """Numbers that are the same at every call, by any Python: xorshift of 64 bits."""

    def __init__(self, seed):
        self.word = seed

    def below(self, limit):
        word = self.word
        word ^= word << 13 & 0xFFFFFFFFFFFFFFFF
        word ^= word >> 7
        word ^= word << 17 & 0xFFFFFFFFFFFFFFFF
        self.word = word
        return (word >> 20) % limit

    def of(self, choices):
        return choices[self.below(len(choices))]

    def bytes(self, count):
        return bytes(self.below(256) for _ in range(count))


# ---- states and memories


def legal(chance, **fixed):
    """A legal image with some registers fixed; no code is awaited unless one is given."""
    image = [chance.below(largest + 1) for largest in LARGEST]
    image[PLACE["column"]] = chance.below(WIDTH)
    image[PLACE["awaited"]] = 0
    for name, value in fixed.items():
        image[PLACE[name]] = value
    if image[PLACE["modify"]] == 0 and "saved" not in fixed:
        image[PLACE["saved"]] = 0
    return bytes(image)


def changed(image, **registers):
    image = bytearray(image)
    for name, value in registers.items():
        image[PLACE[name]] = value
    return bytes(image)


class Memory:
    """A lent memory, and how the table writes it."""

    def __init__(self, text, content):
        self.text, self.content = text, content

    def after(self, content):
        """The same with the few places set where another content differs."""
        if len(content) != len(self.content):
            raise SystemExit("spread.py: a memory changed its length")
        text = self.text
        for place, (was, now) in enumerate(zip(self.content, content)):
            if was != now:
                text = f"set {grouped(text)} {place} 0x{now:02X}"
        return Memory(text, content)


def grouped(text):
    return f"({text})" if " " in text else text


def number_of(content):
    """Bytes as one number, the first byte first."""
    return f"0x{content.hex().upper()}" if content else "0"


def bytes_text(content):
    return f"bytes {len(content)} {number_of(content)}"


def state_text(state):
    return f"image {number_of(state)}" if len(state) == IMAGE else bytes_text(state)


# ---- the oracle


def fnv1a(content, word=0xCBF29CE484222325):
    for byte in content:
        word = (word ^ byte) * 0x100000001B3 & 0xFFFFFFFFFFFFFFFF
    return word


UNTURN = pow(0x100000001B3, -1, 1 << 64)


class Oracle:
    """The second program's answers. It tells a memory by length and hash, so the content is looked for and held to the hash."""

    def __init__(self, folder):
        self.folder, self.files = pathlib.Path(folder), {}

    def ask(self, command, state=None, memory=None, given=b"", upright=False):
        """What it prints; from the new start where no state is given, unless the old one is named."""
        words = [str(ORACLE), command] + ["--upright"] * upright
        if state is not None:
            words += ["--state", state.hex().upper()]
        if memory is not None:
            if memory not in self.files:
                self.files[memory] = self.folder / f"{len(self.files)}"
                self.files[memory].write_bytes(memory)
            words += ["--memory", str(self.files[memory])]
        done = subprocess.run(words, input=given, capture_output=True, check=False)
        if done.returncode != 0:
            raise SystemExit(f"spread.py: {' '.join(words)}: {done.stderr.decode()}")
        return done.stdout.decode()

    @staticmethod
    def told(text):
        """The first line's words, the state and the memory's length and hash."""
        first, state, memory = text.splitlines()
        words = memory.split()
        return first.split(), bytes.fromhex(state.removeprefix("state").strip()), int(words[1]), int(words[3], 16)

    @staticmethod
    def one_byte_on(before, length, word):
        """The content with this hash: as before, or with one byte set."""
        if length != len(before):
            raise SystemExit("spread.py: the oracle changed a memory's length")
        if fnv1a(before) == word:
            return before
        found, ahead, behind = [], [], word
        running = fnv1a(b"")
        for byte in before:
            ahead.append(running)
            running = fnv1a([byte], running)
        for place in reversed(range(length)):
            turned = behind * UNTURN & 0xFFFFFFFFFFFFFFFF
            if turned ^ ahead[place] < 256:
                found.append((place, turned ^ ahead[place]))
            behind = turned ^ before[place]
        if len(found) != 1:
            raise SystemExit("spread.py: the oracle's hash is of no memory that one write leaves")
        place, byte = found[0]
        return before[:place] + bytes([byte]) + before[place + 1:]

    def event(self, event, state, memory):
        """Number, byte, dummy, state and memory after one event."""
        answer, later, length, word = self.told(self.ask("play", state, memory, event.encode()))
        return int(answer[0]), int(answer[1], 16), answer[2] == "1", later, self.one_byte_on(memory, length, word)

    def run_from_start(self, upright, trace):
        """The same of a run from one of the two starts, with the memory that it begins with."""
        state, _ = self.ask("play", upright=upright).splitlines()
        zeros = bytes(MEMORY)
        return self.left(self.ask("run", given=trace, upright=upright), bytes.fromhex(state.removeprefix("state ")), zeros, trace)

    def run(self, state, memory, trace):
        """Number, offset, count, state and memory after a run."""
        return self.left(self.ask("run", state, memory, trace), state, memory, trace)

    def left(self, told, state, memory, trace):
        """What the run told, with its memory: one that the events lead to one by one."""
        answer, later, length, word = self.told(told)
        if length != len(memory):
            raise SystemExit("spread.py: the oracle changed a memory's length")
        left, between = memory, state
        for event in events_in(trace):
            if fnv1a(left) == word:
                break
            _, _, _, between, left = self.event(event, between, left)
        if fnv1a(left) != word:
            raise SystemExit(f"spread.py: the memory that the run of {trace.hex()} leaves was not found")
        return [int(each) for each in answer], later, left

    def frame(self, state, memory):
        """The rows drawn, each a list of places, or the number of a refusal."""
        text = self.ask("frame", state, memory)
        if text.startswith("refused "):
            return int(text.split()[1])
        lines = text.splitlines()
        if lines[0] != f"frame {WIDTH} {ROWS}" or lines[-1] != "end":
            raise SystemExit("spread.py: a frame in another form")
        rows = [[0] * WIDTH for _ in range(ROWS)]
        for line in lines[1:-1]:
            row, *runs = line.split()
            for run in runs:
                first, last = run.split("-")
                for place in range(int(first), int(last) + 1):
                    rows[int(row)][place] = 1
        return rows


# ---- the cases: single events


def event_text(event):
    kind, *byte = event.split()
    name = {"command": "command_byte", "write": "data_written", "read": "data_read", "reset": "reset_pulse"}[kind]
    return f"({name} 0x{byte[0]})" if byte else name


def lent_memories(chance):
    """The memories of the table, by what they are."""
    return {
        "zeros": Memory("zeros", bytes(MEMORY)),
        "busy": Memory("busy", chance.bytes(MEMORY)),
        "short": Memory("lacking", bytes(MEMORY - 1)),
        "long": Memory("longer", bytes(MEMORY) + b"\xAA\x55"),
    }


def command_cases(chance, lent):
    for byte in range(256):
        yield f"command {byte:02X}", legal(chance), lent["zeros"]
    ns = bytes.fromhex("0001030F1011202F30313F40457F8081A0A8AFB0B9C5C8D3D4E0E2E3EEFF")
    for code in CODES:
        for n in ns:
            yield f"command {n:02X}", legal(chance, awaited=code), lent["zeros"]
    for byte in (0xE0, 0xEE, 0xE2):
        for modify in (0, 1):
            for column in (0, 131, 132, 255):
                saved = modify * chance.below(256)
                yield f"command {byte:02X}", legal(chance, column=column, modify=modify, saved=saved), lent["zeros"]


def access_cases(chance, lent):
    for page in (0, 3, 7, 8):
        for column in (0, 1, 130, 131, 132, 143, 255):
            byte = chance.of([0x00, 0x01, 0xAA, 0xFE, 0xFF])
            yield f"write {byte:02X}", legal(chance, page=page, column=column), lent["busy"]
            for fresh in (0, 1):
                yield "read", legal(chance, page=page, column=column, fresh=fresh), lent["busy"]
    for modify in (0, 1):
        for fresh in (0, 1):
            for page in (2, 8):
                for column in (5, 131):
                    state = legal(chance, page=page, column=column, modify=modify, fresh=fresh)
                    yield f"write {chance.below(256):02X}", state, lent["busy"]
                    yield "read", state, lent["busy"]
    for column in range(0, WIDTH, 13):
        yield "read", legal(chance, page=8, column=column, fresh=0), lent["busy"]
    for code in CODES:
        for column in (7, 140):
            yield "write 03", legal(chance, awaited=code, column=column), lent["zeros"]
            yield "read", legal(chance, awaited=code, column=column, fresh=chance.below(2)), lent["zeros"]


def range_cases(chance, lent):
    events, turn = ["command AF", "write 03", "read"], 0
    for name, largest in zip(FIELDS, LARGEST):
        for value in sorted({min(largest + 1, 255), 255} - {largest}):
            yield events[turn % 3], legal(chance, **{name: value}), lent["zeros"]
            turn += 1
    for awaited in (0x01, 0x80, 0x82, 0xA7, 0xAE, 0xD2, 0xFF):
        yield events[turn % 3], legal(chance, awaited=awaited), lent["zeros"]
        turn += 1
    for saved in (1, 131, 255):
        for event in events:
            yield event, legal(chance, modify=0, saved=saved), lent["zeros"]


def length_cases(chance, lent):
    for event in ("command AF", "write 03", "read", "reset"):
        whole, wrong = legal(chance), changed(legal(chance), page=9)
        for state in (whole, wrong):
            yield event, state, lent["zeros"]
            yield event, state, lent["short"]
            yield event, state, lent["long"]
            yield event, state[:22], lent["zeros"]
            yield event, state + b"\xC3\x3C", lent["zeros"]
        yield event, b"", lent["zeros"]
        yield event, whole[:22], lent["short"]
        yield event, whole + b"\xFF", lent["long"]
        yield event, whole, Memory("[]", b"")
    for code in CODES:
        yield "reset", legal(chance, awaited=code, modify=1, saved=9), lent["busy"]


def single_lines(oracle, cases):
    for event, state, memory in cases:
        number, byte, dummy, later, left = oracle.event(event, state, memory.content)
        yield number, (f"single {event_text(event)} ({state_text(state)}) {memory.text}"
                       f" {number} 0x{byte:02X} {str(dummy).lower()} ({state_text(later)}) {grouped(memory.after(left).text)}")


# ---- runs


def record(kind, payload=b"", length=None):
    length = len(payload) if length is None else length
    return length.to_bytes(2, "little") + kind.to_bytes(2, "little") + bytes(payload)


def events_in(trace):
    """A guess at the events of a trace, to look for the memory that its run leaves; the oracle's hash decides."""
    while len(trace) >= 4:
        length, kind = int.from_bytes(trace[:2], "little"), int.from_bytes(trace[2:4], "little")
        payload, trace = trace[4:4 + length], trace[4 + length:]
        if kind == 4:
            yield "reset"
        for byte in payload:
            yield {1: f"command {byte:02X}", 2: f"write {byte:02X}"}.get(kind, "read")


MANY = b"".join([record(1, [0xAF, 0xB8, 0x03, 0x18]), record(2, [0xFF, 0x02]), record(4), record(1, [0xE0]), record(3, [0x99, 0x00]),
                 record(2, [0x5A]), record(1, [0xEE]), record(3, [0x00, 0x5A, 0x00])])


def refused_traces():
    """Each refusal from 3 on, and what stands near it, after a record that is taken."""
    for records in (
            [record(1, [0xAF, 0x30, 0xAE])], [record(1, [0xF0])], [record(1, [0xB8, 0xB9, 0xB0])], [record(1, [0xD3, 0x40])],
            [record(1, [0xD4, 0x11, 0x20])], [record(1, [0x81]), record(2, [0x00])], [record(1, [0x81]), record(3, [0x00])],
            [record(1, [0x04, 0x18]), record(2, [0xAA, 0x55])], [record(1, [0x0F, 0x1F]), record(3, [0x00])],
            [record(0)], [record(5, [1])], [record(0x0101, [0xAF])], [record(0x0400)], [record(4, [0])], [record(4, b"", 1)],
            [record(2, [1, 2], 3)], [record(9, [1, 2], 3)], [record(1, [0xAF], 257)],
            [record(2, [0x11, 0x22]), record(1, [0x00, 0x10]), record(3, [0xEE, 0x11, 0x23, 0x00])],
            [record(1, [0xB8]), record(2, [0xFF]), record(1, [0x00]), record(3, [0x00, 0xFF])],
            [record(1, [0xE0]), record(2, [0x77]), record(1, [0xEE]), record(3, [0x00, 0x77]), record(3, [0x01])],
            [record(1), record(2), record(3), record(4)], [record(1, [0xA9, 0xE2, 0xD4, 0x30, 0xAD, 0xFF])]):
        yield record(1, [0xA1, 0x45]) + b"".join(records)


def trace_by_chance(chance):
    commands = bytes.fromhex("00132F407F81A1A8ADB0B8C8D305E0E2E3EE")
    trace = b""
    for _ in range(1 + chance.below(4)):
        kind = chance.of([1, 1, 2, 2, 3, 4])
        payload = [chance.of(commands) if kind == 1 else chance.below(256) for _ in range(0 if kind == 4 else chance.below(6))]
        trace += record(kind, payload)
    return trace


def run_cases(chance, lent):
    zeros = lent["zeros"]
    for cut in range(len(MANY) + 1):
        yield POWER_ON, zeros, MANY[:cut]
    for place in range(0, len(MANY), 3):
        yield POWER_ON, zeros, MANY[:place] + bytes([MANY[place] ^ 1 << chance.below(8)]) + MANY[place + 1:]
    for trace in refused_traces():
        yield POWER_ON, zeros, trace
    wrong = changed(POWER_ON, page=9)
    for state, memory in ((POWER_ON[:22], zeros), (POWER_ON, lent["short"]), (wrong, zeros), (changed(POWER_ON, saved=1), zeros), (wrong[:22], zeros)):
        for trace in (b"", record(4), record(7)):
            yield state, memory, trace
    yield POWER_ON + b"\xC3\x3C", lent["long"], MANY
    for _ in range(24):
        yield legal(chance, page=chance.of([0, 8]), fresh=chance.of([1, 1, 0])), lent["busy"], trace_by_chance(chance)


def run_lines(oracle, cases):
    for state, memory, trace in cases:
        (number, offset, count), later, left = oracle.run(state, memory.content, trace)
        yield number, (f"traced ({state_text(state)}) {memory.text} ({bytes_text(trace)})"
                       f" {number} {offset} {count} ({state_text(later)}) {grouped(memory.after(left).text)}")


def started_traces():
    """Resets, E2 and the two direction commands, before and after a byte is stored; E2 as n; refusals."""
    drawn = record(1, [0xAF]) + record(2, [0x03])
    yield from (b"", drawn, drawn + record(4), record(4) + drawn, drawn + record(4) + drawn, record(1, [0xE2]) + drawn, drawn + record(1, [0xE2]),
                record(1, [0x81, 0xE2]) + drawn)
    for commands in ([0xA0], [0xC0], [0xA0, 0xC0], [0xA1], [0xC8], [0xA0, 0xE2], [0xC8, 0xE2], [0xE2, 0xC8]):
        yield record(1, commands) + drawn
    yield from (drawn + record(1, [0xE2, 0x30]), drawn + record(1, [0xB9]) + record(4), record(4) + record(3, [0x55, 0x01]), MANY)


def started_lines(oracle, zeros):
    for trace in started_traces():
        for hung, upright in (("Hung.UpsideDown", False), ("Hung.Upright", True)):
            (number, offset, count), later, left = oracle.run_from_start(upright, trace)
            yield number, (f"started {hung} ({bytes_text(trace)}) {number} {offset} {count} ({state_text(later)}) {grouped(zeros.after(left).text)}")


# ---- drawings


def places_text(places):
    """Places, 0 or 1 each, as one number, the first place first."""
    return f"0x{int(''.join(map(str, places)), 2):0{(len(places) + 3) // 4}X}"


def setting_cases(chance):
    both = (0, 1)
    picked = ([dict(mirrored=a, rows=b, reverse=c, entire=d) for a in both for b in both for c in both for d in both]
              + [dict(rows=b, multiplex=m, entire=0) for m in (0, 1, 15, 31, 47, 62, 63) for b in both]
              + [dict(rows=b, offset=o, entire=0) for o in (0, 1, 32, 63) for b in both]
              + [dict(rows=b, start=s, entire=0) for s in (0, 1, 32, 63) for b in both]
              + [dict(on=0, entire=d) for d in both] + [dict(entire=0)] * 8
              + [dict(multiplex=m, offset=o, entire=int(m == 0)) for m, o in ((15, 24), (15, 25), (16, 23), (16, 40), (0, 31), (0, 32), (61, 2))])
    for turn, registers in enumerate(picked):
        row = [0, 63, 64, chance.below(64), chance.below(16)][turn % 5]
        column = [0, 131, chance.below(WIDTH)][turn % 3]
        yield legal(chance, **{"on": 1, "multiplex": chance.of([63, 15, chance.below(64)]), **registers}), row, column


def row_lines(oracle, cases, memory):
    """The chosen row, or for three settings of four the first one from there on that has lit places."""
    for turn, (state, row, _) in enumerate(cases):
        rows = oracle.frame(state, memory.content)
        lit = [each % ROWS for each in range(row, row + ROWS) if any(rows[each % ROWS])]
        if lit and turn % 4:
            row = lit[0]
        yield 0, f"across ({state_text(state)}) {row} {places_text(rows[row])}"


def column_lines(oracle, cases, memory):
    for state, _, column in cases:
        rows = oracle.frame(state, memory.content)
        yield 0, f"downwards ({state_text(state)}) {column} {places_text([row[column] for row in rows])}"


def drawing_cases(chance, lent):
    whole = legal(chance)
    for state in (whole, changed(whole, on=0), changed(whole, page=9), changed(whole, multiplex=64), changed(whole, awaited=0xAE),
                  changed(whole, awaited=0xD3), changed(whole, modify=0, saved=1), whole[:22], whole + b"\xFF", b""):
        for memory in ("busy", "short", "long"):
            yield state, lent[memory]


def drawing_lines(oracle, cases):
    for state, memory in cases:
        answer = oracle.frame(state, memory.content)
        number = answer if isinstance(answer, int) else 0
        yield number, f"asking ({state_text(state)}) {memory.text} {number}"


# ---- listings


def picture(chance):
    """Rows of many shapes, and a trace that stores them with the display on and is then refused."""
    rows = [[0] * WIDTH, [1] * WIDTH, [1] + [0] * 131, [0] * 131 + [1], [place % 2 for place in range(WIDTH)],
            [int(9 <= place <= 10 or 99 <= place <= 100) for place in range(WIDTH)]]
    while len(rows) < ROWS:
        rows.append([int(len(rows) % 3 == 0 and chance.below(12) == 0) for _ in range(WIDTH)])
    rows[ROWS - 1] = [int(40 <= place < 90) for place in range(WIDTH)]
    trace = record(1, [0xAF])
    for page in range(9):
        column = [sum(row[place] << bit for bit, row in enumerate(rows[8 * page:8 * page + 8])) for place in range(WIDTH)]
        trace += record(1, [0xB0 + page, 0x00, 0x10]) + record(2, column)
    return rows, trace + record(1, [0xE3, 0xFF])


def quoted(text):
    return '(ascii "' + text.replace("\n", "\\n") + '")'


def listing_lines(oracle, chance):
    rows, trace = picture(chance)
    number, offset, _ = map(int, oracle.told(oracle.ask("run", given=trace, upright=True))[0])
    said = quoted(oracle.ask("list", given=trace, upright=True))
    yield number, f"listing {number} {offset} (places {WIDTH * ROWS} {places_text(sum(rows, []))}) {said}"


def stop_lines(oracle, traces):
    said = {}
    for trace in traces:
        number, offset, _ = map(int, oracle.told(oracle.ask("run", given=trace, upright=True))[0])
        first = oracle.ask("list", given=trace, upright=True).splitlines()[0] + "\n"
        said[f"stop {number} {offset} {quoted(first) if first.startswith('refused') else '[]'}"] = number
    yield from ((number, line) for line, number in said.items())


# ---- the table


HEAD = '''\
-- Made by oracle/spread.py, which chose the cases and asked the second program for every value that is expected: `make spread` makes it again.
-- The definitions of specs/ beside that program: what they compute to on a spread of states, memories, events, traces and settings is what it answers.
-- Assumes nothing.
use mathlib.Core.Path.{◌≡◌, refl, ◌∙◌}
use mathlib.Core.Bool.{Bool, true, false}
use mathlib.Core.List.{List, [], ◌∷◌, ◌++◌, map}
use Prim.Native.Nat.{ℕ, zero, suc, ◌/◌, ◌%◌}
use lib.Dec.{ltb}
use lib.ListN.{set, replicate}
use borrow.Author.Tests.{ltb-true}
use Rattle.codes.specs.Table.{table, offset_of, frame_phases_of, command_by, operand_by, command_of, operand_of, meaning_of}
use Rattle.constants.specs.Sizes.{width, memory_size, frame_rows, frame_size}
use Rattle.bus.specs.Registers.{largest_values, power_on, registers_of}
use Rattle.bus.specs.Memory.{kept, onward}
use Rattle.bus.specs.Events.{number_of, byte_of, dummy_of, obeyed, command, access, write, written, read, reset_pin}
use Rattle.bus.specs.Chip.{Event, command_byte, data_written, data_read, reset_pulse, step}
use Rattle.bus.specs.Image.{within, awaited_codes, legal, short, asked, stored}
use Rattle.bus.specs.Calls.{Called, called, reply_of, refused, state_after, concluded, asked_before, call_on, call}
use Rattle.trace.specs.Records.{split_from, split}
use Rattle.trace.specs.Play.{play_events, play_record, play_from}
use Rattle.trace.specs.Kinds.{events_of, happened, compared, replay}
use Rattle.trace.specs.Run.{Ran, ran, stop_of, ran_of, run_on, run}
use Rattle.trace.specs.EitherStart.{ran_from_start}
use Rattle.bus.specs.declared.start.Hung.{Hung}
use Rattle.picture.specs.Scan.{com_of, used, ram_row_of, panel_shows, row_shows, column_of}
use Rattle.picture.specs.Frame.{bit, turned, shown_bit, while_on, segment, line as Frame·line, frame, row_of as Frame·row_of}
use Rattle.picture.specs.Draw.{draw_on, draw}
use Rattle.framelisting.specs.Ascii.{ascii}
use Rattle.framelisting.specs.Decimal.{digits, decimal}
use Rattle.framelisting.specs.Runs.{lit, any_lit, leading, runs_from, runs as Runs·runs}
use Rattle.framelisting.specs.Text.{run_text, runs_text, line, row_of, lines, frame_text, refused_text, listing_of}
use Rattle.picture.proofs.Places.{frame_row}
use Rattle.tracelisting.proofs.FrameColumns.{down, row_shown, down_shown, map_same, down_shown_lem}

-- The last digits of a number in a base, so many, before others.
abbrev digits_before : ℕ → ℕ → ℕ → List ℕ → List ℕ
digits_before base zero n others = others
digits_before base (suc count) n others = digits_before base count (n / base) (n % base ∷ others)

-- So many bytes as one number, two hexadecimal digits each.
abbrev bytes : ℕ → ℕ → List ℕ
bytes count n = digits_before 256 count n []

abbrev image : ℕ → List ℕ
image n = bytes 23 n

-- So many places of a frame as one number, a bit each.
abbrev places : ℕ → ℕ → List ℕ
places count n = digits_before 2 count n []

-- The memories that are lent: zeros, bytes by chance, one byte too few, two bytes more than needed.
abbrev zeros : List ℕ
zeros = replicate memory_size 0

abbrev busy : List ℕ
busy = bytes 1188 BUSY

abbrev lacking : List ℕ
lacking = replicate 1187 0

abbrev longer : List ℕ
longer = zeros ++ 0xAA ∷ 0x55 ∷ []

-- An event, the state and memory lent to its call, and the outcome: number, byte, dummy, later state and memory.
record Single : Type 0 where
  event : Event
  state : List ℕ
  memory : List ℕ
  outcome : Called

abbrev single : Event → List ℕ → List ℕ → ℕ → ℕ → Bool → List ℕ → List ℕ → Single
single e lent held n b d later left = record { event = e; state = lent; memory = held; outcome = called (record { number = n; byte = b; dummy = d }) later left }

abbrev Calls : List Single → Type 0
Calls cases = map (λ s. call s.event s.state s.memory) cases ≡ map (λ s. s.outcome) cases

-- A trace, the state and memory lent to its run, and the outcome: number, offset, count, later state and memory.
record Traced : Type 0 where
  state : List ℕ
  memory : List ℕ
  trace : List ℕ
  outcome : Ran

abbrev traced : List ℕ → List ℕ → List ℕ → ℕ → ℕ → ℕ → List ℕ → List ℕ → Traced
traced lent held recorded n at c later left = record { state = lent; memory = held; trace = recorded; outcome = ran (stop_of n at c) later left }

abbrev Runs : List Traced → Type 0
Runs cases = map (λ t. run t.state t.memory t.trace) cases ≡ map (λ t. t.outcome) cases

-- How the module hangs, a trace, and the outcome of its run from that start.
record Started : Type 0 where
  hung : Hung
  trace : List ℕ
  outcome : Ran

abbrev started : Hung → List ℕ → ℕ → ℕ → ℕ → List ℕ → List ℕ → Started
started how recorded n at c later left = record { hung = how; trace = recorded; outcome = ran (stop_of n at c) later left }

abbrev Starts : List Started → Type 0
Starts cases = map (λ s. ran_from_start s.hung s.trace) cases ≡ map (λ s. s.outcome) cases

-- A setting, a row or a column of the frame that it draws from the busy memory, and the places there, left to right or top to bottom.
record Drawing : Type 0 where
  state : List ℕ
  at : ℕ
  outcome : List ℕ

abbrev across : List ℕ → ℕ → ℕ → Drawing
across lent y shown = record { state = lent; at = y; outcome = places width shown }

abbrev downwards : List ℕ → ℕ → ℕ → Drawing
downwards lent x shown = record { state = lent; at = x; outcome = places frame_rows shown }

abbrev Rows : List Drawing → Type 0
Rows cases = map (λ d. Frame·row_of width d.at (frame (registers_of d.state) busy)) cases ≡ map (λ d. d.outcome) cases

abbrev Columns : List Drawing → Type 0
Columns cases = map (λ d. down d.at (frame (registers_of d.state) busy)) cases ≡ map (λ d. d.outcome) cases

-- A state and memory lent to the call that draws, and its number.
record Asking : Type 0 where
  state : List ℕ
  memory : List ℕ
  number : ℕ

abbrev asking : List ℕ → List ℕ → ℕ → Asking
asking lent held n = record { state = lent; memory = held; number = n }

abbrev Drawings : List Asking → Type 0
Drawings cases = map (λ a. (draw a.state a.memory (replicate frame_size 0)).number) cases ≡ map (λ a. a.number) cases

-- A run's number and offset, and the line that a stopped one prints first.
record Stopped : Type 0 where
  number : ℕ
  offset : ℕ
  text : List ℕ

abbrev stop : ℕ → ℕ → List ℕ → Stopped
stop n at said = record { number = n; offset = at; text = said }

abbrev Stops : List Stopped → Type 0
Stops cases = map (λ s. refused_text s.number s.offset) cases ≡ map (λ s. s.text) cases

-- A run's number and offset, a frame, and the whole listing.
record Listing : Type 0 where
  number : ℕ
  offset : ℕ
  frame : List ℕ
  text : List ℕ

abbrev listing : ℕ → ℕ → List ℕ → List ℕ → Listing
listing n at drawn said = record { number = n; offset = at; frame = drawn; text = said }

abbrev Listings : List Listing → Type 0
Listings cases = map (λ l. listing_of l.number l.offset l.frame) cases ≡ map (λ l. l.text) cases
'''

EVENTS = ("largest_values asked short legal within awaited_codes stored power_on step command obeyed write written read reset_pin access kept onward "
          "table offset_of frame_phases_of command_by operand_by command_of operand_of meaning_of")
CALLS = f"{EVENTS} number_of byte_of dummy_of reply_of refused state_after concluded asked_before call_on call"
RUNS = f"{EVENTS} split split_from play_from play_record play_events events_of happened compared replay ran_of run_on run"
STARTS = f"{RUNS} ran_from_start"
SEGMENTS = "com_of used ram_row_of panel_shows row_shows bit column_of turned shown_bit while_on segment Frame·line"
DRAWINGS = "largest_values asked short legal within awaited_codes draw_on draw"
STOPS = "ascii digits decimal refused_text"
LISTINGS = f"{STOPS} lit any_lit leading runs_from Runs·runs run_text runs_text line row_of lines frame_text listing_of"

BY_COMPUTING = '''
{name} : {statement} {name}_cases
unfolding {unfolded}
{name} = refl
'''

# A row or a column is computed by what each place shows; by a law it is the frame's.
BY_PLACES = '''
{name}_shown : map (λ d. {shown} d.at (registers_of d.state) busy) {name}_cases ≡ map (λ d. d.outcome) {name}_cases
unfolding {unfolded}
{name}_shown = refl

{name} : {statement} {name}_cases
{name} =
    map_same _ _ (λ d. ltb d.at {size}) (λ d t. {law} (ltb-true d.at {size} t)) {name}_cases refl ∙
    {name}_shown
'''
ROWS_BY_PLACES = BY_PLACES.replace("{shown}", "row_shown").replace("{size}", "frame_rows").replace("{law}", "frame_row (registers_of d.state) busy d.at")
COLUMNS_BY_PLACES = BY_PLACES.replace("{shown}", "down_shown").replace("{size}", "width").replace("{law}", "down_shown_lem d.at (registers_of d.state) busy")


class Part:
    """A part of the table: its cases, and the theorem on them."""

    def __init__(self, name, statement, record, unfolded, about, lines, theorem=BY_COMPUTING):
        self.name, self.statement, lines = name, statement, list(lines)
        self.size, self.numbers = len(lines), {number for number, _ in lines}
        cases = "\n".join(f"    {line} ∷" for _, line in lines)
        self.text = (f"\n-- {about}\nabbrev {name}_cases : List {record}\n{name}_cases =\n{cases}\n    []\n"
                     + theorem.format(name=name, statement=statement, unfolded=unfolded))


def calls(oracle, lent):
    for name, about, cases in (
            ("commands", "Every command byte where no code is awaited, a spread of n after each code, and E0, EE, E2 at the edges.", command_cases),
            ("accesses", "Data written and read: pages, columns, fresh, read-modify-write, awaited codes.", access_cases),
            ("ranges", "Images out of their ranges.", range_cases),
            ("lengths", "States and memories of other lengths, and the reset pin.", length_cases)):
        yield Part(name, "Calls", "Single", CALLS, about, single_lines(oracle, cases(Chance(SEED), lent)))


def parts(oracle, lent):
    yield from calls(oracle, lent)
    runs = list(run_cases(Chance(SEED), lent))
    yield Part("runs", "Runs", "Traced", RUNS, "A trace cut at each byte and damaged, each refusal, and traces by chance.", run_lines(oracle, runs))
    yield Part("starts", "Starts", "Started", STARTS, "From either start: the reset pin, E2 and the direction commands.", started_lines(oracle, lent["zeros"]))
    settings = list(setting_cases(Chance(SEED)))
    yield Part("rows", "Rows", "Drawing", SEGMENTS, "A row of half of the settings below.",
               row_lines(oracle, [case for turn, case in enumerate(settings) if turn % 4 in (0, 3)], lent["busy"]), ROWS_BY_PLACES)
    yield Part("columns", "Columns", "Drawing", SEGMENTS, "Both directions, reverse, entire on, display off, M, offset and start line.",
               column_lines(oracle, settings, lent["busy"]), COLUMNS_BY_PLACES)
    yield Part("drawings", "Drawings", "Asking", DRAWINGS, "What drawing asks first.", drawing_lines(oracle, drawing_cases(Chance(SEED), lent)))
    from_power_on = [trace for state, memory, trace in runs if state == POWER_ON and memory is lent["zeros"]]
    yield Part("stops", "Stops", "Stopped", STOPS, "Each number and offset among the runs from power-on with zero memory.", stop_lines(oracle, from_power_on))
    yield Part("listings", "Listings", "Listing", LISTINGS, "Rows of many shapes, after a run that stopped.", listing_lines(oracle, Chance(SEED)))


def numbers_missed(made):
    """The numbers that the parts of a kind have to reach and do not."""
    for statement, numbers in (("Calls", {*range(8), 15}), ("Runs", {*range(11), 15}), ("Drawings", {*range(3)})):
        reached = set().union(*(part.numbers for part in made if part.statement == statement))
        yield from (f"{statement} {number}" for number in sorted(numbers - reached))


def table(oracle):
    """The table's text, and how many cases each part has."""
    lent = lent_memories(Chance(SEED))
    made = list(parts(oracle, lent))
    missed = ", ".join(numbers_missed(made))
    if missed:
        raise SystemExit(f"spread.py: no case has the number: {missed}")
    text = HEAD.replace("BUSY", number_of(lent["busy"].content)) + "".join(part.text for part in made)
    statements = " × ".join(f"{part.statement} {part.name}_cases" for part in made)
    text += f"\npub spread : {statements}\nspread = ({', '.join(part.name for part in made)})\n"
    return text, ", ".join(f"{part.size} {part.name}" for part in made)


def main(arguments):
    if arguments not in ([], ["--check"]):
        raise SystemExit(__doc__)
    if not ORACLE.exists():
        raise SystemExit("spread.py: the oracle is not built: `make oracle`")
    with tempfile.TemporaryDirectory() as folder:
        text, counts = table(Oracle(folder))
    if not arguments:
        TABLE.write_text(text)
    elif not TABLE.exists() or TABLE.read_text() != text:
        print(f"{TABLE.relative_to(HERE.parent)} is not what oracle/spread.py makes of the oracle's answers: `make spread` makes it again")
        return 1
    print(f"spread: {counts}")
    return 0


if __name__ == "__main__":
    sys.exit(main(sys.argv[1:]))
