#!/usr/bin/env python3
"""Tests of ssd1815b.py: document 01's samples, refusals, misuse, the search for the library, the README's examples.

What is expected is what documents 01 and 02 say.  SSD1815B_LIBRARY names the library.
"""

from __future__ import annotations

import contextlib
import copy
import io
import os
import pathlib
import random
import re
import shutil
import subprocess
import sys
import tempfile
import types
import unittest
import unittest.mock

sys.dont_write_bytecode = True
HERE = pathlib.Path(__file__).resolve().parent
sys.path.insert(0, str(HERE))

import ssd1815b  # noqa: E402
from ssd1815b import (Chip, DifferingByte, DifferingRun, Kind, Number, Power, Register, Selection,  # noqa: E402
                      WideTerminal)


def commanded(*codes: int) -> Chip:
    """A chip that has taken these command bytes from power-on, the upright start."""
    chip = Chip(upright=True)
    for code in codes:
        assert chip.command(code) == Number.TAKEN, hex(code)
    return chip


def row(frame: bytes, number: int) -> bytes:
    """A row of a frame."""
    return frame[ssd1815b.COLUMNS * number:ssd1815b.COLUMNS * (number + 1)]


def ram_row(memory: bytes, number: int) -> bytes:
    """A RAM row: bit b of page p is RAM row 8p + b."""
    page, bit = divmod(number, 8)
    return bytes(memory[132 * page + column] >> bit & 1 for column in range(132))


class Samples(unittest.TestCase):
    """The twelve sample events of document 01, by their numbers there; 9 and 11 as document 02, Order 2, has them.

    They are "from power-on with zero memory": the upright start, by name.
    """

    def test_01_data(self) -> None:
        chip = commanded()
        self.assertEqual(chip.write(0x03), 0)
        self.assertEqual(chip.memory, b"\x03" + bytes(1187))
        self.assertEqual(chip.state[Register.COLUMN], 1)

    def test_02_the_last_column(self) -> None:
        chip = commanded(0x03, 0x18)
        self.assertEqual(chip.state[Register.COLUMN], 131)
        self.assertEqual(chip.write(0xAA), 0)
        self.assertEqual(chip.memory[131], 0xAA)
        self.assertEqual((chip.state[Register.COLUMN], chip.state[Register.PAGE]), (0, 0))

    def test_03_a_column_above(self) -> None:
        chip = commanded(0x0F, 0x18)
        self.assertEqual(chip.state[Register.COLUMN], 143)
        self.assertEqual(chip.write(0xAA), 7)

    def test_04_pages(self) -> None:
        chip = commanded()
        self.assertEqual(chip.command(0xB8), 0)
        self.assertEqual(chip.command(0xB9), 4)

    def test_05_icons(self) -> None:
        chip = commanded(0xB8)
        self.assertEqual(chip.write(0xFF), 0)
        self.assertEqual(chip.memory[1056], 0x01)

    def test_06_read_modify_write(self) -> None:
        for around, column in (True, 5), (False, 7):
            chip = commanded(0x05, 0x10, *([0xE0] if around else []))
            self.assertEqual([chip.write(0x11), chip.write(0x22)], [0, 0])
            if around:
                self.assertEqual(chip.command(0xEE), 0)
            self.assertEqual(chip.state[Register.COLUMN], column)

    def test_07_contrast(self) -> None:
        chip = commanded(0x81)
        self.assertEqual(chip.write(0x00), 6)
        self.assertEqual(chip.command(0xC5), 0)
        self.assertEqual(chip.state[Register.CONTRAST], 5)

    def test_08_offset(self) -> None:
        chip = commanded(0xD3)
        self.assertEqual(chip.command(0x40), 5)
        self.assertEqual(chip.command(0x3F), 0)
        self.assertEqual(chip.state[Register.OFFSET], 63)

    def test_09_entire_on(self) -> None:
        frame = commanded(0xA8, 0x0F, 0xAF, 0xA5).draw().frame
        for number in range(65):
            lit = 24 <= number <= 39 or number == 64
            self.assertEqual(row(frame, number), bytes([lit]) * 132, f"row {number}")

    def test_10_start_line_and_offset(self) -> None:
        for reversing, first, last in (0xC0, 5, 4), (0xC8, 0, 1):
            chip = commanded(0x43, 0xD3, 0x02, 0xAF, reversing)
            chip.memory = random.Random(10).randbytes(1188)
            frame = chip.draw().frame
            self.assertEqual(row(frame, 0), ram_row(chip.memory, first))
            self.assertEqual(row(frame, 63), ram_row(chip.memory, last))

    def test_11_rows_reversed(self) -> None:
        chip = commanded(0xA8, 0x0F, 0xC8, 0xAF)
        chip.memory = random.Random(11).randbytes(1188)
        self.assertEqual(row(chip.draw().frame, 24), ram_row(chip.memory, 15))

    def test_12_display_off(self) -> None:
        self.assertEqual(commanded(0xA5).draw(), (0, bytes(8580)))


# Document 01, "Registers"; the two directions stand at places 12 and 13, and Order 3 has them 1.
POWER_ON = bytes.fromhex("00 00 00 00 3F 20 04 00 00 00 00 00 00 00 00 00 00 00 00 00 00 00 01")
UPSIDE_DOWN = bytes.fromhex("00 00 00 00 3F 20 04 00 00 00 00 00 01 01 00 00 00 00 00 00 00 00 01")
UPSIDE_DOWN_THEN_E2 = bytes.fromhex("00 00 00 00 3F 20 04 00 00 00 00 00 01 00 00 00 00 00 00 00 00 00 01")

# Document 01's trace, what it prints for it, and Order 3's second listing.
OWN_TRACE = bytes.fromhex("01000100AF 020002000301")
UPRIGHT_LISTING = "frame 132 65\n0 0-1\n1 0-0\nend\n"
UPSIDE_DOWN_LISTING = "frame 132 65\n62 131-131\n63 130-131\nend\n"


class Starts(unittest.TestCase):
    """The two starts, by document 01 and Order 3."""

    def test_images(self) -> None:
        for chip, image in ((Chip(), UPSIDE_DOWN), (Chip(upright=False), UPSIDE_DOWN), (Chip(upright=True), POWER_ON)):
            self.assertEqual((chip.state, chip.memory), (image, bytes(1188)))

    def test_the_old_start_is_named(self) -> None:
        with self.assertRaises(TypeError):
            Chip(True)  # type: ignore[misc]

    def test_start_again(self) -> None:
        for chip in Chip(), Chip(upright=True):
            for start, image in (chip.start, UPSIDE_DOWN), (chip.start_upright, POWER_ON), (chip.start, UPSIDE_DOWN):
                chip.state, chip.memory = b"\xFF" * 23, b"\xFF" * 1188
                self.assertEqual(start(), 0)
                self.assertEqual((chip.state, chip.memory), (image, bytes(1188)))

    def test_listings(self) -> None:
        for chip, text in (Chip(), UPSIDE_DOWN_LISTING), (Chip(upright=True), UPRIGHT_LISTING):
            self.assertEqual(chip.run(OWN_TRACE), (0, 11, 2))
            self.assertEqual(ssd1815b.listing(chip.draw().frame), text)

    def test_the_reset_pin_is_upright(self) -> None:
        for chip in Chip(), Chip(upright=True):
            self.assertEqual(chip.reset(), 0)
            self.assertEqual(chip.state, POWER_ON)
        for chip in Chip(), Chip(upright=True):
            self.assertEqual(chip.run(ssd1815b.record(Kind.RESET_PIN) + OWN_TRACE), (0, 15, 3))
            self.assertEqual(ssd1815b.listing(chip.draw().frame), UPRIGHT_LISTING)

    def test_E2_puts_the_row_direction_alone(self) -> None:
        for chip, image in (Chip(), UPSIDE_DOWN_THEN_E2), (Chip(upright=True), POWER_ON):
            self.assertEqual(chip.command(0xE2), 0)
            self.assertEqual(chip.state, image)


class Calls(unittest.TestCase):
    """What the other calls answer, by document 01."""

    def test_a_copy_is_a_chip_of_its_own(self) -> None:
        chip = commanded(0xAF)
        other = copy.deepcopy(chip)
        other.write(0x55)
        self.assertEqual((chip.memory[0], other.memory[0]), (0, 0x55))
        self.assertEqual((chip.state[Register.COLUMN], other.state[Register.COLUMN]), (0, 1))

    def test_reset_pin(self) -> None:
        chip = commanded(0xAF, 0x81)
        chip.memory = b"\x55" * 1188
        self.assertEqual(chip.reset(), 0)
        self.assertEqual((chip.state, chip.memory), (POWER_ON, b"\x55" * 1188))

    def test_read(self) -> None:
        chip = Chip()
        chip.memory = b"\x12\x34" + bytes(1186)
        self.assertEqual([chip.read() for _ in range(3)], [(0, 0, True), (0, 0x12, False), (0, 0x34, False)])
        chip.command(0x81)
        self.assertEqual(chip.read(), (6, 0, False))

    def test_refused_run(self) -> None:
        for chip, text in (Chip(), UPSIDE_DOWN_LISTING), (Chip(upright=True), UPRIGHT_LISTING):
            run = chip.run(OWN_TRACE + bytes.fromhex("02000100A630"))
            self.assertEqual(run, (3, 16, 2))
            self.assertEqual(ssd1815b.listing(chip.draw().frame, run.number, run.offset), "refused 3 at 16\n" + text)
        self.assertEqual(Chip().run(memoryview(b"\x01\x00\x01")), (8, 0, 0))
        self.assertEqual(Chip().run(bytearray(b"\x00\x00\x05\x00")), (9, 0, 0))
        self.assertEqual(Chip().run(b""), (0, 0, 0))
        self.assertEqual(Chip().run(bytes.fromhex("020003000007")), (10, 5, 0))

    def test_an_image_out_of_its_ranges(self) -> None:
        chip = Chip()
        image = b"\x09" + POWER_ON[1:]
        chip.state = image
        self.assertEqual([chip.command(0xAF), chip.write(0), chip.read(), chip.run(b"")],
                         [2, 2, (2, 0, False), (2, 0, 0)])
        self.assertEqual(chip.draw(), (2, b""))
        self.assertEqual(chip.power_state(), (2, Power.AWAKE))
        self.assertEqual(chip.state, image)
        self.assertEqual(chip.reset(), 0)

    def test_power_state(self) -> None:
        self.assertEqual(Chip().power_state(), (0, Power.AWAKE))
        self.assertEqual(commanded(0xA5).power_state(), (0, Power.SLEEP))
        self.assertEqual(commanded(0xA5, 0xAD, 0x00).power_state(), (0, Power.STANDBY))
        self.assertEqual(commanded(0xA5, 0xAF).power_state(), (0, Power.AWAKE))

    def test_records(self) -> None:
        trace = OWN_TRACE + ssd1815b.record(Kind.RESET_PIN) + ssd1815b.record(0x0105, b"\x07")
        found = [(0, 1, b"\xAF"), (5, 2, b"\x03\x01"), (11, 4, b""), (15, 0x0105, b"\x07")]
        self.assertEqual(list(ssd1815b.records(trace)), found)
        self.assertEqual(list(ssd1815b.records(trace[:-1])), found[:-1])
        self.assertEqual(list(ssd1815b.records(b"")), [])

    def test_record(self) -> None:
        self.assertEqual(ssd1815b.record(Kind.COMMANDS, b"\xAF") + ssd1815b.record(Kind.WRITTEN, bytearray(b"\3\1")),
                         OWN_TRACE)


class Differences(unittest.TestCase):
    """Where two frames and two memories differ, by Order 1."""

    def changed(self, *runs: DifferingRun) -> tuple[bytes, bytes]:
        """Two frames, else dark, that differ in these runs."""
        first, second = bytearray(8580), bytearray(8580)
        for run in runs:
            for place in range(132 * run.row + run.first, 132 * run.row + run.last + 1):
                first[place], second[place] = run.was, run.is_
        return bytes(first), bytes(second)

    def test_runs(self) -> None:
        runs = [DifferingRun(0, 0, 131, 0, 1), DifferingRun(1, 0, 0, 0, 1), DifferingRun(1, 7, 9, 1, 0),
                DifferingRun(1, 10, 10, 0, 1), DifferingRun(64, 131, 131, 1, 0)]
        first, second = self.changed(*runs)
        self.assertEqual(ssd1815b.compare_frames(first, bytearray(second)), (0, runs))
        self.assertEqual(ssd1815b.compare_frames(second, memoryview(first)),
                         (0, [run._replace(was=run.is_, is_=run.was) for run in runs]))

    def test_equal_frames(self) -> None:
        self.assertEqual(ssd1815b.compare_frames(bytes(8580), bytes(8580)), (0, []))

    def test_every_place_a_run(self) -> None:
        first, second = b"\0\1" * 4290, b"\1\0" * 4290
        number, runs = ssd1815b.compare_frames(first, second)
        self.assertEqual((number, len(runs)), (0, 8580))
        self.assertEqual(runs[8579], (64, 131, 131, 1, 0))

    def test_a_byte_above_1(self) -> None:
        for first, second in (bytes(8579) + b"\2", bytes(8580)), (bytes(8580), b"\xFF" + bytes(8579)):
            differing = ssd1815b.compare_frames(first, second)
            self.assertEqual(differing, (12, []))
            self.assertEqual(differing.number.name, "FRAME_BYTE_ABOVE")

    def test_bytes(self) -> None:
        first, second = bytearray(1188), bytearray(1188)
        second[0], first[255], second[256] = 0x80, 0x12, 0x34
        first[1055], first[1056], second[1057], second[1187] = 0xFE, 0xFE, 0xFF, 0x03
        self.assertEqual(ssd1815b.compare_memories(first, second),
                         [DifferingByte(0, 0, 0x80), DifferingByte(255, 0x12, 0), DifferingByte(256, 0, 0x34),
                          DifferingByte(1055, 0xFE, 0), DifferingByte(1057, 0, 1), DifferingByte(1187, 0, 1)])
        self.assertEqual(ssd1815b.compare_memories(first, first), [])

    def test_every_byte(self) -> None:
        found = ssd1815b.compare_memories(bytes(1188), b"\x81" * 1188)
        self.assertEqual(found, [(place, 0, 0x81 if place < 1056 else 1) for place in range(1188)])


def held(wide: WideTerminal) -> tuple[bytes, bytes, bytes, bytes]:
    """All that a wide terminal has."""
    return wide.left.state, wide.left.memory, wide.right.state, wide.right.memory


class Wide(unittest.TestCase):
    """The wide terminal, by Order 4."""

    def assert_refused(self, wide: WideTerminal, number: int, call: str, *arguments: int) -> None:
        """A call that is refused so and changes nothing."""
        before = held(wide)
        self.assertEqual(getattr(wide, call)(*arguments), number)
        self.assertEqual(held(wide), before)

    def test_starts(self) -> None:
        for wide, image in (WideTerminal(), UPSIDE_DOWN), (WideTerminal(upright=True), POWER_ON):
            self.assertEqual(held(wide), (image, bytes(1188)) * 2)
            self.assertEqual([wide.start_upright(), held(wide)], [0, (POWER_ON, bytes(1188)) * 2])
            self.assertEqual([wide.start(), held(wide)], [0, (UPSIDE_DOWN, bytes(1188)) * 2])

    def test_who_an_event_is_for(self) -> None:
        for selection, left, right in (1, 1, 0), (2, 0, 1), (3, 1, 1):
            wide = WideTerminal(upright=True)
            self.assertEqual([wide.command(selection, 0xAF), wide.write(selection, 0x5A)], [0, 0])
            for chip, selected in (wide.left, left), (wide.right, right):
                self.assertEqual(chip.state[Register.DISPLAY_ON], selected)
                self.assertEqual(chip.memory[0], 0x5A * selected)
            wide.command(Selection.BOTH, 0xA7)
            self.assertEqual(wide.reset(selection), 0)
            for chip, selected in (wide.left, left), (wide.right, right):
                self.assertEqual(chip.state[Register.REVERSE], 1 - selected)

    def test_read(self) -> None:
        wide = WideTerminal()
        wide.left.memory, wide.right.memory = b"\x12" * 1188, b"\x34" * 1188
        self.assertEqual([wide.read(Selection.RIGHT) for _ in range(2)], [(0, 0, True), (0, 0x34, False)])
        self.assertEqual([wide.read(Selection.LEFT) for _ in range(2)], [(0, 0, True), (0, 0x12, False)])
        self.assertEqual(wide.read(Selection.BOTH), (Number.BOTH_SELECTED, 0, False))

    def test_refusals(self) -> None:
        for selection in 0, 4, 255:
            wide = WideTerminal()
            for call, arguments in ("command", (0xAF,)), ("write", (0x55,)), ("reset", ()):
                self.assert_refused(wide, Number.NO_SELECTION, call, selection, *arguments)
            self.assertEqual(wide.read(selection), (13, 0, False))
        wide = WideTerminal()
        wide.command(Selection.LEFT, 0xD3)
        self.assert_refused(wide, 5, "command", Selection.BOTH, 0xF0)   # the right's would be 15
        self.assert_refused(wide, Number.TEST_MODE, "command", Selection.RIGHT, 0xF0)
        self.assert_refused(wide, 3, "command", Selection.RIGHT, 0xEF)
        self.assert_refused(wide, 6, "write", Selection.BOTH, 0x55)     # the right could take it
        self.assertEqual(wide.write(Selection.RIGHT, 0x55), 0)
        wide.right.state = b"\x09" + POWER_ON[1:]
        self.assert_refused(wide, 2, "write", Selection.LEFT, 0x55)
        self.assertEqual(wide.draw(), (2, b""))

    def test_run(self) -> None:
        wide = WideTerminal(upright=True)
        select = [ssd1815b.record(Kind.SELECT, bytes([byte])) for byte in range(5)]
        self.assertEqual(wide.run(OWN_TRACE + select[2] + ssd1815b.record(Kind.COMMANDS, b"\xA7\xA1")), (0, 22, 4))
        self.assertEqual((wide.left.state[Register.REVERSE], wide.right.state[Register.REVERSE]), (0, 1))
        self.assertEqual(wide.run(ssd1815b.record(Kind.COMMANDS, b"\xAE")), (0, 5, 1))  # both again
        self.assertEqual((wide.left.state[Register.DISPLAY_ON], wide.right.state[Register.DISPLAY_ON]), (0, 0))
        for refused in select[0], select[4], ssd1815b.record(Kind.SELECT), ssd1815b.record(Kind.SELECT, b"\1\1"):
            self.assertEqual(wide.run(select[1] + refused), (13, 5, 1))
        self.assertEqual(wide.run(select[1] + select[3] + ssd1815b.record(Kind.READ, b"\0")), (14, 14, 2))
        self.assertEqual(wide.run(ssd1815b.record(6, b"\1")), (9, 0, 0))
        self.assertEqual(Chip().run(select[1]), (9, 0, 0))

    def test_listings(self) -> None:
        # OWN_TRACE in both halves, from either start.
        for wide, text in ((WideTerminal(), "62 131-131 263-263\n63 130-131 262-263\n"),
                           (WideTerminal(upright=True), "0 0-1 132-133\n1 0-0 132-132\n")):
            run = wide.run(OWN_TRACE)
            self.assertEqual(run, (0, 11, 2))
            frame = wide.draw().frame
            self.assertEqual(ssd1815b.wide_listing(frame), f"frame 264 65\n{text}end\n")
            self.assertEqual(ssd1815b.wide_listing(frame, 14, 9), f"refused 14 at 9\nframe 264 65\n{text}end\n")
        self.assertEqual(ssd1815b.wide_listing(bytes(131) + b"\1\1" + bytes(17027)), "frame 264 65\n0 131-132\nend\n")

    def test_halves(self) -> None:
        wide = WideTerminal()
        wide.left.memory, wide.right.memory = random.Random(4).randbytes(1188), random.Random(5).randbytes(1188)
        wide.command(Selection.BOTH, 0xAF)
        wide.command(Selection.RIGHT, 0xA0)
        frame = wide.draw().frame
        left, right = wide.left.draw().frame, wide.right.draw().frame
        self.assertEqual(frame, b"".join(row(left, number) + row(right, number) for number in range(65)))

    def test_page(self) -> None:
        wide = WideTerminal()
        wide.left.memory, wide.right.memory = random.Random(6).randbytes(1188), random.Random(7).randbytes(1188)
        for page in range(9):
            for side, chip in (Selection.LEFT, wide.left), (Selection.RIGHT, wide.right):
                number, part = wide.page(side, page)
                self.assertEqual((number, bytes(part)), (0, chip.memory[132 * page:132 * page + 132]))
        for side, page, number in (1, 9, 4), (2, 255, 4), (0, 0, 13), (3, 0, 13), (3, 9, 13):
            refused = wide.page(side, page)
            self.assertEqual((refused.number, bytes(refused.part)), (number, b""))

    def test_a_page_is_a_part_of_the_memory(self) -> None:
        wide = WideTerminal()
        left, right = wide.page(Selection.LEFT, 0).part, wide.page(Selection.RIGHT, 0).part
        wide.write(Selection.RIGHT, 0x77)
        self.assertEqual((left[0], right[0]), (0, 0x77))
        with self.assertRaises(TypeError):
            right[0] = 1

    def test_misuse(self) -> None:
        wide = WideTerminal()
        for call in wide.read, wide.reset:
            with self.assertRaisesRegex(ValueError, "a byte is 0 to 255, not 256"):
                call(256)
        with self.assertRaisesRegex(ValueError, "a byte is 0 to 255, not -1"):
            wide.page(Selection.LEFT, -1)
        with self.assertRaisesRegex(TypeError, "a byte is a number, not str"):
            wide.command("left", 0xAF)  # type: ignore[arg-type]
        for flag in False, True:  # is no selection, side, byte or page
            for name, arguments in (("command", (flag, 0xAF)), ("command", (Selection.LEFT, flag)), ("write", (flag, 0x55)),
                                    ("write", (Selection.RIGHT, flag)), ("read", (flag,)), ("reset", (flag,)),
                                    ("page", (flag, 0)), ("page", (Selection.LEFT, flag))):
                with self.subTest(name, arguments=arguments), self.assertRaisesRegex(TypeError, "a byte is a number, not bool"):
                    getattr(wide, name)(*arguments)
        self.assertEqual(held(wide), (UPSIDE_DOWN, bytes(1188)) * 2)
        with self.assertRaisesRegex(ValueError, "a wide frame has 17160 bytes, not 8580"):
            ssd1815b.wide_listing(bytes(8580))
        with self.assertRaises(AttributeError):
            wide.right = wide.left  # type: ignore[misc]


class Misuse(unittest.TestCase):
    """What is no event at all, said in words."""

    def test_bytes(self) -> None:
        chip = Chip()
        for call in chip.command, chip.write:
            for value in -1, 256:
                with self.assertRaisesRegex(ValueError, f"a byte is 0 to 255, not {value}"):
                    call(value)
            with self.assertRaisesRegex(TypeError, "a byte is a number, not str"):
                call("AF")  # type: ignore[arg-type]
            with self.assertRaisesRegex(TypeError, "a byte is a number, not bool"):
                call(True)
        self.assertEqual((chip.state, chip.memory), (UPSIDE_DOWN, bytes(1188)))

    def test_lengths(self) -> None:
        chip = Chip()
        with self.assertRaisesRegex(ValueError, "a state image has 23 bytes, not 22"):
            chip.state = bytes(22)
        with self.assertRaisesRegex(ValueError, "a memory has 1188 bytes, not 1189"):
            chip.memory = bytes(1189)
        with self.assertRaisesRegex(ValueError, "a frame has 8580 bytes, not 0"):
            ssd1815b.listing(b"")
        with self.assertRaisesRegex(ValueError, "a frame has 8580 bytes, not 8579"):
            ssd1815b.compare_frames(bytes(8580), bytes(8579))
        with self.assertRaisesRegex(ValueError, "a memory has 1188 bytes, not 1189"):
            ssd1815b.compare_memories(bytes(1189), bytes(1188))
        with self.assertRaisesRegex(ValueError, "an offset is 0 or more, not -1"):
            ssd1815b.listing(bytes(8580), 3, -1)
        with self.assertRaisesRegex(ValueError, "a payload has at most 65,535 bytes, not 65536"):
            ssd1815b.record(1, bytes(65536))
        with self.assertRaisesRegex(ValueError, "a kind is 0 to 65,535, not 65536"):
            ssd1815b.record(65536)

    def test_a_flag_is_no_number(self) -> None:
        for flag in False, True:
            for listing, frame in (ssd1815b.listing, bytes(8580)), (ssd1815b.wide_listing, bytes(17160)):
                with self.assertRaisesRegex(TypeError, "a byte is a number, not bool"):
                    listing(frame, flag)
                with self.assertRaisesRegex(TypeError, "an offset is a number, not bool"):
                    listing(frame, 3, flag)
            with self.assertRaisesRegex(TypeError, "a kind is a number, not bool"):
                ssd1815b.record(flag)
        with self.assertRaisesRegex(TypeError, "a kind is a number, not str"):
            ssd1815b.record("5")  # type: ignore[arg-type]

    def test_a_text_is_no_trace(self) -> None:
        with self.assertRaisesRegex(TypeError, "a trace: bytes are wanted, not str"):
            Chip().run("command AF")  # type: ignore[arg-type]


DRIVERS = HERE.parent / "traces" / "drivers"


def picture(name: str) -> list[bytes]:
    """The rows of the picture that a driver was given, 128 places each."""
    content = (DRIVERS / f"{name}.pbm").read_bytes()
    assert content[:10] == b"P4\n128 64\n" and len(content) == 10 + 64 * 16
    return [bytes(content[10 + 16 * y + x // 8] >> 7 - x % 8 & 1 for x in range(128)) for y in range(64)]


class Drivers(unittest.TestCase):
    """The frame of a foreign driver's traffic is the picture that it was given (traces/drivers/README.md).

    From either start: each begins with the reset pin.
    """

    def frame(self, name: str) -> bytes:
        """The frame of a trace that is taken whole, the same from both starts."""
        trace = (DRIVERS / f"{name}.trace").read_bytes()
        self.assertEqual(next(ssd1815b.records(trace)), (0, Kind.RESET_PIN, b""))
        chip, upright = Chip(), Chip(upright=True)
        run = chip.run(trace)
        self.assertEqual((run.number, run.offset), (0, len(trace)))
        self.assertEqual(upright.run(trace), run)
        self.assertEqual((upright.state, upright.memory), (chip.state, chip.memory))
        return chip.draw().frame

    def assert_shows(self, name: str, rows: list[bytes]) -> None:
        """Column x is at place 127 - x; places 128 to 131 and the icon line are dark."""
        expected = b"".join(row[::-1] + bytes(4) for row in rows) + bytes(132)
        self.assertEqual(self.frame(name), expected)
        self.assertIn(1, expected)

    def test_pictures(self) -> None:
        for name in "st7567-picture", "st7567-second-picture":
            self.assert_shows(name, picture(name))

    def test_upside_down(self) -> None:
        turned = [row[::-1] for row in reversed(picture("st7567-upside-down"))]
        self.assert_shows("st7567-upside-down", turned)

    def test_hidden(self) -> None:
        self.assertEqual(self.frame("st7567-hidden"), bytes(8580))

    def test_another_controller(self) -> None:
        trace = (DRIVERS / "15-uc1701x.trace").read_bytes()
        for chip in Chip(), Chip(upright=True):
            run = chip.run(trace)
            self.assertEqual((run.number, trace[run.offset]), (Number.TEST_MODE, 0xF8))

    def test_each_trace_is_tested(self) -> None:
        tested = {"st7567-picture", "st7567-second-picture", "st7567-upside-down", "st7567-hidden", "15-uc1701x"}
        self.assertEqual({path.stem for path in DRIVERS.glob("*.trace")}, tested)

    def test_example(self) -> None:
        python = "/usr/bin/python3"  # Debian's, for which python3-luma.lcd is
        if subprocess.run([python, "-c", "import luma.lcd"], capture_output=True, check=False).returncode != 0:
            self.skipTest("no luma.lcd here; its recorded traffic is tested")
        done = subprocess.run([python, str(HERE / "luma_example.py")], capture_output=True, text=True, check=False)
        self.assertEqual((done.returncode, done.stderr), (0, ""), done.stdout)


HEADER = HERE.parent / "host" / "ssd1815b.h"


class Header(unittest.TestCase):
    """The names and values of host/ssd1815b.h are the module's."""

    def test_values(self) -> None:
        defined = dict(re.findall(r"^#define SSD1815B_(\w+) +(\d+)\b", HEADER.read_text(), re.M))
        self.assertGreater(len(defined), 40)
        names: dict[str, int] = {name: value for name, value in vars(ssd1815b).items() if isinstance(value, int)}
        for group in (Number, Register, Power, Selection):
            names |= {member.name: member.value for member in group}
        names |= {f"RUN_{field.strip('_').upper()}": place for place, field in enumerate(DifferingRun._fields)}
        of_byte = ("place_low", "place_high", *DifferingByte._fields[1:])  # a place is two bytes of its entry
        names |= {f"BYTE_{field.strip('_').upper()}": place for place, field in enumerate(of_byte)}
        for name, value in defined.items():
            if not name.startswith("VERSION"):
                self.assertEqual(names[name], int(value), name)

    def test_version(self) -> None:
        version = re.search(r'^#define SSD1815B_VERSION +"(\d+)\.', HEADER.read_text(), re.M)
        assert version
        self.assertEqual(ssd1815b.SYSTEM_NAME, f"libssd1815b.so.{version[1]}")

    def test_calls(self) -> None:
        declared = re.findall(r"^uint8_t (ssd1815b_\w+)\(", HEADER.read_text(), re.M)
        self.assertEqual(sorted(declared), sorted(ssd1815b._CALLS))


class Library(unittest.TestCase):
    """Where the library is looked for."""

    def setUp(self) -> None:
        self.library = os.environ["SSD1815B_LIBRARY"]
        folder = tempfile.TemporaryDirectory()
        self.addCleanup(folder.cleanup)
        self.root = pathlib.Path(folder.name)
        (self.root / "python").mkdir()
        shutil.copy(HERE / "ssd1815b.py", self.root / "python")

    def put(self, place: str) -> str:
        """Puts the library at a place of the copy."""
        path = self.root / place
        path.parent.mkdir(parents=True, exist_ok=True)
        shutil.copy(self.library, path)
        return str(path)

    def asked(self, **environment: str) -> subprocess.CompletedProcess[str]:
        """What a program in the copy says of its library."""
        program = "import ssd1815b; ssd1815b.Chip(); print(ssd1815b.library_path())"
        kept = {name: value for name, value in os.environ.items() if name != "SSD1815B_LIBRARY"}
        return subprocess.run([sys.executable, "-B", "-c", program], cwd=self.root / "python", text=True,
                              capture_output=True, check=False, env=kept | environment)

    def test_order(self) -> None:
        plain = self.put("target/c/plain/libssd1815b.so")
        said = self.asked()
        self.assertEqual(said.stdout.strip(), plain)
        self.assertIn("plain C, which is not proved", said.stderr)
        for place in "target/c/proved/libssd1815b.so", "python/libssd1815b.so":
            found = self.put(place)
            said = self.asked()
            self.assertEqual((said.stdout.strip(), said.stderr), (found, ""))
        named = self.put("elsewhere/any.so")
        self.assertEqual(self.asked(SSD1815B_LIBRARY=named).stdout.strip(), named)

    def test_installed(self) -> None:
        self.put(f"lib/{ssd1815b.SYSTEM_NAME}")
        said = self.asked(LD_LIBRARY_PATH=str(self.root / "lib"))
        self.assertEqual((said.stdout.strip(), said.stderr), (ssd1815b.SYSTEM_NAME, ""))

    def test_none(self) -> None:
        said = self.asked()
        if said.returncode != 0:  # else one is installed on this machine
            self.assertIn("no libssd1815b.so: `make shared` builds it, or SSD1815B_LIBRARY says where", said.stderr)

    def test_named_and_missing(self) -> None:
        self.put("python/libssd1815b.so")
        said = self.asked(SSD1815B_LIBRARY=str(self.root / "none.so"))
        self.assertIn(f"{self.root}/none.so cannot be loaded", said.stderr)

    def test_another_library(self) -> None:
        said = self.asked(SSD1815B_LIBRARY="libc.so.6")
        self.assertIn("libc.so.6 has no ssd1815b_start: it is older than this module", said.stderr)

    def test_a_library_of_before_order_4(self) -> None:
        """One that has no wide calls is not used."""
        calls = {name: types.SimpleNamespace() for name in ssd1815b._CALLS if "_wide_" not in name}
        with unittest.mock.patch("ctypes.PyDLL", return_value=types.SimpleNamespace(**calls)):
            with self.assertRaisesRegex(ssd1815b.LibraryNotFound, "has no ssd1815b_wide_command: it is older"):
                ssd1815b._library.__wrapped__()

    def test_a_library_of_before_order_3(self) -> None:
        """One whose only start is the upright one, by the plain name, is not used."""
        calls = {name: types.SimpleNamespace() for name in ssd1815b._CALLS if name != "ssd1815b_start_upright"}
        with unittest.mock.patch("ctypes.PyDLL", return_value=types.SimpleNamespace(**calls)):
            with self.assertRaisesRegex(ssd1815b.LibraryNotFound, "has no ssd1815b_start_upright: it is older"):
                ssd1815b._library.__wrapped__()


class Readme(unittest.TestCase):
    """The examples of README.md, one after the other, print what is said there."""

    def test_examples(self) -> None:
        text = (HERE / "README.md").read_text()
        programs = re.findall(r"```python\n(.*?)```", text, re.S)
        printed = re.findall(r"```text\n(.*?)```", text, re.S)
        self.assertEqual((len(programs), len(printed)), (4, 4))
        names: dict[str, object] = {}
        for program, expected in zip(programs, printed):
            output = io.StringIO()
            with contextlib.redirect_stdout(output):
                exec(compile(program, "README.md", "exec"), names)
            self.assertEqual(output.getvalue(), expected)


if __name__ == "__main__":
    unittest.main()
