#!/usr/bin/env python3
"""Drivers that nobody here wrote, on the model: luma.lcd's ST7567 and UC1701X.

  luma_example.py             runs them, and says how it went
  luma_example.py FOLDER      also keeps the traces there (NAME.trace) and the
                              pictures that luma was given (NAME.pbm)

luma sends commands and data to an interface; the one here records them as a
trace in document 01's form.  The trace is run on the model, and the frame held
beside the picture: from the start of new cabinets and from that of old ones.
luma knows of neither, and pulses the reset pin before all else, so that both
must show the picture alike.  luma's ST7567 module is wired from the right: the driver
puts picture column x into RAM column x + 4 and turns the columns round (A1), so
it lights place 131 - (x + 4) = 127 - x.  Places 128 to 131 stay dark.

Wants luma.lcd (Debian: python3-luma.lcd, for /usr/bin/python3), and the model's
shared object (`make shared`).
"""

from __future__ import annotations

import pathlib
import sys

from luma.core.interface.serial import noop
from luma.lcd.device import st7567, uc1701x
from PIL import Image, ImageDraw

sys.dont_write_bytecode = True
sys.path.insert(0, str(pathlib.Path(__file__).resolve().parent))
import ssd1815b  # noqa: E402
from ssd1815b import COLUMNS, Chip, Kind, Number, record  # noqa: E402

SIZE = WIDTH, HEIGHT = 128, 64


class Recorder:
    """luma's interface to a display, with a trace in place of the wires."""

    def __init__(self) -> None:
        """The reset pin first, as luma's own interfaces pulse it."""
        self.trace = record(Kind.RESET_PIN)

    def command(self, *codes: int) -> None:
        """Command bytes, as luma sends them."""
        self.trace += record(Kind.COMMANDS, bytes(codes))

    def data(self, content: list[int]) -> None:
        """Data bytes, as luma sends them."""
        self.trace += record(Kind.WRITTEN, bytes(content))

    def cleanup(self) -> None:
        """luma's last call; there is nothing to close."""


def picture(words: str) -> Image.Image:
    """A picture with no two sides alike."""
    image = Image.new("1", SIZE)
    draw = ImageDraw.Draw(image)
    draw.rectangle((0, 0, WIDTH - 1, HEIGHT - 1), outline=1)
    draw.text((6, 4), words, fill=1)
    draw.ellipse((90, 24, 120, 54), outline=1)
    draw.line((4, 60, 60, 20), fill=1)
    draw.rectangle((8, 24, 20, 30), fill=1)
    return image


def mirrored(image: Image.Image) -> bytes:
    """The frame of a picture: column x at place 127 - x, the rest dark, no icons."""
    rows = (bytes(image.getpixel((WIDTH - 1 - place, y)) != 0 for place in range(WIDTH)) for y in range(HEIGHT))
    return b"".join(row + bytes(COLUMNS - WIDTH) for row in rows) + bytes(COLUMNS)


def shown(rotate: int = 0) -> tuple[Recorder, st7567]:
    """luma's ST7567 driver over a recorder."""
    recorder = Recorder()
    return recorder, st7567(recorder, rotate=rotate, gpio=noop())


def one_picture() -> tuple[bytes, Image.Image, bytes]:
    """The driver's initialisation and one picture."""
    recorder, device = shown()
    image = picture("LUMA ST7567")
    device.display(image)
    return recorder.trace, image, mirrored(image)


def second_picture() -> tuple[bytes, Image.Image, bytes]:
    """Another picture over the first, and the contrast; the second is what is seen."""
    recorder, device = shown()
    device.display(picture("FIRST"))
    device.contrast(200)
    image = picture("SECOND")
    device.display(image)
    return recorder.trace, image, mirrored(image)


def upside_down() -> tuple[bytes, Image.Image, bytes]:
    """A picture that luma turns by half a turn before it sends it."""
    recorder, device = shown(rotate=2)
    image = picture("UPSIDE DOWN")
    device.display(image)
    return recorder.trace, image, mirrored(image.rotate(180))


def hidden() -> tuple[bytes, Image.Image, bytes]:
    """A picture, and then the display off."""
    recorder, device = shown()
    image = picture("HIDDEN")
    device.display(image)
    device.hide()
    return recorder.trace, image, bytes(ssd1815b.FRAME_SIZE)


def stopped() -> tuple[bytes, Image.Image, bytes]:
    """luma's UC1701X driver, whose F8 would put an SSD1815B in test mode; the display is off there."""
    recorder = Recorder()
    device = uc1701x(recorder, gpio=noop())
    image = picture("LUMA UC1701X")
    device.display(image)
    return recorder.trace, image, bytes(ssd1815b.FRAME_SIZE)


EXAMPLES = {
    "st7567-picture": (one_picture, Number.TAKEN),
    "st7567-second-picture": (second_picture, Number.TAKEN),
    "st7567-upside-down": (upside_down, Number.TAKEN),
    "st7567-hidden": (hidden, Number.TAKEN),
    "15-uc1701x": (stopped, Number.TEST_MODE),
}


def keep(path: pathlib.Path, content: bytes) -> None:
    """Writes a file; one that is there and has something else is left."""
    if path.exists() and path.read_bytes() != content:
        sys.exit(f"{path} is there and has something else: remove it first")
    path.write_bytes(content)


def pbm(image: Image.Image) -> bytes:
    """A picture as a PBM file."""
    return b"P4\n%d %d\n" % SIZE + image.tobytes()


def main(arguments: list[str]) -> int:
    """Runs each example; answers 0 if each is as it should be."""
    wrong = 0
    for name, (example, number) in EXAMPLES.items():
        trace, image, frame = example()
        chip, upright = Chip(), Chip(upright=True)
        run = chip.run(trace)
        good = run.number == number and chip.draw().frame == frame
        good &= upright.run(trace) == run and upright.draw().frame == frame
        wrong += not good
        stop = "all taken" if run.number == Number.TAKEN else f"refused {run.number} at {run.offset}"
        if run.number == Number.TEST_MODE:
            stop += f", byte {trace[run.offset]:02X}"
        print(f"{name}: {len(trace)} bytes, {stop}; the frame is {'as' if good else 'NOT AS'} it should be")
        if arguments:
            keep(pathlib.Path(arguments[0]) / f"{name}.trace", trace)
            keep(pathlib.Path(arguments[0]) / f"{name}.pbm", pbm(image))
    return 0 if wrong == 0 else 1


if __name__ == "__main__":
    sys.exit(main(sys.argv[1:]))
