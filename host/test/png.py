#!/usr/bin/env python3
"""Reads a PNG of 8 gray bits a dot and prints it as a PBM, black for 0; or one
of three times 8 bits, red, green and blue, and prints it as a PPM.

  png.py FILE.png

Any other PNG, and one whose checks do not hold, is an error.
"""

import struct
import sys
import zlib


def chunks(data):
    """The type and contents of each chunk, their checks seen to."""
    if data[:8] != b"\x89PNG\r\n\x1a\n":
        sys.exit("png.py: no PNG")
    at = 8
    while at < len(data):
        (length,) = struct.unpack(">I", data[at:at + 4])
        body = data[at + 4:at + 8 + length]
        (check,) = struct.unpack(">I", data[at + 8 + length:at + 12 + length])
        if zlib.crc32(body) != check:
            sys.exit("png.py: a chunk's check does not hold")
        yield body[:4], body[4:]
        at += 12 + length


def paeth(left, up, corner):
    """The neighbour that is nearest to left + up - corner."""
    near = left + up - corner
    return min((left, up, corner), key=lambda one: abs(near - one))


def rows(raw, width, height, size):
    """The lines of dots, each of so many bytes, freed of its filter."""
    length = width * size
    above = bytes(length)
    for y in range(height):
        kind, *line = raw[y * (length + 1):(y + 1) * (length + 1)]
        for x in range(length):
            left, up = (line[x - size] if x >= size else 0), above[x]
            corner = above[x - size] if x >= size else 0
            line[x] = (line[x] + (0, left, up, (left + up) // 2,
                                  paeth(left, up, corner))[kind]) % 256
        yield line
        above = line


def in_bits(line):
    """A line of gray dots, eight to a byte."""
    if set(line) - {0, 255} or len(line) % 8 != 0:
        sys.exit("png.py: dots that are neither black nor white, or no whole bytes")
    bits = "".join("1" if dot == 0 else "0" for dot in line)
    return int(bits, 2).to_bytes(len(line) // 8, "big")


def main():
    with open(sys.argv[1], "rb") as file:
        parts = list(chunks(file.read()))
    if [kind for kind, _ in parts] != [b"IHDR", b"IDAT", b"IEND"]:
        sys.exit("png.py: other chunks than IHDR, IDAT and IEND")
    width, height, *form = struct.unpack(">IIBBBBB", parts[0][1])
    if form not in ([8, 0, 0, 0, 0], [8, 2, 0, 0, 0]):
        sys.exit(f"png.py: neither 8 gray bits to a dot nor 24 of colour: {form}")
    coloured = form[1] == 2
    raw = zlib.decompress(parts[1][1])
    out = sys.stdout.buffer
    out.write(b"P6\n%d %d\n255\n" % (width, height) if coloured else b"P4\n%d %d\n" % (width, height))
    for line in rows(raw, width, height, 3 if coloured else 1):
        out.write(bytes(line) if coloured else in_bits(line))


main()
