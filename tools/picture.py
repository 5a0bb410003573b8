#!/usr/bin/env python3
"""Makes a PNG picture of what `levels` prints: light added is orange to red, light taken away is blue, level 0 is near white. A colour bar in steps
stands beside it; with the sheet at hand its mesh lines are drawn faint.

./levels SHEET | python3 tools/picture.py --sheet SHEET -o picture.png
python3 tools/picture.py --range 20 LEVELS.txt    the colours end at 20 steps, so that pictures of two sheets compare

It stands outside the proved module: nothing here is proved. And a picture shows less than the numbers do: where they matter, read the numbers.
"""
import argparse
import array
import functools
import math
import re
import struct
import sys
import zlib

GRAINS = 64  # in a step of the 12-bit picture code
LINE = re.compile(rb"(\d{1,5}) (\d{1,5}) (-?\d{1,7}) -?\d+ -?\d+\s*")
LARGEST = 100_000_000  # pixels of a picture
ROUND = [digit * 10.0**power for power in range(-3, 4) for digit in (1, 2, 5)]  # steps from tick to tick

# colours from level 0 outwards: both sides darken alike, and blue and orange differ for colour-blind eyes too
ADDED = [(247, 247, 247), (250, 215, 178), (241, 164, 98), (215, 106, 41), (160, 48, 8)]
TAKEN_AWAY = [(247, 247, 247), (203, 225, 242), (141, 189, 225), (72, 138, 199), (16, 82, 158)]
PAPER, INK = b"\xff" * 3, b"\x30" * 3
SHADES = 500  # of each side, finer than the eye
DARKER = bytes(value * 3 // 4 for value in range(256))  # what a mesh line makes of the colours under it

# a byte for each row of 5 dots; 7 rows stand on the line, more hang below it
FONT = {
    "0": "0e11111111110e", "1": "040c040404040e", "2": "0e11010204081f", "3": "1f02040201110e", "4": "02060a121f0202",
    "5": "1f101e0101110e", "6": "0608101e11110e", "7": "1f010204080808", "8": "0e11110e11110e", "9": "0e11110f01020c",
    " ": "00000000000000", "-": "0000001f000000", "+": "0004041f040400", ".": "00000000000c0c", ",": "00000000000c0408",
    "a": "00000e010f110f", "b": "1010161911111e", "d": "01010d1311110f", "e": "00000e111f100e", "h": "10101619111111",
    "l": "0c04040404040e", "m": "00001a15151111", "n": "00001619111111", "o": "00000e1111110e", "p": "00001e1111111e1010",
    "r": "00001619101010", "s": "00000e100e011e", "t": "08081c08080906", "v": "00001111110a04", "x": "0000110a040a11",
    "y": "0000111111110f010e",
}


class Wrong(Exception):
    """Input of which no picture can be made; its text says why."""


# ---- input


def read_levels(lines):
    """Left and top pixel, width, height, and the levels row by row, of lines that must come as `levels` prints them."""
    levels, left, top, width = array.array("i"), 0, 0, None
    for line in lines:
        count = len(levels)
        match = LINE.fullmatch(line)
        if not match:
            raise Wrong(not_a_level(count + 1, line))
        x, y, level = map(int, match.groups())
        if count == 0:
            left, top = x, y
        elif width is None and y != top:
            width = count
        row, column = divmod(count, width) if width else (0, count)
        if (x, y) != (left + column, top + row):
            raise Wrong(f"line {count + 1} is pixel {x} {y} where {left + column} {top + row} comes next: not a full rectangle")
        levels.append(level)
    if not levels:
        raise Wrong("the input is empty")
    width = width or len(levels)
    if len(levels) % width:
        raise Wrong(f"the last row has {len(levels) % width} pixels, not {width}: not a full rectangle")
    return left, top, width, len(levels) // width, levels


def not_a_level(number, line):
    text = line[:40].decode("ascii", "replace").strip()
    if re.fullmatch(r"refused \d+", text):
        return f"no picture: levels refused the sheet and printed '{text}'"
    return f"line {number} is not the five numbers x y level tilt_x tilt_y: {text!a}"


def mesh_lines(name, left, top, width, height):
    """Positions of the vertical and horizontal lines from the head of the sheet's format (docs/FORMAT.md)."""
    with open(name, "rb") as file:
        sheet = file.read()
    m, n = sheet[5:7] if len(sheet) >= 8 and sheet[:5] == b"LVS\1\0" else (0, 0)
    if min(m, n) < 2 or len(sheet) < 8 + 2 * (m + n):
        raise Wrong(f"{name} is not a sheet (docs/FORMAT.md)")
    lines = struct.unpack_from(f"<{m + n}H", sheet, 8)
    for axis, positions, first, last in (("x", lines[:m], left, left + width - 1), ("y", lines[m:], top, top + height - 1)):
        if list(positions) != sorted(set(positions)):
            raise Wrong(f"{name} is not a sheet (docs/FORMAT.md): its {axis} lines do not rise")
        if (positions[0], positions[-1]) != (first, last):
            raise Wrong(f"{name} is another sheet: its {axis} lines are {positions[0]} to {positions[-1]}, the pixels {first} to {last}")
    return lines[:m], lines[m:]


# ---- drawing


class Canvas:
    def __init__(self, width, height):
        self.width, self.height = width, height
        self.bytes = bytearray(PAPER * (width * height))

    def put(self, x, y, colours):
        """Colours from (x, y) to the right."""
        at = 3 * (y * self.width + x)
        self.bytes[at : at + len(colours)] = colours

    def fill(self, x, y, width, height, colour):
        for row in range(y, y + height):
            self.put(x, row, colour * width)

    def darken(self, x, y, width, height):
        for row in range(y, y + height):
            at = 3 * (row * self.width + x)
            self.put(x, row, self.bytes[at : at + 3 * width].translate(DARKER))

    def text(self, x, y, text, dot):
        for place, letter in enumerate(text):
            for row, dots in enumerate(bytes.fromhex(FONT[letter])):
                for column in range(5):
                    if dots >> (4 - column) & 1:
                        self.fill(x + (6 * place + column) * dot, y + row * dot, dot, dot, INK)

    def png(self):
        """8-bit RGB, each row unfiltered."""
        size = 3 * self.width
        pack = zlib.compressobj(6)
        parts = [pack.compress(b"\0" + self.bytes[at : at + size]) for at in range(0, len(self.bytes), size)]
        head = struct.pack(">IIBBBBB", self.width, self.height, 8, 2, 0, 0, 0)
        chunks = [(b"IHDR", head), (b"IDAT", b"".join(parts) + pack.flush()), (b"IEND", b"")]
        return b"\x89PNG\r\n\x1a\n" + b"".join(
            struct.pack(">I", len(data)) + kind + data + struct.pack(">I", zlib.crc32(kind + data)) for kind, data in chunks
        )


def colour(share):
    """Of a level that is this share of the one at which the colours end; beyond it, the last colour."""
    side = ADDED if share > 0 else TAKEN_AWAY
    part, rest = divmod(min(abs(share), 1) * (len(side) - 1), 1)
    near, far = side[int(part)], side[min(int(part) + 1, len(side) - 1)]
    return bytes(round(p + (q - p) * rest) for p, q in zip(near, far))


def draw_levels(canvas, x, y, width, levels, limit, scale):
    """Each pixel of the screen a square."""
    shades = [colour(shade / SHADES) * scale for shade in range(-SHADES, SHADES + 1)]

    @functools.lru_cache(maxsize=1 << 16)
    def one_line(level):
        return shades[SHADES + round(SHADES * max(-1, min(1, level / limit)))]

    for at in range(0, len(levels), width):
        row = b"".join(map(one_line, levels[at : at + width]))
        for _ in range(scale):
            canvas.put(x, y, row)
            y += 1


def draw_mesh(canvas, x, y, width, height, xs, ys, scale):
    """Lines through the middle of the pixels they name; where two cross, a node, it is darker."""
    thick = 2 if scale >= 8 else 1
    middle = (scale - thick) // 2
    for line in xs:
        canvas.darken(x + (line - xs[0]) * scale + middle, y, thick, height)
    for line in ys:
        canvas.darken(x, y + (line - ys[0]) * scale + middle, width, thick)


def steps_text(steps):
    return f"{steps:+.5g}" if steps else "0"


def ticks(limit):
    """In steps: both ends of the colour bar, zero, and round numbers between that keep clear of the ends."""
    gap = max(z for z in ROUND if z <= limit / 2)
    between = [k * gap for k in range(1, 5) if k * gap < 0.85 * limit]
    return [-limit, *(-z for z in between), 0, *between, limit]


def draw_bar(canvas, x, y, height, limit, dot):
    """The colours from end to end, with ticks in steps."""
    width, middle = 12 * dot, (height - 1) / 2
    for row in range(height):
        canvas.put(x, y + row, colour((middle - row) / middle) * width)
    frame(canvas, x, y, width, height)
    for steps in ticks(limit / GRAINS):
        at = y + round(middle - middle * steps * GRAINS / limit)
        canvas.fill(x + width, at, 3 * dot, 1, INK)
        canvas.text(x + width + 5 * dot, at - 3 * dot, steps_text(steps), dot)
    canvas.text(x, y - 14 * dot, "steps", dot)


def frame(canvas, x, y, width, height):
    """A thin line around, so that near white stands out from the paper."""
    canvas.fill(x - 1, y - 1, width + 2, 1, INK)
    canvas.fill(x - 1, y + height, width + 2, 1, INK)
    canvas.fill(x - 1, y, 1, height, INK)
    canvas.fill(x + width, y, 1, height, INK)


def draw(pixels, limit, scale, mesh):
    """The whole picture: title, levels, mesh lines, colour bar. The limit is the level, in grains, at which the colours end."""
    left, top, columns, rows, levels = pixels
    low, high = min(levels), max(levels)
    title = [
        f"x {left} to {left + columns - 1}, y {top} to {top + rows - 1}",
        f"levels {steps_text(low / GRAINS)} to {steps_text(high / GRAINS)} steps" + ", some beyond the bar" * (max(high, -low) > limit),
    ]
    width, height = columns * scale, rows * scale
    dot = max(2, max(width, height) // 500)
    x, y = 6 * dot, 44 * dot
    bar_height = max(height, 120 * dot)
    labels = max(len(steps_text(z)) for z in ticks(limit / GRAINS))
    full_width = max(x + width + (12 + 12 + 5 + 6 * max(labels, 5) + 6) * dot, x + max(map(len, title)) * 6 * dot + x)
    full_height = y + bar_height + 8 * dot
    if full_width * full_height > LARGEST:
        raise Wrong(f"the picture would have {full_width} x {full_height} pixels: take a smaller --scale")
    canvas = Canvas(full_width, full_height)
    for number, line in enumerate(title):
        canvas.text(x, (6 + 11 * number) * dot, line, dot)
    draw_levels(canvas, x, y, columns, levels, limit, scale)
    if mesh:
        draw_mesh(canvas, x, y, width, height, *mesh, scale)
    frame(canvas, x, y, width, height)
    draw_bar(canvas, x + width + 12 * dot, y, bar_height, limit, dot)
    return canvas


# ---- command


def whole_number(text):
    number = int(text)
    if number < 1:
        raise argparse.ArgumentTypeError("from 1 on")
    return number


def steps_of_range(text):
    number = float(text)
    if not 1 / GRAINS <= number <= 16384:
        raise argparse.ArgumentTypeError("from 1/64 to 16384 steps")
    return number


def arguments():
    parser = argparse.ArgumentParser(description="Makes a PNG picture of what levels prints.")
    parser.add_argument("levels", nargs="?", metavar="LEVELS", help="what levels printed; else standard input")
    parser.add_argument("-o", metavar="FILE", default="picture.png", help="the picture (%(default)s)")
    parser.add_argument("--sheet", metavar="FILE", help="the sheet, for its mesh lines")
    parser.add_argument("--scale", metavar="N", type=whole_number, help="pixels of the picture per pixel of the screen")
    parser.add_argument("--range", metavar="STEPS", type=steps_of_range, help="level at which the colours end (the largest of the sheet)")
    return parser.parse_args()


def main():
    options = arguments()
    with open(options.levels, "rb") if options.levels else sys.stdin.buffer as lines:
        pixels = read_levels(lines)
    left, top, columns, rows, levels = pixels
    mesh = mesh_lines(options.sheet, left, top, columns, rows) if options.sheet else None
    limit = options.range * GRAINS if options.range else max(max(levels), -min(levels)) or GRAINS
    scale = options.scale or math.ceil(600 / max(columns, rows))
    png = draw(pixels, limit, scale, mesh).png()
    with open(options.o, "wb") as file:
        file.write(png)


try:
    main()
except (Wrong, OSError) as wrong:
    sys.exit(f"picture.py: {wrong}")
