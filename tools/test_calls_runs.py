"""The runs that tools/test_calls_expected.py takes besides those of tests/vectors/calls.txt: whole rows of the sheets there and of others, runs from and
to where cells and pieces meet, and runs that are refused. A case is a name, a sheet, and runs, each x, y and how many pixels.
"""
import itertools

import sheets
from sheets import axes, extreme, lines, sheet_of, DOME

VECTORS = [(path.stem, path.read_bytes()) for path in sorted(sheets.VECTORS.glob("*.lvs"))]
ACCEPTED = [(name, sheet) for name, sheet in VECTORS if sheets.refusal("check", sheet, ()) == 0]
DAMAGED = [entry for entry in VECTORS if entry not in ACCEPTED]
LAST = 4294967295

# ---- runs of a row


def all_rows(sheet):
    _, ys = axes(sheet)
    return range(ys[0], ys[-1] + 1)


def whole_rows(sheet, rows):
    xs, _ = axes(sheet)
    return [(xs[0], y, xs[-1] - xs[0] + 1) for y in rows]


def every_run(sheet):
    xs, _ = axes(sheet)
    ends = list(itertools.combinations_with_replacement(range(xs[0], xs[-1] + 1), 2))
    return [(first, y, last - first + 1) for y in all_rows(sheet) for first, last in ends]


def meetings(sheet, y):
    """The pixels of a row where cells or pieces meet, and those beside them."""
    xs, ys = axes(sheet)
    row = sheets.line_before(ys, y)
    b, height = y - ys[row], ys[row + 1] - ys[row]
    depths = [(left, right, b * (right - left) // height) for left, right in zip(xs, xs[1:])]
    found = {*xs, *(left + a for left, _, a in depths), *(right - a for _, right, a in depths)}
    return sorted({x + d for x in found for d in (-1, 0, 1)} & {*range(xs[0], xs[-1] + 1)})


def between_meetings(sheet, rows):
    """From each of these pixels to itself and to each of the next three."""
    for y in rows:
        pixels = meetings(sheet, y)
        yield from ((first, y, last - first + 1) for k, first in enumerate(pixels) for last in pixels[k : k + 4])


# ---- cases


def vector_cases():
    """Of each accepted sheet of the vectors whole rows and every run, or, of a wide one, runs between meetings."""
    for name, sheet in ACCEPTED:
        xs, _ = axes(sheet)
        yield f"{name}_rows", sheet, whole_rows(sheet, all_rows(sheet))
        yield f"{name}_runs", sheet, every_run(sheet) if xs[-1] - xs[0] < 10 else between_meetings(sheet, all_rows(sheet))


def with_gaps(gaps, start=0):
    return [*itertools.accumulate(gaps, initial=start)]


def rows_in_strips(ys):
    """The outer lines; of each strip the rows beside its lines and the middle one."""
    rows = {top + b for top, bottom in zip(ys, ys[1:]) for b in (1, (bottom - top) // 2, bottom - top - 1)}
    return sorted({ys[0], *rows, ys[-1]})


def cell_cases():
    """Cells of every width and of every height; the whole dome, whose diagonals pass through pixels."""
    every, some = with_gaps(range(1, 65), 2000), with_gaps([1, 7, 64], 11)
    broad, tall = sheet_of(every, some), sheet_of(some, every, extreme)
    yield "every_width", broad, whole_rows(broad, rows_in_strips(some))
    yield "every_height", tall, whole_rows(tall, (top + 23 * k % (k + 1) for k, top in enumerate(every[:-1])))
    yield "dome", DOME, whole_rows(DOME, all_rows(DOME))


def narrow_cases():
    """Cells of one pixel, 64 × 64 and 64 × 2 of them: the outer rows and the middle one, and runs that start or end in the first and the last cells."""
    ends = [*itertools.combinations_with_replacement((0, 1, 32, 63, 64), 2)]
    for name, sheet in (("one_pixel", sheet_of(lines(65), lines(65))), ("one_pixel_extreme", sheet_of(lines(65), lines(3), extreme))):
        bottom = axes(sheet)[1][-1]
        middle = bottom // 2
        yield name, sheet, [*whole_rows(sheet, (0, middle, bottom)), *((first, middle, last - first + 1) for first, last in ends)]


def mixed_cases():
    """Cells of one pixel beside such of 64; the mesh starts past 0 and ends at 4,096."""
    xs = with_gaps([1, 64, 64, 1, 1, 2, 64, 1, 63, 3], 3832)
    assert xs[-1] == 4096
    ys = with_gaps([1, 64, 2, 64, 1], 100)
    for name, sheet, y in (("mixed", sheet_of(xs, ys), 128), ("mixed_extreme", sheet_of(xs, ys, extreme), 166)):
        yield name, sheet, [*whole_rows(sheet, rows_in_strips(ys)), *between_meetings(sheet, [y])]


def long_cases():
    """Rows of 4,097 pixels, and runs that are a pixel shorter or longer than such a row; short ones of a sheet of the largest size, since every reading
    checks it whole."""
    edges = [(0, 4096), (0, 4097), (0, 4098), (0, 5000), (1, 4096), (1, 4097), (1, 4098), (1, 5000), (64, 64), (64, 65), (63, 2)]
    edges += [(4032, 65), (4032, 66), (4095, 2), (4095, 3), (4096, 1), (4096, 2), (4096, 4097)]
    wide = sheet_of(lines(65, 64), [0, 64, 65])
    yield "long", wide, [*whole_rows(wide, (0, 32, 65)), *((x, 50, length) for x, length in edges)]
    high = sheet_of(lines(65, 64), [4032, 4096], extreme)
    yield "long_extreme", high, whole_rows(high, (4032, 4050, 4096))
    largest = sheet_of(lines(65, 64), lines(65, 64))
    yield "largest", largest, [(0, 0, 100), (2000, 2079, 300), (3997, 4096, 100)]


def outside_cases():
    """Of the accepted vectors: pixels on the outer lines, just outside them, far outside, and such as are inside modulo 2¹⁶ or 2³², with runs that are
    empty, that end on the last line or a pixel past it, that end inside modulo 2³², and that are longer than a row can be."""
    for name, sheet in ACCEPTED:
        xs, ys = axes(sheet)
        width = xs[-1] - xs[0] + 1
        lengths = {0, 1, 2, width, width + 1, xs[0] + 2, 4097, 4098, 5000}
        places = itertools.product(*map(beside_lines, (xs, ys)), sorted(lengths))
        yield f"{name}_outside", sheet, places


def beside_lines(lines):
    return sorted({max(lines[0] - 1, 0), lines[0], lines[-1], lines[-1] + 1, 65536 + lines[0], LAST})


def refused_cases():
    """Of the vectors that are refused: runs inside and outside a mesh, some empty."""
    for name, sheet in DAMAGED:
        yield f"{name}_refused", sheet, [(0, 0, 3), (0, 0, 0), (LAST, LAST, 0), (LAST, 0, 5000)]


def cases():
    for some in (vector_cases, cell_cases, narrow_cases, mixed_cases, long_cases, outside_cases, refused_cases):
        yield from some()
