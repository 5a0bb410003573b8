#!/usr/bin/env python3
"""Writes the input of crates/test_calls and what it must print: the calls of tests/vectors/calls.txt, the three readings at every pixel of each
X.readings.txt there, boundaries of the format and of the calls, and the runs of tools/test_calls_runs.py.

python3 tools/test_calls_expected.py    writes crates/test_calls/stdin and stdout

What the calls must give is from tools/sheets.py: from the vectors, or worked out in exact fractions that the vectors confirm.
"""
import itertools
import struct

import sheets
import test_calls_runs
from sheets import axes, extreme, node_place, put, put_number, sheet_of, lines, DOME, SMALL

WIDE = sheet_of([200, 255, 256, 320, 321], [4000, 4064, 4090, 4096])
LAST = 4294967295
EVERYTHING_WRONG = (LAST, LAST, -2147483648, 4096, -4096)
FAR_OUT = (LAST, LAST, LAST)
CASES = []


def case(name, sheet, calls=(("check", ()),)):
    CASES.append((name, sheet, calls))


def three_readings(pixels):
    return [("read", (*pixel, kind)) for pixel in pixels for kind in range(3)]


def vectors():
    """Every pixel of each X.readings.txt; the calls of calls.txt."""
    for name, sheet in sheets.readings_files():
        case(f"{name}_pixels", sheet, three_readings(sheets.all_pixels(sheet)))
    for entry in sheets.calls_by_sheet():
        case(*entry)


def header_cases():
    for size in range(len(SMALL)):
        case(f"first_{size}_bytes", SMALL[:size])
    for extra in (1, 2, 6, 256):
        case(f"long_by_{extra}", SMALL + bytes(extra))
    for at in range(3):
        for byte in (0, 255, SMALL[at] - 1, SMALL[at] + 1, SMALL[at] + 32):
            case(f"mark_byte_{at}_is_{byte}", put(SMALL, at, byte))
    for version in (0, 1, 2, 255, 256, 257, 65535):
        case(f"version_{version}", put_number(SMALL, 3, version))
    for byte in (1, 128, 255):
        case(f"byte_7_is_{byte}", put(SMALL, 7, byte))


def count_cases():
    """Sheets of m × n lines with their right length; where that is above the largest, the header alone."""
    for m, n in itertools.product((0, 1, 2, 65, 66, 255), repeat=2):
        sheet = sheet_of(lines(m, 64 if m <= 65 else 1), lines(n, 64 if n <= 65 else 1))
        calls = [("check", ())]
        if (m, n) == (65, 65):
            assert len(sheet) == 25618
            calls += [("node", (i, j)) for i in (0, 64, 65) for j in (0, 64, 65)]
            calls += [("set_node", (64, 64, 4095, -4095, 1)), ("set_node", (0, 64, -1, 0, 4096))]
            calls += three_readings(itertools.product((0, 2079, 4096, 4097), repeat=2))
            case("65_by_65_last_slope_4096", put_number(sheet, 25616, 4096), [("check", ()), ("set_node", (0, 0, 1, 1, 1))])
        if len(sheet) > 25618:
            case(f"{m}_by_{n}_header", sheet[:8])
        else:
            case(f"{m}_by_{n}", sheet, calls)


def axis_changes(positions):
    """Lines like these, one way or another at the edge of what is accepted, with a name for each."""
    last = len(positions) - 1
    for k in (1, 2, last):
        for gap in (-1, 0, 1, 63, 64, 65, 256):
            shift = gap - (positions[k] - positions[k - 1])
            yield f"gap_{gap}_before_line_{k}", positions[:k] + [p + shift for p in positions[k:]]
    for end in (4095, 4096, 4097):
        yield f"last_line_{end}", [p + end - positions[last] for p in positions]
    for first in (4096, 4097, 65535):
        yield f"first_line_{first}", [first] + positions[1:]
    # these rise if positions are taken modulo 65,536
    for before, after in ((65535, 0), (65535, 63), (65473, 0), (65472, 0)):
        yield f"first_falls_{before}_to_{after}", [before] + lines(last, 1, after)
        yield f"last_falls_{before}_to_{after}", lines(last, 1, before - last + 1) + [after]
    yield "all_above_4096", lines(last + 1, 1, 4097)


def line_cases():
    xs, ys = lines(5, 60, 10), lines(4, 7, 250)
    for name, changed in axis_changes(xs):
        case(f"x_{name}", sheet_of(changed, ys))
    for name, changed in axis_changes(ys):
        case(f"y_{name}", sheet_of(xs, changed))


def number_cases():
    for place, at in (("first", node_place(WIDE, 0, 0)), ("inner", node_place(WIDE, 2, 1)), ("last", node_place(WIDE, 4, 3))):
        for k, part in enumerate(("height", "x_slope", "y_slope")):
            for z in (4095, 4096, -4095, -4096, 32767, -32768, 255, 256, -1):
                case(f"{place}_{part}_{z}", put_number(WIDE, at + 2 * k, z))


def node_cases():
    """Every node of a sheet, one column or row too far, and places that are nodes only modulo 2⁸, 2¹⁶ or, as a byte's index, 2³²."""
    far = [(256, 0), (0, 256), (65536, 65536), (715827883, 0), (0, 858993460), (2147483648, 0)]
    far += [(LAST, 0), (0, LAST), (LAST, LAST)]
    places = list(itertools.product(range(6), range(5))) + far
    case("nodes", WIDE, [("node", place) for place in places])
    case("settings", WIDE, [("set_node", (i, j, 4095 - i % 8, j % 8 - 4095, 256 * (i % 8) - j % 8)) for i, j in places])


def setting_cases():
    """Each new number at its edges, in the first and the last node; the numbers that a node has; no node and numbers out of range at once."""
    edges = (0, 1, -1, 255, 256, -256, 4095, -4095, 4096, -4096, 32768, -32768, 61441, 65535, 65536, -65536, 2147483647, -2147483648)
    calls = []
    for place in ((0, 0), (4, 3)):
        for z in edges:
            calls += [("set_node", place + numbers) for numbers in ((z, -8, 9), (7, z, 9), (7, -8, z))]
    calls.append(("set_node", (1, 2) + sheets.read("h", WIDE, node_place(WIDE, 1, 2), 3)))
    calls += [("set_node", place + (4096, 4096, 4096)) for place in ((0, 0), (5, 0), (0, 4), (5, 4))]
    case("new_numbers", WIDE, calls)


def beside_lines(lines):
    """Positions on the outer lines, just outside them, far outside, and such as are inside modulo 2¹⁶ or 2³¹."""
    return (0, lines[0] - 1, lines[0], lines[-1], lines[-1] + 1, 65536 + lines[0], 2147483648 + lines[0], LAST)


def pixel_cases():
    """Every pixel of sheets that do not start at 0 and have cells of 1 and of 64 pixels, and those beside their outer lines with every kind; one has
    only the largest numbers."""
    flat = sheet_of([7, 8, 72, 73], [300, 301, 306], extreme)
    tall = sheet_of([65, 66, 69], [4029, 4031, 4032, 4096])
    for name, sheet in (("flat", flat), ("tall", tall)):
        case(f"{name}_pixels", sheet, three_readings(sheets.all_pixels(sheet)))
        places = itertools.product(*map(beside_lines, axes(sheet)), (0, 1, 2, 3, 255, 256, LAST))
        case(f"{name}_outside", sheet, [("read", place) for place in places])


def square_cases():
    """Of a cell of 64 × 64 pixels the edges and what is on and beside the diagonals, where the pieces meet: an inner cell, and the
    dome."""
    for name, sheet, left, top in (("inner", WIDE, 256, 4000), ("dome", DOME, 960, 1)):
        places = [(a, b) for b in range(65) for a in range(65) if {a, b} & {0, 64} or abs(a - b) <= 1 or abs(a + b - 64) <= 1]
        case(f"{name}_square", sheet, three_readings((left + a, top + b) for a, b in places))


def several_cases():
    """Every set of the conditions 1 to 6, alone and with 7 and 9, 10 and 11, or 7 and 8."""
    calls = [("check", ()), ("node", (1, 1)), ("node", (2, 0))]
    calls += [("set_node", arguments) for arguments in ((1, 1, 1, 2, 3), (1, 1, 4096, 0, 0), EVERYTHING_WRONG)]
    calls += [("read", arguments) for arguments in ((1, 2, 2), (1, 2, 3), (3, 0, 0), FAR_OUT)]
    calls += [("fill_run", run) for run in ((1, 2, 1), (1, 2, 2), (1, 2, 3), (1, 2, 0), (3, 0, 0), (LAST, LAST, 2))]
    for name, sheet, numbers in sheets.damaged_sheets():
        assert sheets.all_refusals("set_node", sheet, EVERYTHING_WRONG) == [*numbers, 10, 11]
        assert sheets.all_refusals("read", sheet, FAR_OUT) == [*numbers, 7, 9]
        assert sheets.all_refusals("fill_run", sheet, (3, 0, 0)) == [*numbers, 7, 8]
        case(name, sheet, calls)


def run_cases():
    for name, sheet, runs in test_calls_runs.cases():
        case(name, sheet, [("fill_run", run) for run in runs])


# ---- the program's input and output


def case_bytes(name, sheet, calls):
    assert len(name) <= 64 and len(sheet) <= 26000
    yield struct.pack("<3H", len(name), len(sheet), len(calls)) + name.encode() + sheet
    for verb, arguments in calls:
        numbers = [z % 2**32 for z in arguments]
        yield struct.pack("<c5I", verb[:1].encode(), *numbers, *[0] * (5 - len(numbers)))


def case_lines(name, sheet, calls):
    for verb, arguments in calls:
        yield " ".join(map(str, [verb, name, *arguments, "->", sheets.outcome(verb, sheet, arguments)])) + "\n"


def write(cases):
    # large sheets and many calls come last: the interpreter of `rt try` runs out of steps, and so meets more of the others
    cases = sorted(cases, key=lambda entry: len(entry[1]) > 20000 or len(entry[2]) > 300)
    assert len({name for name, _, _ in cases}) == len(cases) <= 4096
    folder = sheets.ROOT / "crates" / "test_calls"
    (folder / "stdin").write_bytes(b"".join(part for entry in cases for part in case_bytes(*entry)))
    (folder / "stdout").write_text("divisors 64 64 4096\n" + "".join(line for entry in cases for line in case_lines(*entry)))


# the vectors come first: what is read elsewhere is worked out as they confirm
vectors()
for add in (header_cases, count_cases, line_cases, number_cases, node_cases, setting_cases, pixel_cases, square_cases, several_cases, run_cases):
    add()
write(CASES)
