"""For the tools that make the input and the expected output of test programs: the format of a sheet; what each call gives, worked out in exact fractions
from the description of the format and of the surface; and the outside vectors.

What is read on a sheet that has an X.readings.txt is taken from it. Every number of these files and of calls.txt is first compared with the one worked
out here; where one differs, the tool stops and writes nothing.
"""
import functools
import itertools
import math
import pathlib
import struct
from fractions import Fraction

ROOT = pathlib.Path(__file__).parent.parent
VECTORS = ROOT / "tests" / "vectors"

# ---- the format


def read(code, sheet, at, count):
    """count numbers from index at on; bytes past the end count as 0."""
    size = struct.calcsize("<" + code) * count
    return struct.unpack(f"<{count}{code}", sheet[at : at + size].ljust(size, b"\0"))


def counts(sheet):
    return read("B", sheet, 5, 2)


def axes(sheet):
    m, n = counts(sheet)
    return read("H", sheet, 8, m), read("H", sheet, 8 + 2 * m, n)


def nodes_start(m, n):
    return 8 + 2 * m + 2 * n


def node_place(sheet, column, row):
    m, n = counts(sheet)
    return nodes_start(m, n) + 6 * (row * m + column)


def all_pixels(sheet):
    xs, ys = axes(sheet)
    return [(x, y) for y in range(ys[0], ys[-1] + 1) for x in range(xs[0], xs[-1] + 1)]


# ---- sheets


def sheet_of(xs, ys, number=lambda k: (k * 641 + 300) % 8191 - 4095):
    """A sheet with these lines, and numbers that are in range, of both signs, and seldom equal, or those given."""
    count = 3 * len(xs) * len(ys)
    numbers = [number(k) for k in range(count)]
    header = struct.pack("<3sHBBB", b"LVS", 1, len(xs), len(ys), 0)
    return header + struct.pack(f"<{len(xs) + len(ys)}H{count}h", *xs, *ys, *numbers)


def extreme(k):
    """For sheet_of: only the largest numbers, of both signs."""
    return 4095 if k * k % 11 < 5 else -4095


def lines(count, step=1, start=0):
    return [start + step * k for k in range(count)]


def put(sheet, at, *new):
    return sheet[:at] + bytes(new) + sheet[at + len(new) :]


def put_number(sheet, at, z):
    return put(sheet, at, *struct.pack("<i", z)[:2])


SMALL = sheet_of([0, 2], [0, 3])

# the slopes of this cell of 64 × 64 pixels all rise steepest from heights of 4,095 to the middle
DOME = sheet_of([960, 1024], [1, 65], [4095 * sign for sign in (1, 1, 1, 1, -1, 1, 1, 1, -1, 1, -1, -1)].__getitem__)

# what makes each condition hold of SMALL and no other
DAMAGES = {
    1: lambda sheet: put(sheet, 0, 0x4D),
    2: lambda sheet: put(sheet, 3, 2),
    3: lambda sheet: put(sheet, 7, 1),
    4: lambda sheet: sheet + b"\0",
    5: lambda sheet: put(sheet, 10, 0),
    6: lambda sheet: put_number(sheet, 16, 4096),
}


def damaged_sheets():
    """Of every set of the conditions 1 to 6: SMALL with these, a name, and the set."""
    for count in range(7):
        for numbers in itertools.combinations(DAMAGES, count):
            sheet = SMALL
            for number in numbers:
                sheet = DAMAGES[number](sheet)
            yield "conditions_" + ("_".join(map(str, numbers)) or "none"), sheet, list(numbers)


# ---- refusals


def wrong_line(lines):
    return any(p > 4096 for p in lines) or any(not 0 < q - p <= 64 for p, q in zip(lines, lines[1:]))


def wrong_lines(sheet):
    return any(map(wrong_line, axes(sheet)))


def wrong_numbers(numbers):
    return any(not -4095 <= z <= 4095 for z in numbers)


def wrong_nodes(sheet):
    m, n = counts(sheet)
    return wrong_numbers(read("h", sheet, nodes_start(m, n), 3 * m * n))


def other_length(sheet):
    m, n = counts(sheet)
    return len(sheet) != nodes_start(m, n) + 6 * m * n


def no_pixel(sheet, x, y):
    return any(not lines or not lines[0] <= p <= lines[-1] for lines, p in zip(axes(sheet), (x, y)))


def no_run(sheet, x, y, length):
    return no_pixel(sheet, x, y) or length > 0 and no_pixel(sheet, x + length - 1, y)


def no_node(sheet, column, row):
    m, n = counts(sheet)
    return column >= m or row >= n


# the numbered conditions in order: the calls that each concerns, and when it holds of a sheet and a call's arguments
ALL = {"check", "node", "set_node", "read", "fill_run"}
CONDITIONS = [
    (1, ALL, lambda sheet, arguments: len(sheet) < 8 or sheet[:3] != b"LVS"),
    (2, ALL, lambda sheet, arguments: read("H", sheet, 3, 1) != (1,)),
    (3, ALL, lambda sheet, arguments: any(not 2 <= k <= 65 for k in counts(sheet)) or read("B", sheet, 7, 1) != (0,)),
    (4, ALL, lambda sheet, arguments: other_length(sheet)),
    (5, ALL, lambda sheet, arguments: wrong_lines(sheet)),
    (6, ALL, lambda sheet, arguments: wrong_nodes(sheet)),
    (7, {"read"}, lambda sheet, arguments: no_pixel(sheet, *arguments[:2])),
    (7, {"fill_run"}, lambda sheet, arguments: no_run(sheet, *arguments)),
    (8, {"fill_run"}, lambda sheet, arguments: arguments[2] == 0),
    (9, {"read"}, lambda sheet, arguments: arguments[2] > 2),
    (10, {"node", "set_node"}, lambda sheet, arguments: no_node(sheet, *arguments[:2])),
    (11, {"set_node"}, lambda sheet, arguments: wrong_numbers(arguments[2:])),
]


def all_refusals(verb, sheet, arguments):
    return [number for number, verbs, holds in CONDITIONS if verb in verbs and holds(sheet, arguments)]


def refusal(verb, sheet, arguments):
    return (all_refusals(verb, sheet, arguments) + [0])[0]


# ---- readings

# the doubled weights of piece 0, by height, x-slope and y-slope of the corners 00, 10, 01 and 11; and the powers of r and s that they go with
WEIGHTS = [
    (2, 0, 0, -6, 0, -6, 4, 6, 2),
    (0, 2, 0, -4, 0, -1, 2, 1, 0),
    (0, 0, 2, 0, -2, -3, 0, 2, 1),
    (0, 0, 0, 6, 0, 0, -4, -6, 2),
    (0, 0, 0, -2, 0, 0, 2, 1, 0),
    (0, 0, 0, 0, 2, -1, 0, -2, 1),
    (0, 0, 0, 0, 0, 6, 0, -6, -2),
    (0, 0, 0, 0, 0, 1, 0, -1, 0),
    (0, 0, 0, 0, 0, -2, 0, 2, 1),
    (0, 0, 0, 0, 0, 0, 0, 6, -2),
    (0, 0, 0, 0, 0, 0, 0, -1, 0),
    (0, 0, 0, 0, 0, 0, 0, -2, 1),
]
POWERS = [(0, 0), (1, 0), (0, 1), (2, 0), (1, 1), (0, 2), (3, 0), (1, 2), (0, 3)]

# level, tilt x, y, bend xx, xy, yy: how often by r and by s, and what one grain counts for; which of them each kind reads
DERIVATIVES = [(0, 0, 1), (1, 0, 1), (0, 1, 1), (2, 0, 64), (1, 1, 64), (0, 2, 64)]
KINDS = [slice(0, 1), slice(1, 3), slice(3, 6)]


def power(r, e, i):
    """The i-th derivative of r to the e."""
    return math.perm(e, i) * r ** (e - i) if i <= e else 0


def piece_0(corners, r, s, i, j):
    """Its derivative at (r, s), i times by r and j times by s; so the other pieces too."""
    numbers = [z for corner in corners for z in corner]
    sums = [sum(z * w for z, w in zip(numbers, column)) for column in zip(*WEIGHTS)]
    return Fraction(sum(z * power(r, e, i) * power(s, f, j) for z, (e, f) in zip(sums, POWERS)), 2)


def piece_3(corners, r, s, i, j):
    return piece_0([(h, q, p) for h, p, q in (corners[k] for k in (0, 2, 1, 3))], s, r, j, i)


def piece_2(corners, r, s, i, j):
    return (-1) ** j * piece_0([(h, p, -q) for h, p, q in (corners[k] for k in (2, 3, 0, 1))], r, 1 - s, i, j)


def piece_1(corners, r, s, i, j):
    return (-1) ** i * piece_3([(h, -p, q) for h, p, q in (corners[k] for k in (1, 0, 3, 2))], 1 - r, s, i, j)


def piece(r, s):
    if s <= r and s <= 1 - r:
        return piece_0
    if r >= s and r >= 1 - s:
        return piece_1
    return piece_2 if s >= r and s >= 1 - r else piece_3


def line_before(lines, p):
    """The number of the line that begins p's cell."""
    return max(k for k in range(len(lines) - 1) if lines[k] <= p)


@functools.cache
def worked_out(sheet, x, y, kind):
    """The whole numbers of a kind at a pixel."""
    xs, ys = axes(sheet)
    column, row = line_before(xs, x), line_before(ys, y)
    width, height = xs[column + 1] - xs[column], ys[row + 1] - ys[row]
    nodes = [read("h", sheet, node_place(sheet, column + i, row + j), 3) for j in (0, 1) for i in (0, 1)]
    corners = [(64 * h, width * p, height * q) for h, p, q in nodes]
    r, s = Fraction(x - xs[column], width), Fraction(y - ys[row], height)
    exact = [unit * piece(r, s)(corners, r, s, i, j) / (width**i * height**j) for i, j, unit in DERIVATIVES[KINDS[kind]]]
    return [math.floor(z + Fraction(1, 2)) for z in exact]


# by sheet, what its file says at each pixel
FROM_FILES = {}


def reading(sheet, x, y, kind):
    return FROM_FILES[sheet][x, y][KINDS[kind]] if sheet in FROM_FILES else worked_out(sheet, x, y, kind)


# ---- what a call gives


def outcome(verb, sheet, arguments):
    """What a program prints behind the arrow: the number, then the bytes handed back or changed, or the numbers read."""
    number = refusal(verb, sheet, arguments)
    if verb == "check":
        return f"{number}"
    if verb == "read":
        return " ".join(map(str, [number, *(reading(sheet, *arguments) if number == 0 else ())]))
    if verb == "fill_run":
        x, y, length = arguments
        return " ".join(map(str, [number, *(reading(sheet, x + k, y, 0)[0] for k in range(length) if number == 0)]))
    start = node_place(sheet, *arguments[:2]) if number == 0 else 0
    old = sheet[start : start + 6] if number == 0 else b""
    if verb == "node":
        return " ".join(map(str, [number, len(old), "bytes", *old]))
    new = struct.pack("<3h", *arguments[2:]) if number == 0 else b""
    changed = [f"{start + k}={new[k]}" for k in range(len(new)) if new[k] != old[k]]
    return " ".join([str(number), *changed])


# ---- the outside vectors


def vector(name):
    return (VECTORS / f"{name}.lvs").read_bytes()


def readings_files():
    """The sheets that have an X.readings.txt, by name. Each number there must be the one worked out here."""
    for path in sorted(VECTORS.glob("*.readings.txt")):
        name = path.name.removesuffix(".readings.txt")
        sheet = vector(name)
        rows = [[int(z) for z in line.split()] for line in path.read_text().splitlines()]
        assert [tuple(row[:2]) for row in rows] == all_pixels(sheet), name
        for x, y, *numbers in rows:
            assert [z for kind in range(3) for z in worked_out(sheet, x, y, kind)] == numbers, (name, x, y, numbers)
        FROM_FILES[sheet] = {(x, y): numbers for x, y, *numbers in rows}
        yield name, sheet
    assert sum(map(len, FROM_FILES.values())) == 2294


def calls_by_sheet():
    """The calls of calls.txt, by sheet. Each number there must be the one worked out here. A column or row of −1, which six of its lines have, is handed
    over as the unsigned number with the same 32 bits."""
    by_sheet = {}
    for line in (VECTORS / "calls.txt").read_text().splitlines():
        call, number = line.split(" -> ")
        verb, name, *arguments = call.split()
        place = (int(k) % 2**32 for k in arguments[:2])
        by_sheet.setdefault(name, []).append((verb, (*place, *map(int, arguments[2:])), int(number)))
    assert sum(map(len, by_sheet.values())) == 3244
    for name, calls in by_sheet.items():
        sheet = vector(name)
        for verb, arguments, number in calls:
            assert refusal(verb, sheet, arguments) == number, (verb, name, arguments, number)
        yield name, sheet, [call[:2] for call in calls]
