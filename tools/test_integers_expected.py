#!/usr/bin/env python3
"""Prints what crates/test_integers must print: the two tables of its source, worked out in exact fractions.

python3 tools/test_integers_expected.py > crates/test_integers/stdout
"""
import math
import pathlib
import re
from fractions import Fraction

SOURCE = pathlib.Path(__file__).parent.parent / "crates" / "test_integers" / "src" / "main.rt"


def table(name):
    body = re.search(name + r": \[i64; \d+\] = \[(.*?)\];", SOURCE.read_text(), re.S).group(1)
    return [int(entry) for entry in body.split(",") if entry.strip()]


for d in table("DENOMINATORS"):
    for n in table("NUMERATORS"):
        exact = Fraction(n, d)
        rounded = math.floor(exact + Fraction(1, 2))
        print(n, d, math.floor(exact), rounded, *([rounded] if abs(exact) <= 2**24 else []))
