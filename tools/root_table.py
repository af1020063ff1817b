#!/usr/bin/env python3
"""Writes crates/ieee754/src/table.rt, which `rt fmt` then lays out.

  tools/root_table.py > crates/ieee754/src/table.rt

For each last digit of an exponent's field and each interval of 2^18 significands from 2^23 to 2^24, a cubic near
the root of m * 2^23 or, where the digit is 0, m * 2^24, by the distance d of m from the interval's start, in whole
numbers. Each coefficient is the leading one of the polynomial through as many points as it takes, of what the
rounded ones above it leave.
"""
import math
from decimal import Decimal, getcontext

getcontext().prec = 60
WIDTH = 1 << 18
REASON = '// An array is copied at each use (80 ns a call); two statics were tried, and were slower.'


def leading(f, degree):
    """The leading coefficient of the polynomial through f at the Chebyshev points of an interval."""
    points = [round((WIDTH - 1) * 0.5 * (1 - math.cos((2 * k + 1) * math.pi / (2 * degree + 2)))) for k in range(degree + 1)]
    return sum(f(p) / math.prod(p - q for q in points if q != p) for p in points)


def cubic(i):
    start = (1 << 23) + i % 32 * WIDTH
    root = lambda d: (Decimal(start + d) * (2 - i // 32) * (1 << 23)).sqrt() + Decimal('0.5')
    third = round(leading(root, 3) * 2 ** 57)
    parabola = lambda d: root(d) - Decimal(third * d ** 3) / 2 ** 57
    bend = round(-leading(parabola, 2) * 2 ** 57)
    line = lambda d: parabola(d) + Decimal(bend * d ** 2) / 2 ** 57
    slope = round((leading(line, 1) * 2 ** 40 - third) / 2 ** 8) * 2 ** 8 + third
    value = round((leading(lambda d: line(d) - Decimal(slope * d) / 2 ** 40, 0) * 2 ** 40 - bend) / 2 ** 32) * 2 ** 32 + bend
    # The last interval before 2^24 begins 1/256 lower: at its end the guess would pass 2^64 and wrap to 0.
    return value - (i == 31) * 2 ** 32, slope


def function(name, ensures, entries, comment):
    print(f'\n{comment}\npub(crate) fn {name}(i: u32) -> u64\n    ensures {{ {ensures} }}\n{{\n    {REASON}\n    match i {{')
    for i, entry in enumerate(entries):
        print(f'        {i if i < 63 else "_"} => 0x{entry:x},')
    print('    }\n}')


print('''// The cubics of sqrt's first guess at a root, one for each last digit of an exponent's field and
// each of 32 intervals of significands. Only speed rests on these numbers; the contracts keep the
// guess's differences and products in range. tools/root_table.py writes this file.

ghost use Rattle.std.specs.Prelude.{◌%◌, ◌^◌, ◌≤◌, ◌<◌};''')
values, slopes = zip(*map(cubic, range(64)))
function('value', '2 ^ 26 ≤ result % 2 ^ 32', values, '''// The root at the interval's start and a half, times 2^40. Its last 32 digits are the bend too: how
// much less the root rises with each step from the start, times 2^57.''')
function('slope', 'result < 2 ^ 40', slopes, '''// How much the root rises with each step, times 2^40. Its last 8 digits are also how much less the
// bend is with each step, times 2^57.''')
