#!/usr/bin/env python3
"""Make the two sample margin models, always the same.

    make_samples.py DIRECTORY

writes table.txt and knots.txt into DIRECTORY (crates/statement/data in this repository).

table.txt: the words `table S N`, then rates, tick values and changes, each by
set, benchmark and residual 0 to 120, the changes by scenario within that.
knots.txt: the words `knot S N`, then rates, tick values and shocks, each by
set, benchmark and knot, the shocks by scenario within that.

Both tell of the same four curves.  A scenario moves all curves together (a
level and a tilt), each benchmark a little on its own and each point a little
more; now and then a single point alone is squeezed.  The squeezes are what
lets a half-year bucket lose more than its residuals taken one by one.

Of the generator only random() is used, whose sequence for a seed is the same
in every version of Python.
"""

import os
import random
import sys

SEED = 1298
TABLE_SCENARIOS = 40
KNOT_SCENARIOS = 260
KNOTS = (0, 1, 3, 6, 9, 12, 24, 36, 48, 60, 84, 120)
RESIDUALS = range(121)

# By benchmark: the overnight rate, and what it gains (in rate units) up to
# one year and from there to ten years.  MIFOR falls over its first year.
CURVES = ((60_100, 900, 4_700),      # MIBOR
          (59_300, 1_400, 3_900),    # MIOIS
          (68_900, -2_300, 3_100),   # MIFOR
          (70_200, -1_100, 1_900))   # modified MIFOR


def bell(source):
    """A bell-shaped number of mean 0 and spread 1."""
    return sum(source.random() for _ in range(12)) - 6.0


def within(low, value, high):
    return max(low, min(high, int(value)))


def curve_rate(benchmark, residual):
    start, first_year, later = CURVES[benchmark]
    return (start + first_year * min(residual, 12) / 12
            + later * max(residual - 12, 0) / 108)


def curve_tick(benchmark, residual):
    """Ten paise a year per rate unit, discounted along the curve."""
    yearly = curve_rate(benchmark, residual) / 1_000_000
    years = residual / 12
    return 10_000 * (1 - (1 + yearly) ** -years) / yearly


def shocks(source, points, size, own, squeeze, chance):
    """One scenario: for each benchmark the shocks at the points, in rate units."""
    level = bell(source) * size
    tilt = bell(source) * size / 3
    result = []
    for _ in CURVES:
        shift = bell(source) * size / 4
        line = []
        for point in points:
            shock = level + shift + tilt * (point - 40) / 80 + bell(source) * own
            if source.random() < chance:
                shock += squeeze * (1 if source.random() < 0.5 else -1)
            line.append(shock)
        result.append(line)
    return result


def table_model(source):
    rates = [within(0, curve_rate(b, m) + bell(source) * 60, 200_000)
             for b in range(4) for m in RESIDUALS]
    ticks = [within(0, curve_tick(b, m) + 40 + bell(source) * 12, 100_000)
             for b in range(4) for m in RESIDUALS]
    scenarios = [shocks(source, RESIDUALS, 1_700, 450, 6_000, 0.02)
                 for _ in range(TABLE_SCENARIOS)]
    changes = []
    for b in range(4):
        for m in RESIDUALS:
            for scenario in scenarios:
                change = within(-2_000_000,
                                scenario[b][m] * ticks[121 * b + m] // 1000,
                                2_000_000)
                # Residual 0 gains in every scenario, so that a group of pay
                # trades there has no loss at all.
                changes.append(abs(change) + 1 if m == 0 else change)
    return rates, ticks, changes


def knot_model(source):
    rates = [within(0, curve_rate(b, m) + 150 + bell(source) * 90, 200_000)
             for b in range(4) for m in KNOTS]
    ticks = [within(0, curve_tick(b, m) * (1.004 + bell(source) * 0.001) + 1.5,
                    100_000)
             for b in range(4) for m in KNOTS]
    scenarios = [shocks(source, KNOTS, 1_900, 500, 9_000, 0.006)
                 for _ in range(KNOT_SCENARIOS)]
    moves = [within(-20_000, scenario[b][j], 20_000)
             for b in range(4) for j in range(len(KNOTS))
             for scenario in scenarios]
    return rates, ticks, moves


def write(path, kind, scenarios, tables):
    with open(path, "w", encoding="ascii", newline="\n") as out:
        out.write("%s 1 %d\n" % (kind, scenarios))
        for numbers in tables:
            for at in range(0, len(numbers), 10):
                out.write(" ".join(map(str, numbers[at:at + 10])) + "\n")


def main(arguments):
    if len(arguments) != 1:
        sys.exit("usage: make_samples.py DIRECTORY")
    directory = arguments[0]
    source = random.Random(SEED)
    write(os.path.join(directory, "table.txt"), "table", TABLE_SCENARIOS,
          table_model(source))
    write(os.path.join(directory, "knots.txt"), "knot", KNOT_SCENARIOS,
          knot_model(source))


if __name__ == "__main__":
    main(sys.argv[1:])
