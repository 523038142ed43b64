"""Model files as text, and models of realistic numbers for the sample scripts."""

from make_samples import KNOTS, RESIDUALS, bell, curve_rate, curve_tick, shocks, within


def model_text(kind, sets, scenarios, *tables):
    """A table or knot model; ten numbers to a line."""
    lines = ["%s %d %d" % (kind, sets, scenarios)]
    for numbers in tables:
        numbers = list(numbers)
        lines += [" ".join(map(str, numbers[at:at + 10]))
                  for at in range(0, len(numbers), 10)]
    return "".join(line + "\n" for line in lines)


def joined_text(first, second):
    return "joined\n" + first + second


def market_knots(source, sizes, scenarios, shifts=(0, 0, 0, 0)):
    """A knot model of four rupee curves, with a set of shocks for each size:
    the same shocks, larger or smaller.  `shifts` moves the rates of each
    benchmark, in rate units."""
    rates, ticks, moves = [], [], []
    made = [shocks(source, KNOTS, 1_000, 250, 2_000, 0.02) for _ in range(scenarios)]
    for size in sizes:
        for benchmark in range(4):
            for at, month in enumerate(KNOTS):
                rates.append(within(0, curve_rate(benchmark, month) + shifts[benchmark],
                                    200_000))
                ticks.append(within(0, curve_tick(benchmark, month) + 40, 100_000))
                moves += [within(-20_000, scenario[benchmark][at] * size / 1_000, 20_000)
                          for scenario in made]
    return model_text("knot", len(sizes), scenarios, rates, ticks, moves)


def market_table(source, size, scenarios):
    """A table model of the same curves, one set."""
    made = [shocks(source, RESIDUALS, size, size // 3, 2 * size, 0.01)
            for _ in range(scenarios)]
    rates, ticks, changes = [], [], []
    for benchmark in range(4):
        for month in RESIDUALS:
            tick = within(0, curve_tick(benchmark, month) + 40, 100_000)
            rates.append(within(0, curve_rate(benchmark, month) + bell(source) * 60,
                                200_000))
            ticks.append(tick)
            changes += [within(-2_000_000, scenario[benchmark][month] * tick // 1000,
                               2_000_000) for scenario in made]
    return model_text("table", 1, scenarios, rates, ticks, changes)
