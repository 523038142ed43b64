#!/usr/bin/env python3
"""Work out the margin statement of one account, apart from the engine.

    expected_statement.py ACCOUNT TABLE KNOTS

ACCOUNT holds one account with its trades and collateral, TABLE a table model
and KNOTS a knot model.  The statement is printed for the table model, for the
knot model, and for the two joined, table first.  The worked figures follow.

Every figure is that of margin_reference.py.

In an account file a later entry of the same kind (and the same family or
security number, where it has one) replaces the earlier one; each trade entry
adds a trade.
"""

import sys

from margin_reference import (
    BENCHMARKS, FAMILIES, PAY, RECEIVE, BenchmarkFigures, FamilyFigures,
    JoinedModel, KnotModel, TableModel, Trade, flat_model, kth_highest,
    security_value, settled_level, settled_own_flag, settled_second_flag,
    volatility_tenths)


# --------------------------------------------------------------------------
# Reading
# --------------------------------------------------------------------------

def entries(path):
    """The lines of a file as lists of words, comments and empty lines gone."""
    with open(path, encoding="ascii") as lines:
        for line in lines:
            words = line.split("#", 1)[0].split()
            if words:
                yield words


def read_model(path, kind, make):
    words = [word for line in entries(path) for word in line]
    if words[0] != kind:
        raise ValueError("%s: a %s model is wanted" % (path, kind))
    return make(int(words[1]), int(words[2]), [int(word) for word in words[3:]])


class Account:
    """One account as its file gives it, with the market it stands in."""

    def __init__(self):
        self.month = 0
        self.set = 0
        self.step_up = 0
        self.volatility = [0, 0]
        self.averages = [(None, None), (None, None)]
        self.securities = {}          # number: (price, haircut, listed)
        self.cash = 0
        self.lots = {}                # security number: lots
        self.levels = [(0, 0), (0, 0)]
        self.flags = (0, 0)
        self.house_restricted = 0
        self.trades = []


def read_account(path):
    account = Account()
    for word, *rest in entries(path):
        numbers = [int(number) for number in rest]
        if word == "month":
            account.month, = numbers
        elif word == "set":
            account.set, = numbers
        elif word == "step-up":
            account.step_up, = numbers
        elif word == "volatility":
            first, second = numbers
            account.volatility = [first, second]
        elif word == "averages":
            family, initial, gross = numbers
            account.averages[family] = (initial, gross)
        elif word == "security":
            number, price, haircut, listed = numbers
            account.securities[number] = (price, haircut, listed)
        elif word == "cash":
            account.cash, = numbers
        elif word == "lots":
            number, lots = numbers
            account.lots[number] = lots
        elif word == "levels":
            family, initial, gross = numbers
            account.levels[family] = (initial, gross)
        elif word == "flags":
            own, second = numbers
            account.flags = (own, second)
        elif word == "house-restricted":
            account.house_restricted, = numbers
        elif word == "trade":
            account.trades.append(Trade(*numbers))
        else:
            raise ValueError("%s: unknown entry %s" % (path, word))
    return account


# --------------------------------------------------------------------------
# The statement
# --------------------------------------------------------------------------

def statement(account, model):
    """The lines of the account's statement under one model."""
    lines = ["model %s sets %d scenarios %d"
             % (model.name, model.sets, model.scenarios)]

    lines.append("benchmark trades gross residuals half-years whole spread"
                 " minimum initial mark loss credit")
    figures = []
    for benchmark in range(BENCHMARKS):
        own = [t for t in account.trades if t.benchmark == benchmark]
        f = BenchmarkFigures(model, account.set, account.month,
                             account.step_up, own)
        figures.append(f)
        lines.append(numbers_line(
            benchmark, f.trades, f.gross, f.residuals, f.half_years, f.whole,
            f.spread, f.minimum, f.initial, f.mark, f.loss, f.credit))

    lines.append("family initial gross initial-level gross-level volatility"
                 " concentration obligation credit")
    obligation = credit = 0
    for family in range(FAMILIES):
        f = FamilyFigures(figures[2 * family:2 * family + 2],
                          account.averages[family], account.levels[family],
                          account.volatility[family])
        lines.append(numbers_line(
            family, f.initial, f.gross, *f.levels, f.volatility,
            f.concentration, f.obligation, f.credit))
        obligation += f.obligation
        credit += f.credit

    securities = 0
    for number, lots in account.lots.items():
        price, haircut, listed = account.securities.get(number, (0, 0, 0))
        if listed:
            securities += security_value(lots, price, haircut)
    collateral = account.cash + securities
    lines.append("collateral cash %d securities %d total %d"
                 % (account.cash, securities, collateral))

    available = collateral + credit
    shortfall = max(obligation - available, 0)
    own_before, second_before = account.flags
    own = settled_own_flag(own_before, obligation, available)
    second = settled_second_flag(second_before, account.house_restricted,
                                 obligation, available)
    lines.append("account obligation %d available %d shortfall %d own-flag %d"
                 " second-flag %d restriction %d"
                 % (obligation, available, shortfall, own, second,
                    own + 2 * second))
    return lines


def numbers_line(*numbers):
    return " ".join(str(number) for number in numbers)


# --------------------------------------------------------------------------
# The worked figures
# --------------------------------------------------------------------------

def worked_figures():
    """Triples: name, the figure worked out here, the figure agreed on."""
    still = flat_model(0, 0)

    def initial(*legs):
        trades = [Trade(number, 0, side, residual, notional, 0)
                  for number, (side, notional, residual) in enumerate(legs)]
        return BenchmarkFigures(still, 0, 0, 0, trades).initial

    yield ("im-pay-36-receive-60",
           initial((PAY, 1_000_000, 36), (RECEIVE, 200_000, 60)),
           30_000_000_000)
    yield "im-pay-100-at-36", initial((PAY, 100, 36)), 5_000_000
    yield "im-pay-100-at-37", initial((PAY, 100, 37)), 10_000_000
    yield "im-pay-100-at-60", initial((PAY, 100, 60)), 10_000_000
    yield "im-pay-100-at-61", initial((PAY, 100, 61)), 17_500_000

    yield "kth-loss-9-9-5", kth_highest([9, 9, 5], 2), 9

    marked = BenchmarkFigures(flat_model(65_500, 10_000), 0, 0, 0,
                              [Trade(1, 0, PAY, 12, 100, 65_000)])
    yield "mark-pay-100", marked.mark, 500_000
    yield "credit-pay-100", marked.credit, 475_000

    yield ("volatility-tenths",
           volatility_tenths([13_226, 13_226, 0, 0, 0], [10_000] * 5, 0), 175)
    yield "collateral-10-lots", security_value(10, 9_850, 4), 9_456_000

    yield "level-0-at-80", settled_level(0, 80, 1000), 0
    yield "level-0-at-81", settled_level(0, 81, 1000), 1
    yield "level-0-at-150", settled_level(0, 150, 1000), 1
    yield "level-0-at-151", settled_level(0, 151, 1000), 2
    yield "level-2-at-130", settled_level(2, 130, 1000), 2
    yield "level-2-at-129", settled_level(2, 129, 1000), 1

    yield "own-flag-95-of-100", settled_own_flag(0, 95, 100), 0
    yield "own-flag-96-of-100", settled_own_flag(0, 96, 100), 1
    yield "own-flag-stays-at-90", settled_own_flag(1, 90, 100), 1
    yield "own-flag-clears-at-89", settled_own_flag(1, 89, 100), 0


def main(arguments):
    if len(arguments) != 3:
        sys.exit("usage: expected_statement.py ACCOUNT TABLE KNOTS")
    account_path, table_path, knots_path = arguments
    account = read_account(account_path)
    table = read_model(table_path, "table", TableModel)
    knots = read_model(knots_path, "knot", KnotModel)
    for model in (table, knots, JoinedModel(table, knots)):
        print("\n".join(statement(account, model)))
        print()
    for name, figure, agreed in worked_figures():
        print("worked %s %d expected %d" % (name, figure, agreed))


if __name__ == "__main__":
    main(sys.argv[1:])
