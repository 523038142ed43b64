#!/usr/bin/env python3
"""Print what bindings/c/day.c should print: the same day on the Python engine.

    python3 tools/expected_c_day.py > bindings/c/day.expected
"""
from margin_reference import (House, JoinedModel, KNOTS, KnotModel, Refused,
                              TableModel, opening)

SETS, RUNS, STRESS = 2, 12, 4


def table(broken=False):
    rates, ticks, changes = [], [], []
    for s in range(SETS):
        for b in range(4):
            for r in range(121):
                rates.append(60000 + 500 * b + 10 * r + 100 * s)
                ticks.append(833 * r)
                changes += [((j * 37 + b * 11 + s * 5) % 41 - 20) * r * 6
                            for j in range(RUNS)]
    if broken:
        ticks[7] = 100001
    return TableModel(SETS, RUNS, rates + ticks + changes)


def knot():
    rates, ticks, shocks = [], [], []
    for s in range(SETS):
        for b in range(4):
            for month in KNOTS:
                rates.append(61000 + 400 * b)
                ticks.append(833 * month)
                shocks += [((j * 53 + b * 7 + s) % 31 - 15) * 100
                           for j in range(STRESS)]
    return KnotModel(SETS, STRESS, rates + ticks + shocks)


def report(house):
    market = house.market
    print("house: month %d, set %d, step-up %d"
          % (market.month, market.set, market.step_up))
    for i, a in enumerate(house.accounts):
        print("account %d: cash %d, obligation %d, available %d, shortfall %d, "
              "trades %d, own %d, second %d"
              % (i, a.cash, a.obligation, a.available, a.shortfall,
                 len(a.trades), a.own, a.second))
        for trade in a.trades:
            print("  trade %d" % trade.number)


def main():
    try:
        table(broken=True)
    except Refused as refusal:
        print("table %d at %d" % (refusal.number, refusal.place))
    model = JoinedModel(table(), knot())
    print("table 0, knots 0, joined 0, too many 34")
    print("open %d" % opening(33, 311)[0])
    number, house = opening(3, 311)
    print("open %d" % number)

    def call(what, method, *args):
        print(what, *method(model, *args))

    call("price", house.price, 0, 9850, 4, 1)
    call("averages", house.averages, 0, 20000000000, 150000)
    marks = (10000, 10000, 12000, 12000, 15000), (6000, 6000, 7000, 7000, 9000)
    call("thresholds", house.thresholds, 0, *marks)
    call("thresholds", house.thresholds, 2, *marks)
    call("lodge cash", house.lodge_cash, 0, 50000000)
    call("lodge cash", house.lodge_cash, 1, 900000000)
    call("lodge cash", house.lodge_cash, 2, 300000000)
    call("lodge security", house.lodge_security, 1, 0, 400)
    call("trade", house.trade, 1, 101, 0, 0, 371, 4000, 63000)
    call("trade", house.trade, 1, 102, 2, 1, 347, 2000, 62000)
    call("trade", house.trade, 1, 103, 1, 0, 323, 500, 60500)
    call("trade", house.trade, 2, 201, 3, 1, 335, 1500, 67300)
    call("trade", house.trade, 2, 202, 1, 0, 431, 90000, 60000)
    call("trade", house.trade, 0, 1, 1, 0, 312, 300, 60500)
    call("end", house.end, 1, 103)
    report(house)
    calm, moved = (4000, 5200, 3900, 4100, 5000), (18000, 17000, 8000, 7000, 6000)
    call("volatility", house.check, 0, 1, calm)
    call("volatility", house.check, 0, 2, moved)
    call("volatility", house.check, 0, 2, calm)
    call("set", house.set, 1)
    call("step-up", house.step_up, 25)
    call("draw cash", house.draw_cash, 1, 900000000)
    call("draw cash", house.draw_cash, 1, 10000000)
    call("draw security", house.draw_security, 1, 0, 100)
    call("close", house.close)
    call("month", house.month, 313)
    call("show", house.show, 0)
    report(house)
    # by the header: wrong tables, and no house
    print("flag 2 1 0 0 0 0")
    print("month 1200 255 0 0 0 0")
    print("month 1200 255 0 0 0 0")
    call("show", house.show, 2)


main()
