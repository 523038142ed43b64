"""The margin engine once more, in Python, apart from the program that is tested.

Written from docs/RULES.md and docs/CALLS.md: models, the figures of one account,
flags, and a house that opens and takes account calls and market calls.  The
programs beside it (expected_statement.py, make_events.py, play_script.py) take
their figures from here.

Units: money in paise; notional in lakh; a rate counts 0.0001 per cent; a tick
value counts thousandths of a paisa per lakh per rate unit; a month number
counts months from January 2000 as 0.

Every figure is a whole number.  Python's // always rounds down, towards minus
infinity, and that is what "rounded down" means throughout.
"""

import copy
import functools
from typing import NamedTuple

BENCHMARKS = 4            # 0 MIBOR, 1 MIOIS, 2 MIFOR, 3 modified MIFOR
FAMILIES = 2              # family 0: benchmarks 0 and 1; family 1: 2 and 3
LONGEST = 120             # the highest residual, in months
RESIDUALS = LONGEST + 1
KNOTS = (0, 1, 3, 6, 9, 12, 24, 36, 48, 60, 84, 120)
LAST_BUCKET = 19          # half-years 0 to 19; residual 120 joins the last
PAY, RECEIVE = 0, 1

MOST_ACCOUNTS = 32
MOST_TRADES = 64
SECURITIES = 32
LAST_MONTH = 1199
MOST_CASH = 10 ** 14
MOST_LOTS = 1_000_000
MOST_NOTIONAL = 1_000_000
HIGHEST_RATE = 200_000
HIGHEST_TICK = 100_000
WIDEST_CHANGE = 2_000_000
WIDEST_SHOCK = 20_000
HIGHEST_AVERAGE = 10 ** 16
WHOLE = 1_000_000         # 100 per cent in millionths
SLOTS = 4


def rounded_up(numerator, denominator):
    """The quotient, rounded up to a whole number."""
    return -(-numerator // denominator)


# --------------------------------------------------------------------------
# Margin models.  A model has `sets`, `scenarios`, and answers rate, tick and
# change.  Asked outside its counts, benchmarks or residuals it answers 0.
# The change is what one lakh of a pay-fixed swap gains, in paise.
# --------------------------------------------------------------------------

class Refused(Exception):
    """A making that is refused: its number, and with 33 the place."""

    def __init__(self, number, place=None):
        super().__init__("model refused: %d" % number if place is None
                         else "model refused: %d at %d" % (number, place))
        self.number, self.place = number, place


class Model:
    name = ""
    sets = 0
    scenarios = 0

    def covers(self, chosen, benchmark, residual):
        return (0 <= chosen < self.sets and 0 <= benchmark < BENCHMARKS
                and 0 <= residual <= LONGEST)

    def rate(self, chosen, benchmark, residual):
        if not self.covers(chosen, benchmark, residual):
            return 0
        return self.own_rate(chosen, benchmark, residual)

    def tick(self, chosen, benchmark, residual):
        if not self.covers(chosen, benchmark, residual):
            return 0
        return self.own_tick(chosen, benchmark, residual)

    def change(self, chosen, benchmark, residual, scenario):
        if not self.covers(chosen, benchmark, residual):
            return 0
        if not 0 <= scenario < self.scenarios:
            return 0
        return self.own_change(chosen, benchmark, residual, scenario)


class TableModel(Model):
    """Rates, tick values and changes listed for every residual."""

    name = "table"

    def __init__(self, sets, scenarios, numbers):
        self.sets, self.scenarios = sets, scenarios
        self.rates, self.ticks, self.changes = split(
            sets, scenarios, RESIDUALS, numbers, WIDEST_CHANGE)

    def place(self, chosen, benchmark, residual):
        return (chosen * BENCHMARKS + benchmark) * RESIDUALS + residual

    def own_rate(self, chosen, benchmark, residual):
        return self.rates[self.place(chosen, benchmark, residual)]

    def own_tick(self, chosen, benchmark, residual):
        return self.ticks[self.place(chosen, benchmark, residual)]

    def own_change(self, chosen, benchmark, residual, scenario):
        place = self.place(chosen, benchmark, residual)
        return self.changes[place * self.scenarios + scenario]


class KnotModel(Model):
    """Rates, tick values and shocks at the twelve knots, straight between."""

    name = "knot"

    def __init__(self, sets, scenarios, numbers):
        self.sets, self.scenarios = sets, scenarios
        self.rates, self.ticks, self.shocks = split(
            sets, scenarios, len(KNOTS), numbers, WIDEST_SHOCK)

    def place(self, chosen, benchmark, knot):
        return (chosen * BENCHMARKS + benchmark) * len(KNOTS) + knot

    def between(self, residual, value_at):
        """The value at a residual, from the values at its neighbouring knots."""
        if residual in KNOTS:
            return value_at(KNOTS.index(residual))
        right = next(j for j, month in enumerate(KNOTS) if month > residual)
        left = right - 1
        a, b = KNOTS[left], KNOTS[right]
        difference = value_at(right) - value_at(left)
        return value_at(left) + difference * (residual - a) // (b - a)

    def own_rate(self, chosen, benchmark, residual):
        return self.between(residual, lambda knot: self.rates[
            self.place(chosen, benchmark, knot)])

    def own_tick(self, chosen, benchmark, residual):
        return self.between(residual, lambda knot: self.ticks[
            self.place(chosen, benchmark, knot)])

    def own_change(self, chosen, benchmark, residual, scenario):
        shock = self.between(residual, lambda knot: self.shocks[
            self.place(chosen, benchmark, knot) * self.scenarios + scenario])
        return shock * self.own_tick(chosen, benchmark, residual) // 1000


class JoinedModel(Model):
    """The first model's scenarios, then the second's.

    Rates and tick values are the first's; each scenario's change is that of
    the model it comes from.
    """

    name = "joined"

    def __init__(self, first, second):
        self.first, self.second = first, second
        self.sets = min(first.sets, second.sets)
        self.scenarios = first.scenarios + second.scenarios
        if self.scenarios > 1000:
            raise Refused(34)

    def own_rate(self, chosen, benchmark, residual):
        return self.first.rate(chosen, benchmark, residual)

    def own_tick(self, chosen, benchmark, residual):
        return self.first.tick(chosen, benchmark, residual)

    def own_change(self, chosen, benchmark, residual, scenario):
        if scenario < self.first.scenarios:
            return self.first.change(chosen, benchmark, residual, scenario)
        return self.second.change(chosen, benchmark, residual,
                                  scenario - self.first.scenarios)


MAKES = {"table": TableModel, "knot": KnotModel}


def check_counts(sets, scenarios):
    if not (1 <= sets <= 8 and 1 <= scenarios <= 1000):
        raise Refused(31)


def split(sets, scenarios, points, numbers, widest):
    """Cut a model's numbers into its three tables, checking each of them."""
    check_counts(sets, scenarios)
    cells = sets * BENCHMARKS * points
    if len(numbers) != cells * (2 + scenarios):
        raise Refused(32)
    for place, number in enumerate(numbers):
        if place < cells:
            low, high = 0, HIGHEST_RATE
        elif place < 2 * cells:
            low, high = 0, HIGHEST_TICK
        else:
            low, high = -widest, widest
        if not low <= number <= high:
            raise Refused(33, place)
    return numbers[:cells], numbers[cells:2 * cells], numbers[2 * cells:]


def flat_model(rate, tick, scenarios=1):
    """One set, the same rate and tick everywhere, changes 0."""
    cells = BENCHMARKS * RESIDUALS
    return TableModel(1, scenarios,
                      [rate] * cells + [tick] * cells + [0] * cells * scenarios)


# --------------------------------------------------------------------------
# From trades to obligation
# --------------------------------------------------------------------------

class Trade(NamedTuple):
    number: int
    benchmark: int
    side: int
    maturity: int
    notional: int
    rate: int

    def residual(self, month):
        return min(max(self.maturity - month, 0), LONGEST)


def tail_size(scenarios):
    """How many of the highest losses make the tail: one in a hundred."""
    return max(scenarios // 100, 1)


def kth_highest(entries, k):
    """The greatest value that at least k of the entries reach."""
    return sorted(entries, reverse=True)[k - 1]


@functools.lru_cache(maxsize=4096)
def changes_of(model, chosen, benchmark, residual):
    """The change in each scenario."""
    return [model.change(chosen, benchmark, residual, scenario)
            for scenario in range(model.scenarios)]


def losses_of(model, chosen, month, trade):
    """What the trade loses in each scenario; a gain is below 0."""
    signed = -trade.notional if trade.side == PAY else trade.notional
    return [signed * change for change in changes_of(
        model, chosen, trade.benchmark, trade.residual(month))]


def value_at_risk(scenarios, losses):
    """VaR of a group of trades, given the losses of each of them."""
    totals = [sum(column) for column in zip(*losses)] or [0] * scenarios
    return max(kth_highest(totals, tail_size(scenarios)), 0)


def half_year(residual):
    return min(residual // 6, LAST_BUCKET)


def spread_charge(x, z, y):
    return rounded_up(2 * max(x - z, 0) + max(z - y, 0), 10)


def minimum_rate(residual):
    """Minimum margin per lakh by residual."""
    if residual <= 36:
        return 50_000
    if residual <= 60:
        return 100_000
    return 175_000


def minimum_margin(month, trades):
    total = 0
    for trade in trades:
        amount = trade.notional * minimum_rate(trade.residual(month))
        total += amount if trade.side == PAY else -amount
    return abs(total)


def with_step_up(margin, per_cent):
    return margin + rounded_up(margin * per_cent, 100)


def mark(model, chosen, month, trade):
    residual = trade.residual(month)
    product = (trade.notional
               * (model.rate(chosen, trade.benchmark, residual) - trade.rate)
               * model.tick(chosen, trade.benchmark, residual))
    if trade.side == RECEIVE:
        product = -product
    return product // 1000


def credit_of(gain):
    return max(gain, 0) * 95 // 100


class BenchmarkFigures:
    """The figures of one account in one benchmark."""

    def __init__(self, model, chosen, month, step_up, trades):
        losses = [losses_of(model, chosen, month, trade) for trade in trades]

        def total_var(key):
            groups = {}
            for trade, own in zip(trades, losses):
                groups.setdefault(key(trade.residual(month)), []).append(own)
            return sum(value_at_risk(model.scenarios, group)
                       for group in groups.values())

        self.trades = len(trades)
        self.gross = sum(trade.notional for trade in trades)
        self.residuals = total_var(lambda residual: residual)
        self.half_years = total_var(half_year)
        self.whole = value_at_risk(model.scenarios, losses)
        self.spread = spread_charge(self.residuals, self.half_years, self.whole)
        self.minimum = minimum_margin(month, trades)
        self.initial = with_step_up(
            max(self.whole + self.spread, self.minimum), step_up)
        self.mark = sum(mark(model, chosen, month, trade) for trade in trades)
        self.loss = max(-self.mark, 0)
        self.credit = credit_of(self.mark)


@functools.lru_cache(maxsize=4096)
def benchmark_figures(model, chosen, month, step_up, trades):
    """Kept for a while: most calls leave most accounts' trades as they were."""
    return BenchmarkFigures(model, chosen, month, step_up, trades)


def settled_level(level, value, average):
    """A concentration level after settling; no average yet gives 0."""
    if average is None:
        return 0
    if 100 * value > 15 * average:
        return 2
    if level == 2 and 100 * value >= 13 * average:
        return 2
    if level in (1, 2):
        return 1 if 100 * value >= 6 * average else 0
    return 1 if 100 * value > 8 * average else 0


def concentration_charge(level, initial):
    return rounded_up(initial * (0, 15, 20)[level], 100)


def volatility_margin(tenths, initial):
    return rounded_up(initial * tenths, 1000)


class FamilyFigures:
    """The figures of one account in one family, from its two benchmarks."""

    def __init__(self, pair, averages, levels, tenths):
        self.initial = sum(f.initial for f in pair)
        self.gross = sum(f.gross for f in pair)
        self.levels = tuple(settled_level(level, value, average)
                            for level, value, average
                            in zip(levels, (self.initial, self.gross), averages))
        self.volatility = volatility_margin(tenths, self.initial)
        self.concentration = concentration_charge(max(self.levels), self.initial)
        self.obligation = (self.initial + sum(f.loss for f in pair)
                           + self.volatility + self.concentration)
        self.credit = sum(f.credit for f in pair)


def volatility_tenths(returns, triggers, in_force):
    """The volatility per cent after a check, in tenths of a per cent."""
    exceeding = sum(1 for r, t in zip(returns, triggers) if r > t)
    if exceeding < 2:
        return in_force
    # The highest ratio rounded up to a multiple of 5 per cent is the highest
    # of the ratios so rounded: rounding up keeps their order.
    p = max(5 * rounded_up(100 * r, 5 * t) for r, t in zip(returns, triggers))
    return max(min(5 * (p - 100), 1000), in_force)


def security_value(lots, price, haircut):
    """A lot is Rs 10,000 face, the price is paise per Rs 100 of it."""
    return lots * price * (100 - haircut)


def settled_own_flag(flag, obligation, available):
    if 100 * obligation > 95 * available:
        return 1
    if obligation == 0 or 100 * obligation < 90 * available:
        return 0
    return flag


def settled_second_flag(flag, house_restricted, obligation, available):
    if not house_restricted or obligation == 0:
        return 0
    if 100 * obligation > 90 * available:
        return 1
    if 100 * obligation < 70 * available:
        return 0
    return flag


# --------------------------------------------------------------------------
# The house
# --------------------------------------------------------------------------

class Market:
    """What holds for all accounts alike."""

    def __init__(self, month):
        self.month = month
        self.set = 0
        self.step_up = 0
        self.volatility = [0] * FAMILIES               # in tenths
        self.averages = [(None, None)] * FAMILIES      # initial margin, gross
        self.thresholds = [None] * FAMILIES            # triggers, calm marks
        self.begin_day()
        self.securities = [(0, 0, 0)] * SECURITIES     # price, haircut, listed

    def begin_day(self):
        # the slots checked since the last close, each with whether it was calm
        self.checked = [{} for _ in range(FAMILIES)]

    def calm_day(self, family):
        checked = self.checked[family]
        return len(checked) == SLOTS and all(checked.values())


class Account:
    """One record, with its trades in the order of acceptance."""

    def __init__(self):
        self.cash = 0
        self.lots = (0,) * SECURITIES
        self.levels = ((0, 0),) * FAMILIES             # initial margin, gross
        self.trades = ()
        self.obligation = self.available = self.shortfall = 0
        self.own = self.second = 0

    def restriction(self):
        return self.own + 2 * self.second

    def with_lots(self, security, lots):
        changed = copy.copy(self)
        changed.lots = self.lots[:security] + (lots,) + self.lots[security + 1:]
        return changed

    def with_cash(self, cash):
        changed = copy.copy(self)
        changed.cash = cash
        return changed

    def with_trades(self, trades):
        changed = copy.copy(self)
        changed.trades = tuple(trades)
        return changed


class AccountFigures:
    """All figures of one account before the cover."""

    def __init__(self, model, market, account):
        benchmarks = [
            benchmark_figures(model, market.set, market.month, market.step_up,
                              tuple(t for t in account.trades if t.benchmark == b))
            for b in range(BENCHMARKS)]
        families = [
            FamilyFigures(benchmarks[2 * f:2 * f + 2], market.averages[f],
                          account.levels[f], market.volatility[f])
            for f in range(FAMILIES)]
        collateral = account.cash + sum(
            security_value(lots, price, haircut)
            for lots, (price, haircut, listed) in zip(account.lots, market.securities)
            if listed)
        self.levels = tuple(family.levels for family in families)
        self.obligation = sum(family.obligation for family in families)
        self.available = collateral + sum(family.credit for family in families)


class House:
    """A house and its accounts; account 0 is the house's own.

    Until it is opened it is like one opened with 1 account in month 0.
    """

    def __init__(self, accounts=1, month=0):
        self.market = Market(month)
        self.accounts = [Account() for _ in range(accounts)]

    # settlement

    def cover(self):
        return sum(account.shortfall for account in self.accounts[1:])

    def tried(self, model, index, account):
        """Levels, obligation and available with this record in the account's
        place, the obligation of the house with the stored cover."""
        figures = AccountFigures(model, self.market, account)
        if index == 0:
            figures.obligation += self.cover()
        return figures

    def settle(self, model, index):
        account = self.accounts[index]
        figures = self.tried(model, index, account)
        account.levels = figures.levels
        account.obligation = figures.obligation
        account.available = figures.available
        account.shortfall = max(figures.obligation - figures.available, 0)
        account.own = settled_own_flag(account.own, figures.obligation,
                                       figures.available)

    def settle_after(self, model, constituents):
        """After an accepted call: these constituents, the house, second flags."""
        for index in constituents:
            self.settle(model, index)
        self.settle(model, 0)
        house = self.accounts[0]
        house.second = 0
        for account in self.accounts[1:]:
            account.second = settled_second_flag(
                account.second, house.own, account.obligation, account.available)

    # account calls: number, obligation, available, shortfall, restriction

    def answer_account(self, model, index, asked):
        """`asked` takes the record; it gives a refusal and the record changed."""
        if index >= len(self.accounts):
            return (2, 0, 0, 0, 0)
        number, changed = asked(self.accounts[index])
        if number == 0:
            self.accounts[index] = changed
            self.settle_after(model, [index] if index else [])
        account = self.accounts[index]
        return (number, account.obligation, account.available,
                account.shortfall, account.restriction())

    def trade(self, model, index, number, benchmark, side, maturity, notional, rate):
        def asked(account):
            if benchmark >= BENCHMARKS:
                return 3, None
            if side not in (PAY, RECEIVE):
                return 4, None
            if not 1 <= notional <= MOST_NOTIONAL:
                return 5, None
            if rate > HIGHEST_RATE:
                return 6, None
            if not self.market.month <= maturity <= self.market.month + LONGEST:
                return 7, None
            if any(trade.number == number for trade in account.trades):
                return 8, None
            if len(account.trades) >= MOST_TRADES:
                return 9, None
            changed = account.with_trades(account.trades + (
                Trade(number, benchmark, side, maturity, notional, rate),))
            figures = self.tried(model, index, changed)
            if account.own or (index != 0 and account.second):
                if figures.obligation >= account.obligation:
                    return 10, None
            elif figures.available < figures.obligation:
                return 11, None
            return 0, changed
        return self.answer_account(model, index, asked)

    def end(self, model, index, number):
        def asked(account):
            for at, trade in enumerate(account.trades):
                if trade.number == number:
                    return 0, account.with_trades(
                        account.trades[:at] + account.trades[at + 1:])
            return 12, None
        return self.answer_account(model, index, asked)

    def lodge_cash(self, model, index, amount):
        def asked(account):
            if not 1 <= amount <= MOST_CASH:
                return 13, None
            if account.cash + amount > MOST_CASH:
                return 14, None
            return 0, account.with_cash(account.cash + amount)
        return self.answer_account(model, index, asked)

    def draw_cash(self, model, index, amount):
        def asked(account):
            if not 1 <= amount <= MOST_CASH:
                return 13, None
            if account.cash < amount:
                return 15, None
            return self.asked_draw(model, index,
                                   account.with_cash(account.cash - amount))
        return self.answer_account(model, index, asked)

    def lodge_security(self, model, index, security, lots):
        def asked(account):
            if security >= SECURITIES:
                return 17, None
            if not 1 <= lots <= MOST_LOTS:
                return 18, None
            if account.lots[security] + lots > MOST_LOTS:
                return 14, None
            return 0, account.with_lots(security, account.lots[security] + lots)
        return self.answer_account(model, index, asked)

    def draw_security(self, model, index, security, lots):
        def asked(account):
            if security >= SECURITIES:
                return 17, None
            if not 1 <= lots <= MOST_LOTS:
                return 18, None
            if account.lots[security] < lots:
                return 15, None
            return self.asked_draw(model, index, account.with_lots(
                security, account.lots[security] - lots))
        return self.answer_account(model, index, asked)

    def asked_draw(self, model, index, changed):
        figures = self.tried(model, index, changed)
        if figures.available < figures.obligation:
            return 16, None
        return 0, changed

    def show(self, model, index):
        return self.answer_account(model, index, lambda account: (0, account))

    # market calls: number, set, month, both volatility per cents in tenths

    def answer_market(self, model, number):
        if number == 0:
            self.settle_after(model, range(1, len(self.accounts)))
        return (number, self.market.set, self.market.month) + tuple(
            self.market.volatility)

    def set(self, model, chosen):
        if chosen >= model.sets:
            return self.answer_market(model, 19)
        self.market.set = chosen
        return self.answer_market(model, 0)

    def price(self, model, security, price, haircut, listed):
        if security >= SECURITIES:
            return self.answer_market(model, 17)
        if not (1 <= price <= 30_000 and haircut <= 100 and listed <= 1):
            return self.answer_market(model, 20)
        self.market.securities[security] = (price, haircut, listed)
        return self.answer_market(model, 0)

    def step_up(self, model, per_cent):
        if per_cent > 100:
            return self.answer_market(model, 21)
        self.market.step_up = per_cent
        return self.answer_market(model, 0)

    def averages(self, model, family, initial, gross):
        if family >= FAMILIES:
            return self.answer_market(model, 22)
        if not (1 <= initial <= HIGHEST_AVERAGE and 1 <= gross <= HIGHEST_AVERAGE):
            return self.answer_market(model, 23)
        self.market.averages[family] = (initial, gross)
        return self.answer_market(model, 0)

    def thresholds(self, model, family, triggers, calm_marks):
        if family >= FAMILIES:
            return self.answer_market(model, 22)
        if not all(1 <= calm <= trigger <= WHOLE
                   for trigger, calm in zip(triggers, calm_marks)):
            return self.answer_market(model, 24)
        self.market.thresholds[family] = (tuple(triggers), tuple(calm_marks))
        return self.answer_market(model, 0)

    def check(self, model, family, slot, returns):
        if family >= FAMILIES:
            return self.answer_market(model, 22)
        if any(size > WHOLE for size in returns):
            return self.answer_market(model, 25)
        if self.market.thresholds[family] is None:
            return self.answer_market(model, 26)
        checked = self.market.checked[family]
        if not max(checked, default=0) < slot <= SLOTS:
            return self.answer_market(model, 27)
        triggers, calm_marks = self.market.thresholds[family]
        checked[slot] = all(size < calm for size, calm in zip(returns, calm_marks))
        self.market.volatility[family] = volatility_tenths(
            returns, triggers, self.market.volatility[family])
        return self.answer_market(model, 0)

    def close(self, model):
        for family in range(FAMILIES):
            if self.market.calm_day(family):
                self.market.volatility[family] = 0
        self.market.begin_day()
        return self.answer_market(model, 0)

    def month(self, model, month):
        if not self.market.month < month <= LAST_MONTH:
            return self.answer_market(model, 28)
        self.market.month = month
        self.accounts = [
            account.with_trades(t for t in account.trades if t.maturity >= month)
            for account in self.accounts]
        return self.answer_market(model, 0)


def opening(accounts, month):
    """The opening's number, and the house if it is accepted."""
    if not 1 <= accounts <= MOST_ACCOUNTS:
        return 29, None
    if month > LAST_MONTH:
        return 30, None
    return 0, House(accounts, month)
