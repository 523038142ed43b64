"""The sample scripts, and the model files that they name."""

import random

from margin_reference import KNOTS, PAY, RECEIVE
from model_files import joined_text, market_knots, market_table, model_text
from play_script import FIELDS

# Every answer and error that the samples have to reach among them.
WANTED = {(word, number) for word, numbers in {
    "open": (0, 29, 30),
    "model": (0, 31, 32, 33, 34),
    "trade": (0, 2, 3, 4, 5, 6, 7, 8, 9, 10, 11),
    "end": (0, 2, 12),
    "lodge-cash": (0, 2, 13, 14),
    "draw-cash": (0, 2, 13, 15, 16),
    "lodge-security": (0, 2, 14, 17, 18),
    "draw-security": (0, 2, 15, 16, 17, 18),
    "show": (0, 2),
    "set": (0, 19),
    "price": (0, 17, 20),
    "step-up": (0, 21),
    "averages": (0, 22, 23),
    "thresholds": (0, 22, 24),
    "check": (0, 22, 25, 26, 27),
    "close": (0,),
    "month": (0, 28),
}.items() for number in numbers} | {("error", reason) for reason in (
    "unknown word", "missing number", "not a number", "negative number",
    "number too large", "too many words", "missing file name",
    "cannot read file", "not a model file")}


# --- model files ---

def knots_with(changes, scenarios=1, fill=0):
    """A knot model of one set, the same number everywhere but at some places."""
    numbers = [fill] * (48 * (2 + scenarios))
    for place, number in changes.items():
        numbers[place] = number
    return model_text("knot", 1, scenarios, numbers)


def table_with(changes, scenarios=1, fill=0):
    numbers = [fill] * (484 * (2 + scenarios))
    for place, number in changes.items():
        numbers[place] = number
    return model_text("table", 1, scenarios, numbers)


def steps():
    """A knot model whose values fall and rise from knot to knot, so that most
    values between them are rounded."""
    rates, ticks, moves = [], [], []
    for benchmark in range(4):
        for at, month in enumerate(KNOTS):
            down = (at + benchmark) % 2
            rates.append(60_000 - 1_111 * at if down else 61_000 + 777 * at)
            ticks.append(20_000 + 123 * at if down else 30_001 - 457 * at)
            moves += [-7_000 - 13 * at if down else -3_000 + 17 * at,
                      6_500 + 29 * at if down else 2_999 - 31 * at]
    # falling from 10 to 5 in MIBOR between residuals 1 and 3, and shocks that
    # rise from -7,000 to -3,000 between residuals 6 and 9
    rates[1], rates[2] = 10, 5
    ticks[1] = ticks[2] = 1_000
    ticks[3] = ticks[4] = 20_000
    moves[2 * 3] = -7_000
    moves[2 * 4] = -3_000
    return model_text("knot", 1, 2, rates, ticks, moves)


def eight_sets():
    rates, ticks, moves = [], [], []
    for chosen in range(8):
        for benchmark in range(4):
            for at in range(len(KNOTS)):
                rates.append(60_000 + 100 * chosen + benchmark)
                ticks.append(20_000 + at)
                moves.append(-(4_000 + 500 * chosen))
    return model_text("knot", 8, 1, rates, ticks, moves)


def lone_losses():
    """Four scenarios in which residuals 1, 3 and 6 of MIBOR lose by turns, and
    so do 2, 4 and 8 of MIOIS."""
    changes = {}
    for benchmark, residual, losses in (
            (0, 1, (100, 0, 0, 0)), (0, 3, (0, 100, 0, 0)), (0, 6, (-60, 0, 50, 50)),
            (1, 2, (100, 0, 30, 30)), (1, 4, (0, 0, 30, 30)), (1, 8, (0, 100, 0, 0))):
        for scenario, loss in enumerate(losses):
            place = 2 * 484 + (benchmark * 121 + residual) * 4 + scenario
            changes[place] = -10_000 * loss
    return table_with(changes, 4)


def spikes(scenarios, sizes):
    """A knot model with a tick value of 20,000, still but for some scenarios:
    shocks that cost a payer, the same at every knot."""
    numbers = [0] * 48 + [20_000] * 48
    for _ in range(48):
        row = [0] * scenarios
        row[:len(sizes)] = [-size for size in sizes]
        numbers += row
    return model_text("knot", 1, scenarios, numbers)


def extremes(sign):
    """Rates, tick values and changes at their limits."""
    rate = 200_000 if sign > 0 else 0
    return model_text("table", 1, 2, [rate] * 484, [100_000] * 484,
                      [sign * 2_000_000] * 968)


def models():
    """Name and text of each model file."""
    source = random.Random(48)
    good = knots_with({}, fill=1)
    longest = " ".join(["0"] * 144)
    yield "knots.model", market_knots(source, (1_600, 2_400), 20)
    yield "table.model", market_table(source, 1_500, 20)
    yield "joined.model", joined_text(market_knots(source, (1_500, 2_100, 2_600), 6),
                                      market_knots(source, (2_500, 3_500), 4))
    yield "mixed.model", joined_text(table_with({}, 1, fill=20_000),
                                     market_knots(source, (2_500, 3_500), 5))
    yield "steps.model", steps()
    yield "sets8.model", eight_sets()
    yield "spread.model", joined_text(lone_losses(), knots_with({}, 196))
    yield "tail199.model", spikes(199, (9_000, 8_000))
    yield "tail200.model", joined_text(spikes(199, (9_000, 8_000)), spikes(1, ()))
    yield "tail1000.model", joined_text(
        spikes(999, (9_900, 9_800, 9_700, 9_600, 9_500, 9_400, 9_300, 9_200, 9_100, 9_000, 8_900)),
        spikes(1, (9_950,)))
    yield "highest.model", extremes(1)
    yield "lowest.model", extremes(-1)
    yield "blanks.model", ("\r\n\t knot\x001\x0b001\x1f" + longest.replace("0 0 0", "-0\t00\r\n0", 7)
                           + " \x01")

    # refused or not a model
    yield "r31_no_set.model", "table 0 20\n"
    yield "r31_many_sets.model", "knot 9 20 and so on\n"
    yield "r31_no_scenario.model", "knot 1 0\n"
    yield "r31_many_scenarios.model", "table 8 1001 1 2 3\n"
    yield "r31_negative.model", "knot -1 5\n"
    yield "r31_huge.model", "table 1 " + "9" * 40 + "\n"
    yield "r31_first.model", "joined knot 1 1001 and so on\n"
    yield "r31_second.model", joined_text(good, "table 0 1\n")
    yield "r32_none.model", "table 1 1\n"
    yield "r32_few.model", good.rsplit(" ", 1)[0] + "\n"
    yield "r32_many.model", good + "1\n"
    yield "r32_first_few.model", "joined knot 1 1 5\n"
    yield "r32_first_many.model", joined_text(good + "1\n", good)
    yield "r32_second.model", joined_text(good, "knot 1 1 1 1 1\n")
    yield "r32_many_before_word.model", good + "1 end\n"
    yield "r32_few_before_name.model", "knot 1 1 5 5 5 knot\n"
    yield "r33_first_rate.model", knots_with({0: -1, 47: 200_001})
    yield "r33_last_rate.model", knots_with({0: 200_000, 47: 200_001})
    yield "r33_first_tick.model", knots_with({47: 0, 48: 100_001})
    yield "r33_last_tick.model", knots_with({48: 100_000, 95: -1})
    yield "r33_first_shock.model", knots_with({96: -20_001, 97: 20_001})
    yield "r33_last_shock.model", knots_with({96: -20_000, 142: 20_000, 143: 20_001})
    yield "r33_huge.model", knots_with({10: 10 ** 30})
    yield "r33_huge_shock.model", knots_with({100: -2 ** 64})
    yield "r33_first_change.model", table_with({968: 2_000_001})
    yield "r33_last_change.model", table_with({968: -2_000_000, 969: 2_000_000, 1451: -2_000_001})
    yield "r33_before_second.model", joined_text(knots_with({7: -1}), "table 0 0\n")
    yield "r33_second.model", joined_text(good, knots_with({50: 100_001}))
    yield "r33_before_name.model", knots_with({47: -1}) + "knot\n"
    yield "r34.model", joined_text(knots_with({}, 1_000), knots_with({}))
    yield "r34_before_name.model", joined_text(knots_with({}, 1_000), knots_with({})) + "table\n"
    yield "n_empty.model", ""
    yield "n_blank.model", " \r\n\t\n"
    yield "n_word.model", "tables" + good[4:]
    yield "n_number_first.model", "1 1 " + longest + "\n"
    yield "n_no_count.model", "knot\n"
    yield "n_one_count.model", "knot 9\n"
    yield "n_count_word.model", "knot one 1 " + longest + "\n"
    yield "n_count_plus.model", "knot 0 +1 " + longest + "\n"
    yield "n_number_plus.model", good.replace("1 1\n1 1", "1 1\n1 +1", 1)
    yield "n_left_over.model", good + "end\n"
    yield "n_short_and_left_over.model", "knot 1 1 1 1 1 end\n"
    yield "n_comment.model", good.replace("\n", "   # a comment\n", 1)
    yield "n_two.model", good + good
    yield "n_name_after.model", good + "knot\n"
    yield "n_joined_none.model", "joined\n"
    yield "n_joined_one.model", "joined\n" + good
    yield "n_joined_three.model", joined_text(good, good) + good
    yield "n_joined_joined.model", "joined\n" + joined_text(good, good) + good
    yield "n_joined_word.model", joined_text(good, "end\n")
    yield "n_joined_word_before_33.model", joined_text(knots_with({7: -1}), "end\n")
    yield "n_joined_number.model", "joined 1 1\n"


# --- scripts ---

def ten(trigger, calm):
    return " ".join([str(trigger)] * 5 + [str(calm)] * 5)


def text(*lines):
    return "".join(line + "\n" for line in lines)


WORKED = """\
open 2 300
lodge-cash 1 6000000
trade 1 7 0 0 312 100 0
draw-cash 1 1500000
draw-cash 1 1000000
"""

# What is known from docs/EVENT_FILE.md without any calculation here.
KNOWN = {"worked": """\
1 open 0
2 lodge-cash 0 0 6000000 0 0
3 trade 0 5000000 6000000 0 0
4 draw-cash 16 5000000 6000000 0 0
5 draw-cash 0 5000000 5000000 0 1
"""}

LINES = (
    b"# the lines themselves: comments, blanks, words\n"
    b"\n"
    b"   \t \r\n"
    b"open 2 300\r\n"
    b"   \tlodge-cash\t1   6000000   # cash\r\n"
    b"show 1# a comment may touch a word\n"
    b"show# 1\n"
    b"#show 1\n"
    b"sho#w 1\n"
    b"show\x001\x01\x1f\n"
    b"\x0bshow\x0c1\r\r\n"
    b"show\r1\n"
    b"show -0\n"
    b"show 0000000000000000000000000000000000000000000001\n"
    b"show -0000000000000000000000000000000000000000000000\n"
    b"show 00000000000000000000000000000000000000004294967295\n"
    b"show 00000000000000000000000000000000000000004294967296\n"
    b"Show 1\n"
    b"SHOW 1\n"
    b"showing 1\n"
    b"sho 1\n"
    b"lodge 1 5\n"
    b"lodge_cash 1 5\n"
    b"lodge-cash1 5\n"
    b"-5\n"
    b"7 show 1\n"
    b"unknown words with 5 numbers too many and a - sign\n"
    b"caf\xc3\xa9 1\n"
    b"show \xe2\x82\xb91\n"
    b"show 1 # \xe2\x82\xb9 in a comment\n"
    b"show 1\x7f\n"
    b"show 0x1\n"
    b"show 1.0\n"
    b"show 1e0\n"
    b"show 1,000\n"
    b"show +1\n"
    b"show -\n"
    b"show --1\n"
    b"show 1-\n"
    b"show -1\n"
    b"show -00001\n"
    b"show -99999999999999999999999999\n"
    b"show 99999999999999999999999999\n"
    b"show 18446744073709551616\n"
    b"show 18446744073709551617\n"
    b"show -18446744073709551616\n"
    b"show\n"
    b"show 1 1\n"
    b"show 1 x\n"
    b"show x 1\n"
    b"report 1\n"
    b"report x\n"
    b"report\n"
    b"show " + b"0" * 5_000 + b"1\n"
    b"show -" + b"0" * 5_000 + b"\n"
    b"show 1" + b"0" * 5_000 + b"\n"
    b"show -" + b"9" * 5_000 + b"\n"
    b"show " + b"9" * 5_000 + b"x\n"
    + b"x" * 5_000 + b"\n"
    b"show 1" + b" " * 5_000 + b"#" + b"x" * 5_000 + b"\n"
    b"show" + b" 1" * 2_000 + b"\n"
    b"show 1"                           # without a line feed at the end
)

# word, then its fields as good numbers
CALLS = (
    ("open", "2 300"),
    ("trade", "1 7 0 0 312 1 60000"),
    ("end", "1 7"),
    ("lodge-cash", "1 5000000"),
    ("draw-cash", "1 1"),
    ("lodge-security", "1 0 1"),
    ("draw-security", "1 0 1"),
    ("show", "1"),
    ("set", "0"),
    ("price", "0 9850 4 1"),
    ("step-up", "5"),
    ("averages", "0 1000000 1000"),
    ("thresholds", "0 " + ten(10_000, 6_000)),
    ("check", "0 1 1 2 3 4 5"),
    ("month", "301"),
)
WIDTHS = {word.decode(): widths for word, widths in FIELDS.items()}


def with_field(fields, at, word):
    return " ".join(fields[:at] + [word] + fields[at + 1:])


def field_errors():
    """Every field of every word: missing, bad, negative, too large."""
    lines = ["open 2 300"]
    for word, good in CALLS:
        fields = good.split()
        lines.append("# " + word)
        for at in range(len(fields)):
            lines.append("%s %s" % (word, " ".join(fields[:at])))
            for bad in ("x", "-1", str(2 ** WIDTHS[word][at])):
                lines.append("%s %s" % (word, with_field(fields, at, bad)))
        lines.append("%s %s 0" % (word, good))
        lines.append("%s %s more" % (word, good))
    lines.append("report")
    return text(*lines)


def widest_fields():
    """Every field at the highest number of its width: a call, maybe refused."""
    lines = ["open 2 300", "lodge-cash 1 100000000"]
    for word, good in CALLS[1:]:
        fields = good.split()
        lines.append("# " + word)
        for at, width in enumerate(WIDTHS[word]):
            lines.append("%s %s" % (word, with_field(fields, at, str(2 ** width - 1))))
    lines += ["report", "open 4294967295 300", "open 2 65535", "report"]
    return text(*lines)


ERROR_ORDER = """\
# the word is looked at first, then the fields from left to right
nothing x -1
trade
trade x
trade 1 x -1
trade 1 -1 x
trade 1 4294967296 x
trade 1 7 256 -1
trade 1 7 -1 256
trade 1 7 0 x 65536
trade 1 7 0 0 65536
trade 1 7 0 0 312 1
trade 1 7 0 0 312 1 x 5
trade 1 7 0 0 312 1 0 x
trade 1 7 9 9 9 0 999999 5   # too many words, though a call would be refused
open 0
open 0 x
open 0 1 2
open 33 65536
model
model # no name
model knots.model too
model no_such_file.model more words
model no_such_file.model
model n_word.model x
thresholds 0 1 1 1 1 1 1 1 1 1
thresholds 0 1 1 1 1 1 1 1 1 1 1 1
check 0 1 1 1 1 1
check 0 1 1 1 1 1 1 1
report now
report
"""

NEVER_OPENED = """\
# before the first opening: 1 account, month 0
report
show 0
show 1
month 0
lodge-cash 0 5000000
trade 0 1 0 0 121 100 0
trade 0 1 0 0 120 1 0
trade 0 2 0 0 0 1 0
open 0 5           # refused: the house stays as it is
open 33 5
open 33 1200
open 1 1200
report
month 1
report
open 2 0
report
"""

OPENINGS = """\
open 1 0
report
open 0 300
open 1 1199
open 1 1200
open 32 1199
show 31
show 32
report
open 33 0
open 4294967295 65535
open 32 65535
month 1199         # still the month of the last accepted opening

# an opening begins anew but for the model
open 3 300
model sets8.model
set 7
price 3 10000 0 1
step-up 10
averages 0 1000000 10
averages 1 1000000 10
thresholds 0 10000 10000 10000 10000 10000 5000 5000 5000 5000 5000
thresholds 1 10000 10000 10000 10000 10000 5000 5000 5000 5000 5000
check 0 3 20000 20000 0 0 0
check 1 4 15000 15000 0 0 0
lodge-cash 0 90000000
lodge-cash 1 90000000
lodge-security 1 3 20
trade 1 1 0 0 312 100 60000
trade 0 1 2 1 330 100 60000
report
open 0 300         # refused: all stays
report
show 1
open 3 300
report
lodge-cash 1 90000000
lodge-security 1 3 20       # unlisted again
trade 1 1 0 0 312 100 60000 # set 0, no step-up, no level
check 0 1 0 0 0 0 0         # no thresholds
thresholds 0 10000 10000 10000 10000 10000 5000 5000 5000 5000 5000
check 0 1 0 0 0 0 0         # slot 1 is free again
set 7                       # the model stayed: 8 sets
show 1
report
"""

ACCOUNT_REFUSALS = """\
open 3 300
# 2 comes before all others
trade 3 1 9 9 0 0 999999
trade 4294967295 1 0 0 312 1 0
end 3 1
lodge-cash 3 0
draw-cash 3 0
lodge-security 3 99 0
draw-security 3 99 0
show 3

# the questions of a trade, each with the later ones failing too
lodge-cash 1 100000000
trade 1 1 4 2 421 0 200001
trade 1 1 255 0 312 1 0
trade 1 1 3 2 421 0 200001
trade 1 1 3 255 421 0 200001
trade 1 1 3 1 421 0 200001
trade 1 1 3 1 421 1000001 200001
trade 1 1 3 1 421 1000000 200001
trade 1 1 3 1 421 1000000 200000
trade 1 1 3 1 299 1 200000
trade 1 1 3 1 300 1 200000
trade 1 2 0 0 420 1 0
trade 1 1 0 0 300 1000000 0
trade 1 2 0 0 300 1000000 0
trade 1 3 0 0 300 1000000 0
report

# end
end 1 3
end 2 1
end 1 1
end 1 1
end 1 2
report

# cash
lodge-cash 1 0
lodge-cash 1 100000000000001
lodge-cash 1 18446744073709551615
lodge-cash 1 99999900000001
lodge-cash 1 99999900000000
lodge-cash 1 1
draw-cash 1 0
draw-cash 1 100000000000001
draw-cash 1 100000000000000
draw-cash 1 1
lodge-cash 2 6000000
draw-cash 2 6000001
trade 2 7 1 1 336 100 0
draw-cash 2 6000001
draw-cash 2 1000001
draw-cash 2 1000000
report

# securities
lodge-security 1 32 0
lodge-security 1 31 0
lodge-security 1 31 1000001
lodge-security 1 31 1000000
lodge-security 1 31 1
lodge-security 1 0 999999
lodge-security 1 0 2
lodge-security 1 0 1
draw-security 1 32 0
draw-security 1 31 0
draw-security 1 31 1000001
draw-security 1 31 1000000
draw-security 1 31 1
draw-security 1 30 1
report
"""

RESTRICTED = """\
# a restricted account takes only what lowers its obligation
open 2 300
trade 1 1 0 0 312 100 0
lodge-cash 1 4999999
trade 1 1 0 0 312 100 0
lodge-cash 1 1
trade 1 1 0 0 312 100 0
trade 1 2 0 0 312 1 0
trade 1 2 1 1 312 1 0
trade 1 2 0 1 312 200 0
trade 1 2 0 1 312 9 0
trade 1 3 0 0 312 1 0
trade 1 4 0 1 312 2 0
report
trade 1 5 0 0 312 12 0
trade 1 5 0 0 312 11 0
trade 1 6 0 1 312 97 0
draw-cash 1 5000000
# the house with the cover of a client
lodge-cash 1 5000000
trade 1 7 0 0 312 100 0
lodge-cash 0 10000000
trade 0 1 2 0 300 100 0
step-up 20
report
trade 0 2 2 0 300 67 0
trade 0 2 2 0 300 66 0
trade 0 3 3 1 300 1 0
trade 0 3 2 1 300 16 0
trade 0 4 3 1 300 1 0
draw-cash 0 940001
draw-cash 0 940000
report
step-up 100                  # the client stands at 10,300,000 of 10,000,000: a cover of 300,000
report
trade 0 5 3 1 300 20 0
trade 0 5 2 1 300 300 0
trade 0 5 2 1 300 299 0
trade 0 6 2 0 300 1 0
draw-cash 0 1
trade 1 8 0 1 300 50 0       # the client is free of it, and the cover gone
report
draw-cash 0 1
"""

PRICES = """\
open 3 300
lodge-cash 1 1000000
lodge-security 1 0 10
lodge-security 1 31 1000000
lodge-security 0 31 3
show 1
price 32 9850 4 1
price 4294967295 0 101 2
price 0 0 4 1
price 0 30001 4 1
price 0 9850 101 1
price 0 9850 4 2
price 0 4294967295 4 1
show 1
price 0 9850 4 1       # 10 lots: 9,456,000
show 1
price 0 1 0 1
show 1
price 0 30000 0 1
show 1
price 0 30000 100 1
show 1
price 0 30000 99 1
show 1
price 31 30000 0 1     # a million lots: 3,000,000,000,000
report
price 31 1 100 0       # unlisted
report
price 31 0 100 0       # must be in range to unlist as well
price 31 1 101 0
price 31 9999 7 1
report
# collateral carries trades; drawing it is asked 16, listed or not
price 0 9850 4 1
draw-cash 1 1000000
price 31 9999 7 0
trade 1 1 0 0 312 189 0
trade 1 2 0 0 312 1 0
draw-security 1 0 1
draw-security 1 31 5
price 31 9999 7 1
draw-security 1 31 999999
draw-security 1 31 1
draw-security 1 0 1
price 0 9000 4 1       # short now, by a price
price 31 9999 7 0
report
draw-security 1 31 1   # refused by 16: what is available does not reach, whatever is drawn
lodge-security 1 0 2
report
"""

STEP_UP = """\
open 3 300
model knots.model
lodge-cash 0 1000000000
lodge-cash 1 1000000000
lodge-cash 2 1000000000
trade 1 1 0 0 347 1001 63000
trade 1 2 1 1 351 777 61000
trade 1 3 2 0 333 35 68000
trade 2 1 3 1 412 1313 70000
trade 0 1 0 0 341 500 62000
report
step-up 7
report
step-up 101
step-up 4294967295
report
step-up 100
report
step-up 1
report
step-up 1
step-up 0
report
"""

AVERAGES = """\
open 2 300
lodge-cash 1 1000000000
trade 1 1 0 0 312 100 0
trade 1 2 2 0 312 100 0
averages 2 1 1
averages 4294967295 0 0
averages 0 0 1
averages 0 1 0
averages 0 10000000000000001 1
averages 0 1 10000000000000001
averages 1 18446744073709551615 18446744073709551615
show 1
averages 0 10000000000000000 10000000000000000
show 1
averages 0 1 1
show 1
averages 1 10000000000000000 1
show 1
averages 1 1 10000000000000000
averages 0 10000000000000000 10000000000000000
show 1
report
"""


def gross_levels():
    """One family's gross notional against an average of 1,000."""
    return text(
        "# gross notional against an average of 1,000: over 8, over 15, below 13, below 6 per cent",
        "open 2 300",
        "lodge-cash 1 100000000",
        "trade 1 1 0 0 312 80 0",
        "averages 0 10000000000000000 1000",
        "show 1            # 80: not over 8 per cent",
        "trade 1 2 1 1 312 1 0      # 81: level 1, charges 15 per cent",
        "trade 1 3 1 0 312 69 0     # 150: still 1",
        "trade 1 4 0 0 312 1 0      # 151: level 2, charges 20 per cent",
        "end 1 4                    # 150: stays 2",
        "end 1 3",
        "trade 1 3 1 0 312 49 0     # 81, then 130: level 1",
        "trade 1 5 1 0 312 21 0     # 151: level 2",
        "end 1 5                    # 130: stays 2",
        "end 1 2                    # 129: level 1",
        "end 1 3                    # 80: stays 1",
        "trade 1 6 0 1 312 1 0      # 81: stays 1",
        "trade 1 7 2 0 312 500 0    # the other family has no averages",
        "end 1 1                    # 1: level 0",
        "trade 1 8 0 0 312 59 0     # 60: level 0",
        "trade 1 9 0 0 312 21 0     # 81: level 1",
        "end 1 9                    # 60: stays 1",
        "end 1 6                    # 59: level 0",
        "averages 1 10000000000000000 1000   # 500 of the other family: level 2",
        "show 1",
        "averages 1 10000000000000000 3846   # 13.0005 per cent: stays 2",
        "show 1",
        "averages 1 10000000000000000 3847   # 12.997 per cent: level 1",
        "show 1",
        "averages 1 10000000000000000 3333   # 15.0015 per cent: level 2",
        "show 1",
        "averages 1 10000000000000000 8333   # from 2, 6.0002 per cent: level 1",
        "show 1",
        "averages 1 10000000000000000 8334   # below 6 per cent: level 0",
        "show 1",
        "averages 1 10000000000000000 6250   # 8 per cent exactly: level 0",
        "show 1",
        "averages 1 10000000000000000 6249",
        "show 1",
        "averages 1 10000000000000000 3333",
        "averages 1 10000000000000000 1000000   # from 2 to 0 at once",
        "report",
    )


def margin_levels():
    """One family's initial margin against an average: 1 lakh is 50,000 paise."""
    lines = [
        "# initial margin against an average of 50,000,000: 1 lakh counts one in a thousand",
        "open 3 300",
        "lodge-cash 1 100000000",
        "lodge-cash 2 100000000",
        "trade 2 1 1 0 312 100 0",
        "averages 0 50000000 10000000000000000",
    ]
    standing = 0
    for number, size in enumerate((80, 81, 150, 151, 150, 130, 129, 130, 151, 130, 129, 80, 81,
                                   60, 59, 60, 80, 81, 151, 60, 80, 151, 59, 80, 151, 129, 0)):
        side = PAY if size > standing else RECEIVE
        lines.append("trade 1 %d 0 %d 312 %d 0   # %d" % (
            100 + number, side, abs(size - standing), size))
        standing = size
    lines += [
        "report",
        "# the step-up counts in the margin that is measured",
        "trade 1 1 0 0 312 76 0",
        "step-up 5     # 79.8",
        "show 1",
        "step-up 6     # 80.56: level 1",
        "show 1",
        "step-up 100   # 152: level 2",
        "show 1",
        "step-up 72    # 130.72: stays 2",
        "show 1",
        "step-up 71    # 129.96: level 1",
        "show 1",
        "step-up 0     # 76: stays 1",
        "show 1",
        "end 1 1",
        "report",
        "# with it: a trade is refused for the charge that it would bring",
        "draw-cash 1 91850000",
        "draw-cash 1 3650000",
        "trade 1 1 0 0 312 81 0",
        "lodge-cash 1 150000",
        "trade 1 1 0 0 312 81 0",
        "lodge-cash 1 7500",
        "trade 1 1 0 0 312 81 0",
        "report",
    ]
    return text(*lines)


THRESHOLDS = """\
open 2 300
check 0 1 0 0 0 0 0                  # none given yet
check 1 1 0 0 0 0 0
check 0 9 1000001 0 0 0 0            # 25 before 26 before 27
check 0 9 1000000 0 0 0 0
check 2 9 1000001 0 0 0 0            # 22 before all
thresholds 2 1 1 1 1 1 1 1 1 1 1
thresholds 4294967295 0 0 0 0 0 0 0 0 0 0
thresholds 0 0 1 1 1 1 1 1 1 1 1
thresholds 0 1 1 1 1 0 1 1 1 1 1
thresholds 0 1 1 1 1 1 0 1 1 1 1
thresholds 0 1 1 1 1 1 1 1 1 1 0
thresholds 0 1000001 1 1 1 1 1 1 1 1 1
thresholds 0 1 1 1 1 1000001 1 1 1 1 1
thresholds 0 1000000 1000000 1000000 1000000 1000001 1 1 1 1 1
thresholds 0 1 1 1 1 1 1 1 1 1 1000001
thresholds 0 10 20 30 40 50 11 20 30 40 50
thresholds 0 10 20 30 40 50 10 20 31 40 50
thresholds 0 10 20 30 40 50 10 20 30 40 51
thresholds 0 10 20 30 40 50 50 40 30 20 10
check 0 1 0 0 0 0 0                  # all were refused
thresholds 0 10 20 30 40 50 10 20 30 40 50
check 0 1 0 0 0 0 0                  # calm marks at the triggers are fine
check 1 1 0 0 0 0 0
thresholds 1 1 1 1 1 1 1 1 1 1 1
check 1 1 0 0 0 0 0
thresholds 0 1000000 1000000 1000000 1000000 1000000 1000000 1000000 1000000 1000000 1000000
check 0 2 1000000 1000000 1000000 1000000 1000000     # not above
check 0 3 1000001 0 0 0 0
check 0 3 0 1000001 0 0 0
check 0 3 0 0 0 0 1000001
check 0 3 4294967295 0 0 0 0
thresholds 0 999999 999999 999999 999999 999999 1 1 1 1 1
check 0 3 1000000 1000000 0 0 0      # 2.5 per cent
report
"""

CHECKS = """\
open 3 300
model knots.model
lodge-cash 0 1000000000
lodge-cash 1 1000000000
lodge-cash 2 1000000000
trade 0 1 0 0 330 301 62000
trade 1 1 0 0 347 1001 63000
trade 1 2 2 1 351 777 68000
trade 2 1 3 1 412 1313 70000
thresholds 0 10000 10000 10000 10000 10000 5000 5000 5000 5000 5000
thresholds 1 10000 20000 30000 40000 50000 10000 20000 30000 40000 50000
report

# the slots of family 0
check 0 0 0 0 0 0 0
check 0 5 0 0 0 0 0
check 0 4294967295 0 0 0 0 0
check 0 1 90000 0 0 0 0              # one return above its trigger
check 0 1 13226 13226 0 0 0          # slot 1 is past
check 0 2 20000 10000 10000 10000 10000   # at the trigger is not above it
check 0 3 13226 13226 0 0 0          # 132.26 per cent: 17.5
report
check 0 2 99999 99999 0 0 0
check 0 3 99999 99999 0 0 0
check 0 4 10001 10001 0 0 0          # lower: the per cent in force stays
check 0 4 99999 99999 0 0 0
report

# family 1 has slots of its own; 2 and 3 are skipped
check 1 1 10001 0 0 0 50001          # 105 per cent: 2.5
report
check 1 4 15000 30000 45000 60000 75000   # 150 per cent exactly: 25
check 1 1 0 0 0 0 0
check 1 4 0 0 0 0 0
report

# a month leaves slots and per cents; new thresholds do too
month 301
check 0 4 99999 99999 0 0 0
thresholds 0 1 1 1 1 1 1 1 1 1 1
check 0 4 99999 99999 0 0 0
report
"""


def ratios():
    """Checks on a fresh day each: ratios at, above and below multiples of 5."""
    lines = []
    cases = (
        ("10000 10000 10000 10000 10000", "13500 13500 0 0 0", "135 exactly: 17.5"),
        ("10000 10000 10000 10000 10000", "13501 13500 0 0 0", "a little more: 20"),
        ("10000 10000 10000 10000 10000", "13499 13500 0 0 0", "135 again, from the second"),
        ("10000 10000 10000 10000 10000", "10500 10500 0 0 0", "105: 2.5"),
        ("10000 10000 10000 10000 10000", "10501 10001 0 0 0", "110: 5"),
        ("10000 10000 10000 10000 10000", "30000 10001 0 0 0", "300: 100"),
        ("10000 10000 10000 10000 10000", "29999 10001 0 0 0", "300: 100"),
        ("10000 10000 10000 10000 10000", "29500 10001 0 0 0", "295: 97.5"),
        ("10000 10000 10000 10000 10000", "30001 10001 0 0 0", "at most 100"),
        ("10000 10000 10000 10000 10000", "1000000 1000000 1000000 1000000 1000000", "at most 100"),
        ("1 1 1 1 1", "1000000 2 0 0 0", "at most 100"),
        ("1 1 1 1 1", "1 1 1 1 2", "one alone"),
        ("1 1 1 1 1", "0 0 0 2 2", "200: 50"),
        ("3 7 11 13 17", "4 8 12 14 18", "133.3 is the highest: 135"),
        ("3 7 11 13 17", "3 8 12 14 18", "8 over 7 is the highest: 115"),
        ("3 7 11 13 17", "0 0 0 14 18", "14 over 13: 110"),
        ("300000 700000 1000000 999999 1", "300000 700001 1000000 1000000 1", "a hair: 105"),
        ("20 20 20 20 20", "21 21 21 21 21", "105 exactly: 2.5"),
        ("40 40 40 40 40", "41 41 0 0 0", "102.5: 105"),
        ("10000 20000 30000 40000 50000", "10001 10001 10001 10001 50001", "105"),
        ("10000 20000 30000 40000 50000", "50000 20000 30000 40000 50000", "one alone, though far"),
        ("10000 20000 30000 40000 50000", "10000 20000 30000 40001 90000", "180: 40"),
    )
    for triggers, returns, what in cases:
        lines += ["open 1 300", "thresholds 1 %s 1 1 1 1 1" % triggers,
                  "check 1 2 %s    # %s" % (returns, what)]
    lines += ["# rises and what does not fall, in one day", "open 1 300",
              "thresholds 0 " + ten(10_000, 5_000),
              "check 0 1 11000 11000 0 0 0", "check 0 2 12000 12000 0 0 0",
              "check 0 3 11500 11500 0 0 0", "check 0 4 12001 12000 0 0 0"]
    return text(*lines)


# --- the close ---

def a_day(family, *checks):
    """Checks of one family in slots 1, 2 and on, each of five returns or of
    five times the same."""
    return ["check %d %d %s" % (family, slot, " ".join(map(str, (
        returns if isinstance(returns, tuple) else (returns,) * 5))))
        for slot, returns in enumerate(checks, 1)]


CLOSE_CALM = text(
    "# a calm day: four slots, every return below its calm mark",
    "open 3 300",
    "lodge-cash 0 10000000",
    "lodge-cash 1 20000000",
    "lodge-cash 2 20000000",
    "trade 0 1 0 0 312 100 0     # 5,000,000 in MIBOR",
    "trade 1 1 2 0 312 200 0     # 10,000,000 in MIFOR",
    "trade 2 1 1 0 312 100 0     # 5,000,000 in MIOIS",
    "trade 2 2 3 1 312 100 0     # and in modified MIFOR",
    "thresholds 0 " + ten(10_000, 6_000),
    "thresholds 1 12000 13000 14000 15000 16000 6000 7000 8000 9000 10000",
    "check 0 1 13500 13500 0 0 0      # 17.5 per cent",
    "check 1 2 18000 13001 0 0 0      # 25 per cent",
    "close                            # both stay",
    "report",
    *a_day(0, 0, 5_999, 1, (5_999, 0, 5_999, 0, 5_999)),
    *a_day(1, (5_999, 6_999, 7_999, 8_999, 9_999), 0, 5_999, (0, 0, 0, 0, 9_999)),
    "report                           # still in force, until the close",
    "close                            # both fall",
    "report",
    "close                            # 0 stays 0",
    *a_day(0, 0, 0, 0, 0),
    "close",
    "check 0 1 10500 10500 0 0 0      # and may rise again",
    "report",
    "open 1 0",
    "thresholds 1 " + ten(1, 1),
    "check 1 1 2 2 0 0 0              # 50 per cent",
    "close",
    *a_day(1, 0, 0, 0, 0),
    "close                            # 0 is below a mark of 1",
    "thresholds 0 " + ten(1_000_000, 1_000_000),
    *a_day(0, 999_999, 999_999, 999_999, 999_999),
    "close",
)


def close_slots_missing():
    """Days with a slot or more left out, each after a per cent of 25."""
    lines = ["# without a check in each of the four slots the per cent stays",
             "open 1 300", "thresholds 0 " + ten(10_000, 6_000),
             "check 0 4 15000 15000 0 0 0      # 25 per cent", "close"]
    for slots in ((), (1,), (4,), (1, 2, 3), (2, 3, 4), (1, 3, 4), (1, 2, 4), (3, 4)):
        lines.append("# slots: %s" % (" ".join(map(str, slots)) or "none"))
        lines += ["check 0 %d 0 0 0 0 0" % slot for slot in slots] + ["close"]
    lines += ["# two and two make four, but not on one day",
              "check 0 1 0 0 0 0 0", "check 0 2 0 0 0 0 0", "close",
              "check 0 3 0 0 0 0 0", "check 0 4 0 0 0 0 0", "close",
              "# the fourth is refused; refused ones count neither way",
              *a_day(0, 0, 0, 0),
              "check 0 4 1000001 0 0 0 0", "check 0 3 9999 9999 0 0 0",
              "check 0 5 0 0 0 0 0", "check 2 4 0 0 0 0 0", "close",
              *a_day(0, 0, 0, 0),
              "check 0 4 1000001 0 0 0 0", "check 0 3 9999 9999 0 0 0",
              "check 0 4 0 0 0 0 0", "check 0 4 9999 9999 0 0 0", "close   # all four: it falls"]
    return text(*lines)


def close_at_mark():
    """Each return of each slot at its calm mark in turn: at it is not below it."""
    marks = (6_000, 6_500, 7_000, 7_500, 8_000)
    lines = ["# one return of twenty at its calm mark: the per cent stays",
             "open 1 300",
             "thresholds 1 10000 10000 10000 10000 10000 " + " ".join(map(str, marks)),
             "check 1 1 11000 11000 0 0 0      # 5 per cent", "close"]
    below = tuple(mark - 1 for mark in marks)
    for slot in range(4):
        for at in range(5):
            checks = [below] * 4
            checks[slot] = below[:at] + (marks[at],) + below[at + 1:]
            lines += a_day(1, *checks) + ["close"]
    lines += ["# above a mark, though below every trigger",
              *a_day(1, 0, 0, 9_999, 0), "close",
              "# one return above its trigger: no rise, but not calm",
              *a_day(1, 0, 0, 0, (0, 90_000, 0, 0, 0)), "close",
              "# a smaller rise than is in force",
              *a_day(1, (10_001, 10_001, 0, 0, 0), 0, 0, 0), "close",
              "# all of them below", *a_day(1, *[below] * 4), "close"]
    return text(*lines)


CLOSE_THRESHOLDS = text(
    "# each check is judged by the calm marks that stand at that time",
    "open 1 300",
    "thresholds 0 " + ten(10_000, 6_000),
    "check 0 1 15000 15000 0 0 0      # 25 per cent",
    "close",
    "# 7,000 was not calm, and higher marks do not make it so afterwards",
    *a_day(0, 0, 7_000),
    "thresholds 0 " + ten(10_000, 8_000),
    "check 0 3 7000 7000 7000 7000 7000",
    "check 0 4 7000 7000 7000 7000 7000",
    "close",
    "# 7,000 was calm, and stays so under lower marks",
    *a_day(0, 7_000, 7_999),
    "thresholds 0 " + ten(10_000, 6_000),
    "check 0 3 5999 5999 5999 5999 5999",
    "thresholds 0 " + ten(4_000, 3_000),
    "check 0 4 2999 2999 2999 2999 2999",
    "thresholds 0 " + ten(1, 1),
    "close                            # it falls",
    "# a fall of the marks in the middle of a day",
    "thresholds 0 " + ten(10_000, 6_000),
    "check 0 1 15000 15000 0 0 0",
    "close",
    *a_day(0, 5_999, 5_999),
    "thresholds 0 " + ten(10_000, 5_000),
    "check 0 3 5999 5999 5999 5999 5999",
    "check 0 4 0 0 0 0 0",
    "close                            # it stays",
    "# refused thresholds, and those of the other family, change no mark",
    *a_day(0, 4_999, 4_999),
    "thresholds 0 " + ten(10_000, 10_001),
    "thresholds 2 " + ten(10_000, 1),
    "thresholds 1 " + ten(10_000, 1),
    "check 0 3 4999 4999 4999 4999 4999",
    "check 0 4 4999 4999 4999 4999 4999",
    "close                            # it falls",
)

CLOSE_FAMILIES = text(
    "# each family by itself",
    "open 2 300",
    "lodge-cash 1 100000000",
    "trade 1 1 0 0 312 100 0          # 5,000,000 in family 0",
    "trade 1 2 2 1 312 300 0          # 15,000,000 in family 1",
    "thresholds 0 " + ten(10_000, 6_000),
    "thresholds 1 " + ten(20_000, 9_000),
    "check 0 1 15000 15000 0 0 0      # 25 per cent",
    "check 1 1 24000 24000 0 0 0      # 10 per cent",
    "close",
    "show 1",
    "# family 0 falls, family 1 was not checked",
    *a_day(0, 0, 0, 0, 0),
    "close",
    "show 1",
    "# family 1 falls; what was calm there would not have been in family 0",
    "check 0 1 15000 15000 0 0 0",
    *a_day(1, 8_999, 8_999, 8_999, 8_999),
    "close",
    "show 1",
    "# turn by turn: family 0 falls, family 1 has one return at its mark",
    "check 1 1 24000 24000 0 0 0",
    "close",
    "check 0 1 0 0 0 0 0",
    "check 1 1 0 0 0 0 0",
    "check 1 2 0 0 9000 0 0",
    "check 0 2 0 0 0 0 0",
    "check 0 3 0 0 5999 0 0",
    "check 1 3 0 0 0 0 0",
    "check 1 4 0 0 0 0 0",
    "check 0 4 0 0 0 0 0",
    "close",
    "show 1",
    "# four slots between them are not four of each",
    "check 0 1 15000 15000 0 0 0",
    "close",
    "check 0 1 0 0 0 0 0",
    "check 1 2 0 0 0 0 0",
    "check 0 3 0 0 0 0 0",
    "check 1 4 0 0 0 0 0",
    "close",
    "show 1",
    "# family 0 rises on the day on which family 1 falls",
    "check 0 2 19000 19000 0 0 0",
    *a_day(1, 0, 0, 0, 0),
    "close",
    "report",
)

CLOSE_ANEW = text(
    "# slots begin anew after a close, whatever the day was like",
    "open 1 300",
    "close                            # nothing checked, no thresholds",
    "close",
    "thresholds 0 " + ten(10_000, 6_000),
    "thresholds 1 " + ten(10_000, 6_000),
    "close                            # nothing checked",
    "check 0 4 15000 15000 0 0 0      # 25 per cent",
    "check 1 3 12000 12000 0 0 0      # 10 per cent",
    "check 0 1 0 0 0 0 0              # past",
    "check 1 3 0 0 0 0 0",
    "close                            # not calm",
    "check 0 1 0 0 0 0 0              # slot 1 again",
    "check 1 1 0 0 0 0 0",
    "check 0 1 0 0 0 0 0",
    "close                            # one slot",
    "# the unrest of days before counts no more",
    *a_day(0, 0, 0, 0, 0),
    *a_day(1, 0, 0, 0, 0),
    "check 0 4 0 0 0 0 0",
    "close                            # both fall",
    "check 0 5 0 0 0 0 0",
    "check 0 0 0 0 0 0 0",
    *a_day(0, (15_000, 15_000, 0, 0, 0), 0, 0, 0),
    "close                            # four slots, but not calm",
    "# the calm of days before counts no more",
    "check 0 2 0 0 0 0 0",
    "check 0 1 0 0 0 0 0",
    "check 0 3 0 0 0 0 0",
    "check 0 4 0 0 0 0 0",
    "close",
    "close                            # nothing checked since the last one",
    *a_day(0, 0, 0, 0, 0),
    "close                            # it falls",
)

CLOSE_RELEASES = text(
    "# the volatility margin falls with the per cent, and restrictions go with it",
    "open 4 300",
    "lodge-cash 0 1000000",
    "lodge-cash 1 12000000",
    "lodge-cash 2 20000000",
    "lodge-cash 3 20000000",
    "trade 0 1 0 0 312 16 0           # 800,000 of 1,000,000: free",
    "trade 1 1 2 0 312 200 0          # 10,000,000 of 12,000,000: free",
    "trade 2 1 0 0 312 370 0          # 18,500,000 of 20,000,000: over 90 per cent, not over 95",
    "trade 3 1 0 0 312 300 0          # 15,000,000 of 20,000,000",
    "thresholds 1 " + ten(10_000, 6_000),
    "report",
    "check 1 1 15000 15000 0 0 0      # 25 per cent: client 1 owes 12,500,000 and is short",
    "report                           # the house answers for it; client 2 is restricted with the house",
    "trade 2 2 1 0 312 1 0            # refused",
    "close                            # not calm: all stays",
    "report",
    *a_day(1, 0, 0, 0, 0),
    "report",
    "trade 2 2 1 0 312 1 0            # still refused",
    "close                            # client 1 owes 10,000,000 again: the house is free, and client 2",
    "report",
    "trade 2 2 1 0 312 1 0            # accepted",
    "draw-cash 0 160000               # 800,000 of 840,000: the house is restricted by itself",
    "report",
    "# from above 95 to between 90 and 95 per cent: the own flag stays",
    "open 2 300",
    "lodge-cash 1 11000000",
    "trade 1 1 3 0 312 200 0          # 10,000,000 of 11,000,000",
    "thresholds 1 " + ten(10_000, 6_000),
    "check 1 1 11000 11000 0 0 0      # 5 per cent: 10,500,000 is over 95 per cent",
    "show 1",
    "close",
    *a_day(1, 0, 0, 0, 0),
    "close",
    "show 1",
    "lodge-cash 1 111112              # now below 90",
    "# a close settles every account, with the model in use",
    "open 3 300",
    "model knots.model",
    "lodge-cash 0 1000000000",
    "lodge-cash 1 1000000000",
    "lodge-cash 2 1000000000",
    "trade 0 1 0 0 330 301 62000",
    "trade 1 1 0 0 347 1001 63000",
    "trade 2 1 2 1 351 777 68000",
    "report",
    "model table.model",
    "report",
    "close",
    "report",
)

CLOSE_MONTHS = text(
    "# a month and all other calls leave the slots of the day",
    "open 2 300",
    "lodge-cash 1 100000000",
    "trade 1 1 0 0 312 100 0",
    "trade 1 2 0 0 301 100 0",
    "price 0 9850 4 1",
    "thresholds 0 " + ten(10_000, 6_000),
    "thresholds 1 " + ten(10_000, 6_000),
    "check 0 1 15000 15000 0 0 0      # 25 per cent",
    "check 1 1 11000 11000 0 0 0      # 5 per cent",
    "month 301",
    "close",
    "show 1",
    "check 0 1 0 0 0 0 0",
    "check 1 1 0 0 0 0 0",
    "month 302",
    "check 0 1 0 0 0 0 0              # past, in the new month too",
    "check 0 2 0 0 0 0 0",
    "check 1 2 6000 0 0 0 0           # not calm",
    "month 303",
    "month 304",
    "check 1 3 0 0 0 0 0",
    "check 1 4 0 0 0 0 0",
    "check 0 3 0 0 0 0 0",
    "month 304                        # refused",
    "check 0 4 0 0 0 0 0",
    "month 305",
    "close                            # family 0 falls, family 1 stays",
    "show 1",
    *a_day(1, 0, 0),
    "set 0",
    "price 0 9800 4 1",
    "step-up 3",
    "averages 1 1000000000 1000",
    "lodge-security 1 0 5",
    "end 1 1",
    "show 1",
    "model knots.model",
    "show 0",
    "check 1 3 0 0 0 0 0",
    "check 1 4 0 0 0 0 0",
    "open 33 300                      # refused",
    "close                            # family 1 falls",
    "# an opening begins a new day",
    "check 1 1 15000 15000 0 0 0",
    "close",
    *a_day(1, 0, 0),
    "open 2 300",
    "thresholds 1 " + ten(10_000, 6_000),
    "check 1 1 15000 15000 0 0 0      # slot 1 again",
    "check 1 2 0 0 0 0 0",
    "close",
    "report",
)

CLOSE_ERRORS = """\
# close stands alone
close                       # before the first opening
open 2 300
close 1
close 0
close x
close -1
close 99999999999999999999
close close
Close
CLOSE
clos
closed
close-1
close#1
close # 1
  \tclose\t
thresholds 0 10000 10000 10000 10000 10000 5000 5000 5000 5000 5000
check 0 1 15000 15000 0 0 0
close
check 0 1 0 0 0 0 0
check 0 2 0 0 0 0 0
check 0 3 0 0 0 0 0
close 1                     # changes nothing: slots 1 to 3 stay checked
check 0 3 0 0 0 0 0
check 0 4 0 0 0 0 0
close 0
close
"""


def months():
    lines = ["open 4 300"]
    lines += ["lodge-cash %d 1000000000" % account for account in range(4)]
    first = {0: (300, 302, 301), 1: (301, 301, 305, 305), 2: (305, 300, 305, 301, 302, 420),
             3: (300, 300, 300)}
    for account, maturities in first.items():
        for number, maturity in enumerate(maturities):
            lines.append("trade %d %d %d %d %d %d %d" % (
                account, number, (account + number) % 4, number % 2, maturity,
                10 + number, 60_000 + number))
    lines += ["report",
              "month 300", "month 299", "month 0", "month 1200", "month 65535", "report",
              "model knots.model", "show 2",
              "month 301     # goes: the first, one in the middle, all of account 3",
              "report",
              "trade 3 0 0 0 300 5 0", "trade 3 0 0 0 421 5 0", "trade 3 0 0 0 301 5 0",
              "trade 3 1 0 0 421 5 0",
              "end 2 1", "end 2 0", "trade 2 1 1 1 400 10 60000",
              "month 302", "report",
              "end 2 3", "end 2 4", "report",
              "trade 2 4 0 0 422 9 60000",
              "month 303", "month 304", "month 306     # goes: all of account 1 and 0", "report",
              "end 2 5", "end 2 1", "show 2",
              "month 1198", "report", "trade 1 1 0 0 1318 9 60000", "trade 1 2 0 0 1319 9 60000",
              "month 1199", "trade 1 2 0 0 1319 9 60000", "trade 1 3 0 0 1320 9 60000",
              "month 1199", "month 1200", "report"]
    return text(*lines)


def full_account():
    """The 65th trade; trades end in front, in the middle and last."""
    lines = ["open 3 300", "model knots.model",
             "lodge-cash 1 10000000000", "lodge-cash 0 10000000000"]
    for number in range(64):
        lines.append("trade 1 %d %d %d %d %d %d" % (
            number, number % 4, (number // 4) % 2, 300 + (number * 7) % 121,
            20 + number, 58_000 + 211 * number))
    lines += ["trade 1 64 0 0 312 1 0", "trade 1 63 0 0 312 1 0", "trade 1 64 0 0 421 1 0",
              "trade 0 64 0 0 312 1 0",
              "end 1 0", "end 1 31", "end 1 63", "end 1 63", "report",
              "trade 1 64 0 0 312 1 0", "trade 1 0 0 0 312 1 0", "trade 1 65 1 1 420 1 0",
              "trade 1 66 0 0 312 1 0", "set 1", "report",
              "month 330", "report", "month 360", "report", "month 420", "report",
              "month 421", "report"]
    return text(*lines)


SECOND_FLAGS = """\
# while the house is restricted: set above 90 per cent, clear below 70, else as it was
open 4 300
lodge-cash 1 100000000
lodge-cash 2 100000000
lodge-cash 3 100000000
trade 1 1 0 0 300 1850 0
trade 2 1 0 0 300 1600 0
trade 3 1 0 0 300 1960 0
report
lodge-cash 0 1000000
trade 0 1 0 0 300 20 0       # the house is restricted: client 1 and 3 with it
report
trade 1 2 1 0 300 1 0
trade 2 2 1 0 300 10 0
trade 3 2 0 1 300 100 0
lodge-cash 1 20000000
report
lodge-cash 1 20000000        # below 70 per cent: the second flag clears
report
lodge-cash 0 1000000         # the house is free and all with it
report
draw-cash 0 1000001
draw-cash 0 950000           # restricted again
report
draw-cash 1 10000000
draw-cash 1 30000000
report

# prices, step-up and checks do it as well
open 3 300
price 0 10000 0 1
lodge-security 0 0 1
lodge-cash 1 100000000
lodge-cash 2 100000000
trade 0 1 0 0 300 15 0
trade 1 1 2 0 300 1700 0
trade 2 1 2 0 300 1300 0
report
price 0 7800 0 1             # 96.2 per cent: restricted, but nobody over 90
report
step-up 6
report
step-up 0
report
price 0 8333 0 1             # 90.004 per cent: stays restricted
report
price 0 8334 0 1             # 89.99 per cent: free
report
price 0 7894 0 1             # 95.01 per cent
price 0 7896 0 1             # 94.99 per cent
report
thresholds 1 10 10 10 10 10 5 5 5 5 5
check 1 1 12 12 0 0 0        # 10 per cent: client 1 stands at 93.5
report
check 1 4 15 15 0 0 0        # 25 per cent: client 1 is short
report
end 1 1
end 0 1
report

# a client's shortfall restricts the house, and the house the others
open 3 300
lodge-cash 0 10000000
lodge-cash 1 10000000
lodge-cash 2 10000000
price 5 1000 0 1
lodge-security 1 5 900
trade 1 1 0 0 300 1900 0
trade 2 1 0 0 300 184 0
report
price 5 1 0 1
report
trade 2 2 1 0 300 1 0
trade 2 2 0 1 300 1 0
trade 1 2 0 1 300 1500 0     # short still, but lower
trade 1 3 0 1 300 380 0
report
"""

FLAGS_EXACT = """\
# the own flag: 95 per cent is not above 95, 90 is not below 90
open 3 300
lodge-cash 1 100000000
trade 1 1 0 0 300 1900 0
draw-cash 1 1
lodge-cash 1 1
lodge-cash 1 5555555
lodge-cash 1 1               # 89.9999996 per cent
draw-cash 1 1
trade 1 2 0 0 300 106 0
draw-cash 1 5000000
# the second flag: 90 per cent is not above 90, 70 is not below 70
open 3 300
lodge-cash 0 50000
lodge-cash 1 100000000
lodge-cash 2 100000000
trade 1 1 0 0 300 1800 0
trade 2 1 0 0 300 1801 0
trade 0 1 0 0 300 1 0
report
draw-cash 1 1                # above 90 now
trade 1 2 0 1 300 1 0
trade 2 2 0 1 300 401 0      # 70 per cent
report
trade 2 3 0 1 300 1 0
report
trade 2 4 0 0 300 1 0        # 70 again, and free
trade 2 5 0 0 300 400 0      # 90
trade 2 6 0 0 300 1 0        # above
report
end 2 1
end 2 4
end 2 5
end 2 6
report
# nothing available and nothing owed: the flags clear, though the house stays restricted
open 3 300
price 0 10000 0 1
lodge-security 1 0 10
lodge-cash 0 50000
trade 0 1 0 0 300 1 0
trade 1 1 0 0 300 100 0
price 0 10000 0 0
report
end 1 1
report
# the house at exactly 95 and 90 per cent
open 2 300
lodge-cash 0 10000000
lodge-cash 1 1000000
trade 1 1 3 1 300 19 0       # 95 per cent
trade 0 1 1 0 300 190 0      # 95 per cent
report
draw-cash 0 1
report
lodge-cash 0 555556
report
lodge-cash 0 1
report
"""

SETS = """\
open 3 300
set 0
set 1                   # the zero model has one set
lodge-cash 1 1000000000
lodge-cash 2 1000000000
trade 1 1 0 0 336 1000 60000
trade 2 1 3 1 396 1000 60000
report
model sets8.model
set 8
set 4294967295
report                  # nothing settled yet
set 0
report
set 7
report
set 8
set 3
report
set 3
report
set 7
model knots.model       # two sets: set 7 counts 0
show 1
report
show 2
set 2
report
step-up 3               # no rates, but minimum and step-up
report
set 1
report
model sets8.model
set 7
model table.model
month 301
report
set 0
report
"""

MODELS_USED = """\
# an account call settles the named account and the house, a market call all
open 4 300
model knots.model
lodge-cash 0 500000000
lodge-cash 1 500000000
lodge-cash 2 500000000
lodge-cash 3 500000000
trade 0 1 1 0 345 300 61000
trade 1 1 0 0 347 1001 63000
trade 2 1 2 1 351 777 68000
trade 3 1 3 1 412 1013 70000
trade 3 2 3 0 400 900 70000
trade 3 3 0 1 323 250 60000
report
model table.model
report
show 1
report
show 0
report
price 9 100 0 0
report
model joined.model
show 3
report
set 1
report
set 2
model mixed.model
show 2
report
step-up 0
report
set 0
report
model tail1000.model
month 301
report
model no_such_file.model
show 1
model r34.model
show 1
model n_word.model
show 1
model r33_huge.model
show 1
report
"""


def knot_values():
    """Residuals on knots and between them, in all four benchmarks."""
    lines = ["open 2 300", "lodge-cash 1 100000000000", "model steps.model"]
    number = 0
    for benchmark in range(4):
        for residual in (0, 1, 2, 3, 4, 5, 6, 7, 8, 9, 10, 11, 12, 13, 17, 23, 24, 25, 35, 36, 37,
                         47, 48, 59, 60, 61, 83, 84, 85, 119, 120):
            for side in (PAY, RECEIVE):
                lines += ["trade 1 %d %d %d %d 1000 0" % (number, benchmark, side, 300 + residual),
                          "end 1 %d" % number]
                number += 1
    lines += ["# many at once, then months that let them slide along the knots"]
    for at, residual in enumerate((120, 95, 84, 61, 60, 50, 48, 30, 24, 14, 12, 10, 9, 8, 7, 6,
                                   5, 4, 3, 2, 1, 0)):
        lines.append("trade 1 %d %d %d %d %d %d" % (
            at, at % 4, (at // 3) % 2, 300 + residual, 100 + at, 55_000 + 1_000 * at))
    lines += ["month %d" % month + "\nshow 1" for month in (301, 302, 305, 306, 307, 308, 320, 360, 400)]
    return text(*lines)


SPREAD = """\
# losses by turns: a half-year bucket loses more than its residuals one by one
open 2 300
lodge-cash 1 100000000
model spread.model
trade 1 1 0 0 301 1 0
trade 1 2 0 0 303 1 0
trade 1 3 0 0 306 1 0     # X 500,000, Z 1,500,000, Y 500,000: spread 100,000
trade 1 4 0 1 304 1 0
trade 1 5 2 0 306 7 0
report
# MIOIS: all together lose more than the half-years one by one
trade 1 21 1 0 308 2 0    # 100 in one scenario: no loss that two reach
trade 1 22 1 0 302 2 0    # X and Z 600,000, Y 2,000,000: no spread
trade 1 23 1 1 304 2 0    # offsets within the half-year: X 600,000, Z 0, Y 2,000,000
report
end 1 21
end 1 22
end 1 23
model knots.model
show 1
trade 1 6 0 1 300 50 60000
trade 1 7 0 0 305 50 60000
trade 1 8 0 1 311 70 60000
trade 1 9 0 0 312 70 60000
trade 1 10 0 1 413 3 60000
trade 1 11 0 0 414 3 60000
trade 1 12 0 1 420 3 60000
model table.model
show 1
set 0
report
"""

TAIL = """\
# the k-th highest loss: k is 1 up to 199 scenarios, 2 from 200, 10 at 1,000
open 2 300
lodge-cash 1 10000000000
model tail199.model
trade 1 1 0 0 312 1000 0
model tail200.model
show 1
model tail1000.model
show 1
trade 1 2 0 1 330 1001 0
model tail199.model
show 1
end 1 1
model tail200.model
show 1
"""

MARKS = """\
# marks: rounded down for each trade, credit for each benchmark, no offset between them
open 3 300
lodge-cash 0 1000000000
lodge-cash 1 1000000000
lodge-cash 2 1000000000
model knots.model
trade 1 1 0 0 347 101 0
trade 1 2 0 1 347 100 0
trade 1 3 1 0 331 100 200000
trade 1 4 2 1 331 33 200000
trade 1 5 3 1 333 33 0
report
trade 2 1 0 0 305 1 60213
trade 2 2 0 1 305 1 60213
trade 2 3 0 0 305 1 60212
trade 2 4 0 1 305 1 60214
trade 0 1 2 1 383 1000 68123
trade 0 2 2 0 382 999 68127
trade 0 3 3 0 382 999 72127
report
model table.model
step-up 0
report
month 309
report
"""


def widest_figures():
    """32 full accounts at the limits of a model."""
    lines = ["open 32 300"]
    for account in range(32):
        lines.append("lodge-cash %d 100000000000000" % account)
        for number in range(64):
            lines.append("trade %d %d %d 0 420 1000000 %d" % (
                account, number, account % 4, 200_000 if account % 3 else 0))
    lines += ["report",
              "thresholds 0 1 1 1 1 1 1 1 1 1 1", "thresholds 1 1 1 1 1 1 1 1 1 1 1",
              "averages 0 1 1", "averages 1 1 1",
              "check 0 1 9 9 9 9 9", "check 1 1 9 9 9 9 9", "step-up 100", "report",
              "model lowest.model", "show 1", "show 0", "set 0", "report",
              "model highest.model", "show 1", "show 3", "set 0", "report",
              "price 0 30000 0 1", "lodge-security 1 0 1000000", "report",
              "end 0 5", "end 7 5", "month 420", "report", "month 421", "report"]
    return text(*lines)


def many_clients():
    """32 accounts, each with a little of everything; all settle together."""
    lines = ["open 32 300", "model joined.model", "price 0 9850 4 1", "price 1 10150 3 1"]
    for account in range(32):
        lines.append("lodge-cash %d %d" % (account, 60_000_000 + 7_000_000 * account))
        lines.append("lodge-security %d %d %d" % (account, account % 3, 40 + account))
        for number in range(3):
            lines.append("trade %d %d %d %d %d %d %d" % (
                account, number, (account + number) % 4, (account + number // 2) % 2,
                301 + (account * 11 + number * 37) % 120, 60 + account * 5,
                60_000 + 300 * account))
    lines += ["report", "averages 0 1800000000 3000", "averages 1 1500000000 2500", "report",
              "set 1", "report",
              "thresholds 1 " + ten(10_000, 6_000), "check 1 2 17000 16000 0 0 0", "report",
              "price 0 8000 20 1", "report", "price 1 10150 3 0", "report",
              "step-up 25", "report", "model mixed.model", "show 5", "show 6", "report",
              "set 0", "report", "month 340", "report", "month 400", "report"]
    return text(*lines)


REFUSED_LEAVE = """\
# each refused call leaves all as it was: the report before and after
open 3 300
model knots.model
price 0 9850 4 1
averages 0 900000000 9000
thresholds 0 10000 10000 10000 10000 10000 5000 5000 5000 5000 5000
check 0 2 12000 12000 0 0 0
lodge-cash 0 60000000
lodge-cash 1 150000000
lodge-security 1 0 20
lodge-cash 2 90000000
trade 0 1 0 0 330 300 62000
trade 1 1 0 0 347 1001 63000
trade 2 1 2 1 351 377 68000
report
model table.model            # another model, so that settling would show
trade 1 1 0 0 347 10 63000
trade 1 2 0 0 347 1000000 63000
trade 1 2 0 0 299 1 63000
end 1 2
lodge-cash 1 0
lodge-cash 1 100000000000000
draw-cash 1 150000001
draw-cash 1 150000000
lodge-security 1 32 1
lodge-security 1 0 1000000
draw-security 1 0 21
draw-security 1 1 1
show 3
report
set 1
price 0 0 4 1
price 32 1 4 1
step-up 101
averages 0 0 1
averages 2 1 1
thresholds 0 1 1 1 1 1 2 1 1 1 1
check 0 2 99999 99999 0 0 0
check 0 5 99999 99999 0 0 0
check 1 3 99999 99999 0 0 0
check 0 3 1000001 99999 0 0 0
month 300
month 1200
open 33 300
open 3 1200
model r31_no_set.model
model r33_huge.model
nothing
show
report
show 1
check 0 3 12001 12001 0 0 0
report
"""


def model_refusals():
    names = [name for name, _ in models()]
    lines = ["# every model file in turn; a refused one leaves the one in use",
             "open 2 300", "lodge-cash 1 1000000000", "model knots.model",
             "trade 1 1 0 0 345 1000 62000"]
    for name in names:
        if name[0] in "rn" and name[1] in "_3":
            lines += ["model " + name]
            if name.endswith("e.model"):
                lines.append("show 1")
    lines += ["show 1", "set 1", "set 2"]
    for name in names:
        if not (name[0] in "rn" and name[1] in "_3"):
            lines += ["model " + name, "show 1", "set 0"]
    lines += ["report"]
    return text(*lines)


def scripts():
    return {
        "account_refusals": ACCOUNT_REFUSALS,
        "averages": AVERAGES,
        "checks": CHECKS,
        "check_ratios": ratios(),
        "close_anew": CLOSE_ANEW,
        "close_at_mark": close_at_mark(),
        "close_calm": CLOSE_CALM,
        "close_errors": CLOSE_ERRORS,
        "close_families": CLOSE_FAMILIES,
        "close_months": CLOSE_MONTHS,
        "close_releases": CLOSE_RELEASES,
        "close_slots_missing": close_slots_missing(),
        "close_thresholds": CLOSE_THRESHOLDS,
        "empty": "",
        "error_order": ERROR_ORDER,
        "field_errors": field_errors(),
        "flags_exact": FLAGS_EXACT,
        "full_account": full_account(),
        "knot_values": knot_values(),
        "levels_gross": gross_levels(),
        "levels_margin": margin_levels(),
        "lines": LINES,
        "many_clients": many_clients(),
        "marks": MARKS,
        "model_refusals": model_refusals(),
        "models_used": MODELS_USED,
        "months": months(),
        "never_opened": NEVER_OPENED,
        "only_comments": "# nothing\n\n   # here\n",
        "openings": OPENINGS,
        "prices": PRICES,
        "refused_leave": REFUSED_LEAVE,
        "restricted": RESTRICTED,
        "second_flags": SECOND_FLAGS,
        "sets": SETS,
        "spread": SPREAD,
        "step_up": STEP_UP,
        "tail": TAIL,
        "thresholds": THRESHOLDS,
        "widest_fields": widest_fields(),
        "widest_figures": widest_figures(),
        "worked": WORKED,
    }
