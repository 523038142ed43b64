"""The script of a sample day and the quiet day after it, and its two model files."""

import random

from model_files import joined_text, market_knots

DAY = """\
# A day at a clearing member: the house (account 0) and two clients (1 and 2).
# Money in paise (100 paise = Re 1), notional in lakh (1 lakh = Rs 100,000),
# rates in 0.0001 per cent, months counted from January 2000 as 0.

# --- before the market opens ---
open 3 311                      # December 2025
model morning.model             # 16 scenarios of history joined with 4 of stress, in 2 sets
price 0 9850 4 1                # a government bond at Rs 98.50, haircut 4 per cent
price 1 9935 2 1                # a treasury bill at Rs 99.35
price 2 10120 10 0              # a bond that is not listed: it counts nothing
averages 0 20000000000 150000   # MIBOR and MIOIS: margin Rs 20 crore, gross Rs 1,500 crore
averages 1 25000000000 120000   # MIFOR and modified MIFOR
thresholds 0 10000 10000 12000 12000 15000  6000 6000 7000 7000 9000
thresholds 1 11000 11000 13000 13000 16000  6500 6500 7500 7500 9500

# --- collateral ---
lodge-cash 0 50000000           # the house: Rs 5 lakh in cash
lodge-security 0 0 150          # and bonds of Rs 15 lakh face value
lodge-cash 1 900000000          # client 1: Rs 90 lakh
lodge-security 1 1 400          # and treasury bills
lodge-security 1 2 500          # not listed: what is available stays
lodge-cash 2 600000000          # client 2: Rs 60 lakh
report

# --- trades ---
trade 1 101 0 0 371 8000 63000  # client 1 pays 6.3 per cent for five years on Rs 80 crore
trade 1 102 0 1 347 4000 62000  # and receives for three years, which offsets part of it
trade 1 103 1 0 323 1000 60500  # gross 13,000 is over 8 per cent of the average: level 1 charges 15 per cent
end 1 103                       # back to 12,000: not below 6 per cent, so level 1 and its charge stay
trade 2 201 2 1 335 6000 67300  # client 2 receives MIFOR for two years
trade 2 202 3 0 311 500 69500   # a swap that matures this month
trade 2 203 2 1 431 9000 68000  # too large for its collateral: refused
trade 0 1 1 0 323 3000 60500    # the house pays MIOIS for a year
trade 0 2 1 1 312 1000 60000    # and receives on one that matures next month
draw-cash 1 540000000           # client 1 takes back most of what it can spare
report

# --- the forward market moves ---
check 0 1 4000 5200 3900 4100 5000      # MIBOR is calm
check 1 1 12100 9000 8000 7000 6000     # one return above its trigger does nothing
check 1 2 14400 13100 9000 8000 7000    # two of them; 14,400 is 130.9 per cent of 11,000: 17.5 per cent
show 2                                  # with the volatility margin
check 1 3 11500 11400 9000 8000 7000    # a smaller ratio does not bring the per cent down
model evening.model                     # MIFOR rates have risen by a quarter per cent
show 2                                  # client 2 is short
report                                  # the house answers for it and is restricted; so client 1 is as well
trade 1 104 1 0 323 500 60500           # refused: client 1 may only lower its obligation
trade 1 105 0 1 359 1500 62500          # this one lowers it
lodge-cash 2 350000000                  # client 2 pays in; nothing is left to cover
report                                  # the house is free, and client 1 with it
trade 1 104 1 0 323 500 60500           # now it is accepted
lodge-cash 1 500000000                  # client 1 makes room for the days to come

# --- after the market ---
set 1                           # what would the stressed set ask for?
report
set 0                           # back to the set of the day: client 2 and the house are free again
step-up 5                       # the member asks 5 per cent more of everyone
report
close                           # MIFOR was not calm: 17.5 per cent stays; a new day begins

# --- the next day, a quiet one ---
month 312                       # January 2026: trade 202 has matured; the house's trade 2 stays this month
report
check 0 1 3100 2900 4000 3800 4400      # slot 1 again
check 1 1 5200 4100 6000 5300 7100      # every return below its calm mark
check 1 2 4700 6100 5900 6600 8800
check 0 3 3300 3500 3600 3900 4100      # MIBOR leaves out slot 2
check 1 3 3900 5000 4400 7400 9400
check 1 4 2500 3100 4900 5000 6200
close                                   # four calm slots in MIFOR: its per cent falls to 0
report
"""

RISE = (150, 150, 2_500, 2_300)         # evening rates over the morning's


def models():
    for name, shifts in (("morning.model", (0,) * 4), ("evening.model", RISE)):
        source = random.Random(311)     # the same shocks in both
        yield name, joined_text(market_knots(source, (1_600, 2_400), 16, shifts),
                                market_knots(source, (2_600, 3_900), 4, shifts))


def script():
    return DAY
