#!/usr/bin/env python3
"""Make the tables of docs/PLANTED.md that come from the must-fail edits.

    planted.py LOG..          writes them into docs/PLANTED.md
    planted.py --print LOG..  prints them, and changes nothing

A LOG is what `rt must-fail [NAME..]` or `rt ci` said, kept in a file; of several the later ones win, line by line:

    rt must-fail > edits.log 2>&1; python3 tools/planted.py edits.log

rt says one line for each edit, and keeps no other log of it:

    rt: must-fail CRATE/NAME.edit: refused, as it must be: note: src/x.rt:86:1: it is not proved that .. (`..`); ..

Of that line come the function in which the first fact failed, and the clause. rt cuts the line after 160 signs of the reason, so a
clause may be missing: then the words that are there stand in its place. An edit that no LOG tells of keeps what docs/PLANTED.md
says of it; a new one says "not run here".

From crates/CRATE/must-fail/NAME.edit come the edit (its name in words, then what stands for what) and its place (the function
around the changed line, found upward in the file). The rule that it breaks comes from PLACES and EDITS below: by the edit, else by
the function, else by what the function's name begins with; an edit of specs/ or proofs/ breaks `laws`. An edit that none of them names
is listed at the end of the run, with "?" for its rule: add a line.
RULES has each rule of docs/RULES.md and the other pages, in their order; the table of coverage shows for each the edits that break it.

In docs/PLANTED.md the tables stand between the lines `<!-- NAME: begin -->` and `<!-- NAME: end -->`, with NAME `counts`, `kept`
and `coverage`. All else on the page is written by hand. `tried, not kept` rows are read from the table between `<!-- tried: begin -->`
and `<!-- tried: end -->`, which is written by hand, too, and is only read here, for the coverage.
"""

import os
import re
import sys

ROOT = os.path.dirname(os.path.dirname(os.path.abspath(__file__)))
PAGE = f"{ROOT}/docs/PLANTED.md"

# --- what is read ---


def edits():
    """Yields crate, name, and the pairs (file, old, new) of each edit."""
    for crate in sorted(os.listdir(f"{ROOT}/crates")):
        folder = f"{ROOT}/crates/{crate}/must-fail"
        if not os.path.isdir(folder):
            continue
        for file in sorted(os.listdir(folder)):
            if file.endswith(".edit"):
                with open(f"{folder}/{file}", encoding="utf-8") as it:
                    yield crate, file[: -len(".edit")], pairs_of(it.read())


def pairs_of(text):
    path, old, found = "", "", []
    for line in text.split("\n"):
        if line.startswith("file: "):
            path = line[6:].strip()
        elif line.startswith("old: "):
            old = line[5:]
        elif line.startswith("new:"):
            found.append((path, old, line[4:].removeprefix(" ")))
    return found


FN = re.compile(r"(\s*)(?:pub(?:\(crate\))? )?(?:unsafe )?(?:extern \"C\" )?fn (\w+)")
IMPL = re.compile(r"impl(?:<.*?>)? (?:[\w:]+(?:<.*>)? for )?&?(?:'\w+ )?(?:\w+::)*(\w+)")
ITEM = re.compile(r"\s*(?:pub(?:\(crate\))? )?(?:const|static|struct|enum|trait) (\w+)\b(?!.*\bfn\b)")


DEFINED = re.compile(r"(?:abbrev |unfoldable )?(?:pub )?(?:abbrev |unfoldable )?(?:record |data )?([\w-]+)")


def function_at(lines, at, path="x.rt"):
    """The function around a line (counted from 0), with its type; or the item, the definition or the lemma."""
    # a line that stands before a function, as an attribute, is its own
    while path.endswith(".rt") and at + 1 < len(lines) and re.match(r"\s*(#\[|//)", lines[at]):
        at += 1
    for i in range(min(at, len(lines) - 1), -1, -1):
        if path.endswith(".antt"):
            found = DEFINED.match(lines[i])
            if found and found[1] not in ("use", "mod"):
                return found[1]
            continue
        found = FN.match(lines[i])
        if found:
            name = found[2]
            if found[1]:
                for j in range(i, -1, -1):
                    over = IMPL.match(lines[j])
                    if over:
                        return f"{over[1]}::{name}"
                    over = re.match(r"(?:pub )?trait (\w+)", lines[j])
                    if over:
                        return f"{over[1]}::{name}"
            return name
        found = ITEM.match(lines[i])
        if found:
            return found[1]
    return ""


def lines_of(crate, path):
    try:
        with open(f"{ROOT}/crates/{crate}/{path}", encoding="utf-8") as it:
            return it.read().split("\n")
    except OSError:
        return []


def place_of(crate, pairs):
    path, old, _ = pairs[0] if pairs else ("", "", "")
    text = "\n".join(lines_of(crate, path))
    at = text.find(old) if old else -1
    return path, function_at(text.split("\n"), text[:at].count("\n"), path) if at >= 0 else ""


SAID = re.compile(r"must-fail (\w+)/([\w.-]+)\.edit: (.*)")


def told(logs):
    found = {}
    for log in logs:
        with open(log, encoding="utf-8", errors="replace") as it:
            for line in it:
                said = SAID.search(line)
                if said:
                    found[said[1], said[2]] = said[3].strip()
    return found


AT = re.compile(r"(?:note: )?(?:\./)?(\S+?\.(?:rt|antt)):(\d+):\d+: (?:error: )?(.*)")


def refused_by(crate, said):
    """The function and the clause that a line of rt names."""
    if "refused, as it must be" not in said:
        return f"**{said.split(':')[0]}**"
    at = AT.search(said)
    if not at:
        return said.removeprefix("refused, as it must be").strip(" :") or "refused"
    path, line, why = at[1], int(at[2]), at[3]
    parts = path.split("/")
    if path.endswith(".rt") or parts[0] == "specs" or len(parts) < 4:
        name = function_at(lines_of(crate, path), int(line) - 1, path)
    else:
        # a proof file stands in a folder with the name of its function
        name = "::".join(it for it in parts[-3:-1] if it[:1].isupper() or it == parts[-2])
    only = "a name that its proof uses is gone; " if "(only because a proof file names" in said else ""
    only = "only a limit of the prover; " if "(only by a limit" in said else only
    if path.endswith(".antt") and parts[0] == "proofs" and len(parts) < 4:
        lemma = re.match(r"`([^`]*)`", why)
        return f"{only}{code(lemma[1] if lemma else path)}: the proof of it"
    return f"{only}{code(name or path)}: {clause_of(why)}"


def clause_of(why):
    words = re.findall(r"`([^`]*)`", why)
    goal = next((it for it in words if re.match(r"(returns|loop|call|invariant|.*-requires)", it)), "")
    callee = re.search(r"what `([^`]*)` requires", why)
    clause = re.search(r"clause-(\w+)", goal)
    if callee:
        return f"what it owes {code(callee[1])} (`requires`)"
    if goal.startswith("returns"):
        return f"`ensures {clause[1]}`" if clause else "its `ensures`"
    if goal.startswith("loop"):
        return "what its loop keeps"
    if goal.startswith("invariant"):
        return "the invariant of a value that it makes"
    if "ensures" in why:
        return "its `ensures`"
    return why.split("; ")[0][:120].replace("`", "")


# --- words ---


def cell(text):
    return text.replace("|", "\\|").replace("\n", " ")


def code(text):
    text = " ".join(text.split())
    return f"`` {text} ``" if "`" in text else f"`{text}`"


# a word, blanks, or a sign; signs that belong together are one
TOKEN = r"\w+|\s+|<=|>=|==|!=|&&|\|\||::|\.\.=|\.\.|=>|->|\+=|≤|[^\w\s]"


def change(old, new):
    """What stands for what, without what both begin and end with."""
    a, b = re.findall(TOKEN, old), re.findall(TOKEN, new)
    i = 0
    while i < min(len(a), len(b)) and a[i] == b[i]:
        i += 1
    j = 0
    while j < min(len(a), len(b)) - i and a[-1 - j] == b[-1 - j]:
        j += 1
    # a bracket that opens in what differs closes there, too
    while j and any("".join(it[i : len(it) - j]).count("(") > "".join(it[i : len(it) - j]).count(")") for it in (a, b)):
        j -= 1
    was, now = "".join(a[i : len(a) - j]).strip(), "".join(b[i : len(b) - j]).strip()
    if not was and not now:
        return f"{code(new)} for {code(old)}"
    rest = f" in {code(old)}" if len(was) + len(now) < 40 and was != old.strip() else ""
    if not was:
        return f"{code(now)} added{rest}"
    if not now:
        return f"{code(was)} left out{rest}"
    return f"{code(now)} for {code(was)}{rest}"


def words_of(name, pairs):
    return name.replace("_", " ") + ": " + "; ".join(change(old, new) for _, old, new in pairs[:2])


# --- the rules, in the order of the pages, and what breaks each ---

RULES = [line.split(" | ") for line in """\
2 accounts | each account is margined by itself, from its own record and places
2 floor | `floor` is the greatest whole number not above the quotient, below zero too
2 ceil | `ceil` is the least whole number not below the quotient
2 families | benchmarks 0 to 3, two in each family
2 side | side 0 pays, side 1 receives
2 residual | months left, held within 0 and 120
3 lengths | `n` records and `64 * n` places; account `i` at record `i` and places `64*i`
3 closing up | an account's trades fill its first places in order; when one goes those behind move up, and the place freed is zero
3 cash | question 1: cash at most 10^14
3 lots | question 1: lots of each security at most 1,000,000
3 levels | question 1: each of the four levels at most 2
3 trades | question 1: at most 64 trades
3 figures | question 1: a constituent's figures and the house's available at most 3 x 10^15
3 house | question 1: the house's obligation and shortfall at most 9.6 x 10^16
3 used places | question 1: benchmark, side, notional and fixed rate of each place in use
3 unused places | question 1: each place after those is zero in every field
3 stored cover | the stored cover is the sum of the constituents' stored shortfalls
4 opening | what an opening sets in the market state
4 state | the market state and its limits
5.1 outside | a model gives 0 outside its counts, the 4 benchmarks and the residuals
5.1 asked | rate, tick value and change are asked at the set in force, the trade's benchmark and residual
5.2 table | the cell of a table model, and which table answers
5.3 knots | the knots, and the cell of a knot model
5.3 between | `value(a) + floor((value(b) - value(a)) * (m - a) / (b - a))`
5.3 change | `floor(shock(m) * tick(m) / 1000)`
5.4 counts | joined: the smaller `S`; `N1 + N2`, at most 1,000
5.4 first | joined: rate and tick value of the first
5.4 changes | joined: the first's scenarios, then the second's
5.5 order | a making asks 31, then 32, then 33
5.5 counts | 31: `S` 1 to 8 and `N` 1 to 1,000
5.5 lengths | 32: the lengths that `S` and `N` call for
5.5 ranges | 33: every number in its range
5.5 place | 33: the place of the first number out of range, through rates, ticks, changes
5.5 joined | 34: `N1 + N2` at most 1,000
6.1 loss | loss of a group: minus notional times change for pay, plus for receive
6.2 k | `k` is the larger of 1 and `floor(N / 100)`
6.2 VaR | the k-th highest loss, ties one by one, or 0 if that is negative
6.3 groups | `X` by residuals 0 to 120, `Z` by buckets 0 to 19, `Y` all together
6.3 bucket | `floor(residual / 6)`, but 19 for residual 120
6.3 spread | `ceil((2*max(0, X - Z) + max(0, Z - Y)) / 10)`
6.4 bands | 50,000 to residual 36, 100,000 to 60, 175,000 above
6.4 minimum | size of pay less receive, offset within a benchmark alone
6.5 base | the larger of `Y + spread` and minimum
6.5 step-up | `ceil(base * step-up / 100)`, for each benchmark
6.5 family | family IM: that of its first benchmark and that of its second
6.6 mark | `floor(notional * (rate - fixed rate) * tick / 1000)` for pay
6.6 sign | the sign of a receive trade is changed before the division
6.7 loss | mark loss `-M` below 0, else 0
6.7 credit | credit `floor(95 * M / 100)` from 0 on, else 0
6.7 no offset | a gain in one benchmark takes nothing off a loss in another
6.8 margin | `ceil(family IM * tenths / 1000)`
6.8 two returns | fewer than two returns above their triggers: no ratio
6.8 highest | the highest of all five ratios, each with its own trigger
6.8 per cent | raised to a multiple of 5, `(P - 100) / 2`, at most 100
6.8 larger | it takes the place of a smaller one only
6.8 slots | a check notes its slot, its count and whether all five lay below their calm marks
6.8 close | at close 0 after four calm slots, else it stays; either way the slots begin anew
6.9 values | family IM with the average IM, gross notional with the average gross
6.9 none | without averages both levels are 0
6.9 15 | level 2 where `100v > 15a`
6.9 13 | level 2 stays where `100v >= 13a`
6.9 8 | from 0 to 1 where `100v > 8a`
6.9 6 | level 1 stays where `100v >= 6a`
6.9 charge | `ceil(family IM * c / 100)`, 15 or 20 per cent
6.9 higher | the higher of the two levels, as just settled
6.10 lots | lots times price times `100 - haircut`
6.10 unlisted | an unlisted security counts nothing
6.10 sum | cash, and all 32 securities
6.11 own | own margins: IM, mark losses, volatility margin, concentration charges
6.11 cover carried | obligation is own margins, and the cover for the house alone, once
6.11 available | collateral and credit
6.11 shortfall | the larger of 0 and obligation less available
6.11 cover | the sum of the constituents' shortfalls; no surplus lowers it, the house's own is no part
7 own set | own flag set where `100*O > 95*A`
7 own clear | own flag clear where `100*O < 90*A` or `O = 0`
7 own stays | else it stays as it was
7 second set | second flag set where the house is restricted and `100*O > 90*A`
7 second clear | clear where `100*O < 70*A` or `O = 0`
7 second stays | else it stays as it was
7 second free | clear where the house is not restricted
7 house | the house is restricted by its own flag alone; its second flag is cleared
7 number | restriction as a number: own 1, second 2
8 account | settling stores levels, obligation, available, shortfall and own flag
8 cover | step 2: the cover anew, after the account or every constituent
8 house | step 3: the house settled at that cover
8 flags | step 4: all second flags, from the house's own flag as it is now
8 market | a market call settles every constituent
8 others | a call on one account leaves the others' figures, levels, own flags and places
8 every | every accepted call settles
8 refused | a refused call settles nothing and changes nothing
9 worked | the worked figures
CALLS 1 order | the first no, in the order given, is the answer; nothing later is asked
CALLS 1 account answer | number, and the named account's figures as its record holds them after the call
CALLS 1 market answer | number, and set, month and both per cents as they stand after the call
CALLS 1 calls | each call by its name and arguments, and lists of calls
CALLS 2 numbers | each refusal has its number
CALLS 2 1 | tables of the right length, within their limits
CALLS 2 2 | the account is there
CALLS 2 3-6 | benchmark, side, notional, fixed rate of a new trade
CALLS 2 7 | maturity from the current month to 120 months later
CALLS 2 8 | the number is free in this account
CALLS 2 9 | fewer than 64 trades
CALLS 2 10 | restricted: obligation with the trade lower than the stored one
CALLS 2 11 | not restricted: available reaches obligation
CALLS 2 12 | a trade of this number stands
CALLS 2 13 | amount 1 to 10^14
CALLS 2 14 | the total after lodging within the limit
CALLS 2 15 | what is drawn is held
CALLS 2 16 | available after the draw reaches obligation
CALLS 2 17 | security below 32
CALLS 2 18 | lots 1 to 1,000,000
CALLS 2 19 | set below the model's `S`
CALLS 2 20 | price 1 to 30,000, haircut at most 100, listed 0 or 1
CALLS 2 21 | step-up at most 100
CALLS 2 22 | family 0 or 1
CALLS 2 23 | averages 1 to 10^16
CALLS 2 24 | triggers and calm marks 1 to 1,000,000, no calm mark above its trigger
CALLS 2 25 | returns at most 1,000,000
CALLS 2 26 | the family has thresholds
CALLS 2 27 | slot 1 to 4, above the last
CALLS 2 28 | month later than the current one, at most 1199
CALLS 2 29 | accounts 1 to 32
CALLS 2 30 | month of an opening at most 1199
CALLS 3 opening | every record and place zero, the market as new
CALLS 4 with it | 10, 11 and 16 at the figures with the call; for the house with the stored cover, for a constituent with none
CALLS 4 trade | the trade goes into the first free place, the count rises
CALLS 4 end | the first trade of the number goes, the rest close up, the count falls
CALLS 4 cash | cash rises or falls by the amount
CALLS 4 lots | the lots of that security rise or fall
CALLS 5 set | the set in force
CALLS 5 price | the three become that security's
CALLS 5 step-up | the step-up
CALLS 5 averages | that family's averages
CALLS 5 thresholds | that family's thresholds
CALLS 5 check | that family's check
CALLS 5 close | both families
CALLS 5 month | the month, and in every account the trades of an earlier maturity go
EVENT_FILE 1 size | at most 65,536 bytes
EVENT_FILE 2 records | kinds, lengths and fields of the records
EVENT_FILE 3 run | which records are played, and their answers
EVENT_FILE 3 lines | what each line prints
EVENT_FILE 4 faults | the tests in their order, the record and the byte of a fault
EVENT_FILE 5 model | the model of zeros
SCRIPT 1 lines | lines, comments, blanks, numbers
SCRIPT 2 words | the words, their fields and widths
SCRIPT 3 run | what a line does, and what is printed
SCRIPT 4 errors | the reasons, and which comes first
SCRIPT 5 models | model files
C_LIBRARY rows | rows of callers in C stand for those of the engine, and back
C_LIBRARY none | no house 255, a flag that is none 1, and nothing is changed
C_LIBRARY calls | each exported function makes the call that its name says
C_LIBRARY models | a making's number and place; which models are joined
C_LIBRARY opening | the opening of a house in a caller's memory
laws | a law, or an example of one, as specs/ states it
tool | a step of the proofs or tests that no page names""".split("\n")]

# The rules that an edit breaks: by crate/function. `*` ends a name that begins so.
PLACES = dict(line.split(": ") for line in """\
accounts/HeldBook::change: CALLS 4 cash
accounts/HeldBook::with_lots: CALLS 4 lots
accounts/HeldBook::with_trade: CALLS 4 trade
accounts/HeldBook::without_trade: CALLS 4 end
accounts/HeldBook::*: 8 account
accounts/Cover::*: 6.11 cover carried
accounts/ask_drawn: CALLS 2 16
accounts/ask_traded: CALLS 2 11
accounts/is_restricted: 7 house
accounts/settle: 8 account
accounts/HeldBook::settled: 6.11 cover carried, 8 house
accounts/HeldBook::settled_row: 6.11 cover carried, 8 house
accounts/preview: CALLS 4 with it
accounts/close_up: 3 closing up, CALLS 4 end
accounts/find_trade: CALLS 4 end, CALLS 2 12
accounts/ask_trade: CALLS 2 3-6
accounts/is_in_term: CALLS 2 7
accounts/amount_fits: CALLS 2 13
accounts/lots_fit: CALLS 2 18
accounts/MOST_CASH: CALLS 2 13, CALLS 2 14
accounts/MOST_LOTS: CALLS 2 18, CALLS 2 14
accounts/ask_lodge_*: CALLS 2 14
accounts/ask_draw_*: CALLS 2 15
accounts/ask_after: CALLS 2 16
accounts/ask_end: CALLS 2 12
ccalls/answer_account: C_LIBRARY calls
ccalls/answer_rows: C_LIBRARY none
ccalls/account_fits: C_LIBRARY none
ccalls/account*: C_LIBRARY rows
ccalls/answer_made: C_LIBRARY models
ccalls/answer_market: C_LIBRARY rows
ccalls/answer_fit: C_LIBRARY rows
ccalls/check_*: C_LIBRARY models
ccalls/part_of: C_LIBRARY models
ccalls/NO_HOUSE: C_LIBRARY none
ccalls/open*: C_LIBRARY opening
ccalls/too_many: C_LIBRARY opening
ccalls/read_accounts: C_LIBRARY rows
ccalls/*: C_LIBRARY rows
crows/house_of: C_LIBRARY none
crows/*: C_LIBRARY rows
domirelash/domirelash_check_*: C_LIBRARY models
domirelash/domirelash_open: C_LIBRARY opening
domirelash/*: C_LIBRARY calls
engine/*: CALLS 1 calls
eventrun/write_*: EVENT_FILE 3 lines
eventrun/transcript: EVENT_FILE 3 run, EVENT_FILE 5 model
eventrun/read_input: EVENT_FILE 1 size
eventrun/*: EVENT_FILE 3 run
events/Reader::count: EVENT_FILE 3 run
events/Event::kind: EVENT_FILE 2 records
events/Kind::*: EVENT_FILE 2 records
events/LENGTHS: EVENT_FILE 2 records
events/decode: EVENT_FILE 2 records
events/MOST_BYTES: EVENT_FILE 1 size
events/*: EVENT_FILE 4 faults
house/read_book: 3 lengths, 2 accounts
house/write_book: 3 lengths, 8 others
house/act: 2 accounts
house/answer_account: CALLS 2 2
house/answer_all: CALLS 1 calls
house/cover_for: CALLS 4 with it
house/restriction: 7 number
house/answered: CALLS 1 account answer
house/answer_market: CALLS 2 1
house/finish_settling: 8 flags
house/settle_constituents: 8 market
house/settle_own: 7 house
house/second_after: 7 second stays
house/sum_shortfalls: 6.11 cover, 8 cover
house/stored_cover: 6.11 cover, 3 stored cover
house/keep_running: CALLS 5 month
house/mature_*: CALLS 5 month
house/age: CALLS 5 month
house/draw_*: CALLS 1 calls
house/lodge_*: CALLS 1 calls
house/new_trade: CALLS 1 calls
house/end_trade: CALLS 1 calls
house/show: CALLS 1 calls
isolation/*: tool
knots/floored: 2 floor, 5.3 between, 5.3 change
knots/change_of: 5.3 change
knots/interpolate: 5.3 between
knots/value: 5.3 between
knots/last_knot: 5.3 knots, 5.3 between
knots/neighbours: 5.3 knots, 5.3 between
knots/changes: 5.3 change
knots/KnotLayout::change*: 5.3 change
knots/LIMIT: 5.5 ranges
knots/*: 5.3 knots
margins/Valuation::part: 6.4 minimum, 6.5 step-up
margins/Valuation::family: 6.5 family
margins/Valuation::benchmark: 6.7 credit
margins/join_benchmarks: 6.11 own
margins/concentration_charge: 6.9 charge
margins/percent_of_level: 6.9 charge
margins/next_level: 6.9 15
margins/next_levels: 6.9 values
margins/securities_value: 6.10 sum
margins/row_value: 6.10 lots
margins/flag_after: 7 own stays
margins/own_flag: 7 own clear
margins/second_flag: 7 second clear
margins/gross_notional: 6.9 values
margins/mark: 6.6 mark
margins/mark_to_market: 6.7 loss
margins/margin_credit: 6.7 credit
margins/figures: 6.11 available
margins/volatility_margin: 6.8 margin
margins/BenchmarkFigures::fmt: 9 worked
margins/FamilyFigures::fmt: 9 worked
market/MarketState::give_averages: CALLS 5 averages
market/MarketState::give_thresholds: CALLS 5 thresholds
market/MarketState::family*: 2 families, 4 state
market/Market::family: 2 families
market/Market::*: 4 state
market/Market::take: 8 refused
market/MarketState::price: CALLS 5 price
market/reprice: CALLS 5 price
market/MarketState::close: CALLS 5 close
market/MarketState::change: CALLS 5 set
market/FamilyState::note_check: 6.8 slots, CALLS 5 check
market/FamilyState::after_the_day: 6.8 close
market/FamilyState::close: 6.8 close
market/stays_calm: 6.8 slots
market/market_keeps: 4 state
market/family_keeps: 4 state
market/average_keeps: CALLS 2 23
market/averages_keep: CALLS 2 23
market/mark_keeps: CALLS 2 24
market/month_fits: CALLS 2 28
market/quote_fits: CALLS 2 20
market/ask_price: CALLS 2 17
market/ask_published: CALLS 2 22
market/returns_fit: CALLS 2 25
market/slot_fits: CALLS 2 27
market/ask_check: CALLS 2 26
market/ask_market: CALLS 2 19
market/count_exceeding: 6.8 two returns
market/highest_ratio: 6.8 highest
market/check_tenths: 6.8 two returns
market/volatility_tenths: 6.8 per cent
market/Day::residual: 2 residual
modelfile/default_model: EVENT_FILE 5 model
modelfile/*: SCRIPT 5 models
models/M::*: 5.1 asked
models/first_mark: 5.5 ranges
models/check_joined: 5.5 joined
models/check: 5.5 order
models/place: 5.2 table
models/counts_fit: 5.5 counts
models/lengths_fit: 5.5 lengths
models/volume: 5.5 lengths
models/inside: 5.1 outside
models/Joined::change*: 5.4 changes
models/Joined::rate: 5.4 first
models/Joined::tick: 5.4 first
models/Joined::sets: 5.4 counts
models/Joined::scenarios: 5.4 counts
models/Joined::new: 5.4 first, 5.4 changes
models/LaidOut::changes: 5.1 outside
models/LaidOut::*: 5.2 table
models/SoundNumbers::*: 5.2 table
models/TableLayout::*: 5.2 table
models/Numbers::lend: 5.2 table
models/LIMIT: 5.5 ranges
models/check_numbers: 5.5 order, CALLS 2 numbers
models/MakingRefusal::number: CALLS 2 numbers
models/MakingRefusal::place: 5.5 place
opening/empty_row: CALLS 3 opening
opening/ask_opening: CALLS 2 29
opening/open_house: CALLS 3 opening
opening/open_now: CALLS 3 opening
opening/open: CALLS 2 numbers
opening/unopened: 4 opening
opening/*: 4 opening
owned/AnyModel::*: 5.1 asked
owned/SingleModel::*: 5.1 asked
owned/join: 5.4 first, 5.4 changes
owned/make: 5.5 order
owned/*: 5.2 table
refusals/ask: CALLS 1 order
refusals/Refusal::number: CALLS 2 numbers
refusals/u8::from: CALLS 2 numbers
risk/BAND_ENDS: 6.4 bands
risk/BAND_RATES: 6.4 bands
risk/rate_of_band: 6.4 bands
risk/weight: 6.4 minimum
risk/minimum_margin: 6.4 minimum
risk/risk_figures: 6.5 step-up
risk/step_up: 6.5 step-up, 2 ceil
risk/Trade::flow: 6.1 loss, 6.6 sign
risk/Trade::side: 2 side
risk/Trade::times: 6.1 loss
risk/Trade::new: 6.1 loss
risk/net_of: 6.1 loss
risk/are_alike: 6.3 groups
risk/lone_trade: 6.3 groups
risk/lone_risk: 6.3 groups
risk/Quotes::sums: 6.3 groups
risk/Quotes::signed_changes: 6.1 loss
risk/gain: 6.2 VaR, 6.7 credit
risk/lost: 6.7 loss
risk/gather: 6.3 groups
risk/gather_standing: 6.3 groups
risk/Grouping::groups: 6.3 groups
risk/Grouping::key: 6.3 bucket
risk/Quotes::sum_group_risks: 6.3 groups
risk/Quotes::residual_risks: 6.3 groups
risk/Quotes::bucket_risk: 6.3 groups
risk/Quotes::summed_bucket: 6.3 groups
risk/Quotes::buckets: 6.3 groups
risk/Quotes::work_out: 6.5 base
risk/Quotes::add_legs: 6.1 loss
risk/add_row: 6.1 loss
risk/add_each: 6.1 loss
risk/plus_products: 6.1 loss
risk/Quotes::add_group: 6.1 loss
risk/Quotes::write_losses: 6.1 loss
risk/add_losses: 6.1 loss
risk/risk_of_losses: 6.2 VaR
risk/Quotes::value_at_risk: 6.2 k
risk/lowest_of_tail: 6.2 VaR
risk/Quotes::*: 5.1 asked
risk/RiskFigures::fmt: 9 worked
risk/spread_charge: 6.3 spread
rules/Answer::*: CALLS 1 account answer
rules/MarketAnswer::*: CALLS 1 market answer
rules/*: CALLS 1 account answer
samples/*: tool
scan/*: SCRIPT 1 lines
script/without_comment: SCRIPT 1 lines
script/file_name: SCRIPT 1 lines
script/Lines::*: SCRIPT 1 lines
script/past_first: SCRIPT 1 lines
script/parse: SCRIPT 1 lines
script/number_field: SCRIPT 2 words
script/read_command: SCRIPT 2 words
script/Word::*: SCRIPT 2 words
script/Reason::*: SCRIPT 4 errors
script/*: SCRIPT 2 words
session/take: SCRIPT 4 errors
session/unread: SCRIPT 4 errors
session/*: SCRIPT 3 run
scriptrun/*: SCRIPT 3 run
statement/*: 9 worked
tables/Account::*: 4 state
tables/u32::from: 2 families
tables/Family::*: 2 families
tables/Side::from: 2 side
tables/levels_keep: 3 levels
tables/lots_keep: 3 lots
tables/holdings_keep: 3 cash
tables/accounts_keep: 3 house
tables/constituents_keep: 3 figures
tables/book_keeps: 3 figures
tables/figures_keep: 3 figures
tables/places_keep: 3 used places
tables/HOUSE_MOST: 3 house
tables/tables_keep: 3 lengths, CALLS 2 1
tables/securities_keep: 4 state
tables/security_keeps: 4 state
tables/Security::lots_value: 6.10 lots
tables/Security::*: 4 state
tables/trade_keeps: 3 used places
tables/trades_stand: 3 trades
tables/StandingTrades::*: 3 used places
tail/*: 6.2 VaR
tail/Ratio::*: 6.8 highest
""".split("\n") if line)

# Where the function does not say enough: by crate/edit.
EDITS = dict(line.split(": ") for line in """\
accounts/flag_of_today: 7 own stays
accounts/refused_goes_through: CALLS 1 order, 8 refused
accounts/traded_not_lower: CALLS 2 10
engine/opening_number_lost: CALLS 2 29
engine/replay_other_accounts: CALLS 2 1
engine/wrong_tables_played: CALLS 2 1
events/next_first: EVENT_FILE 4 faults
events/new_skips_a_byte: EVENT_FILE 2 records
house/account_zero: 2 accounts, 3 lengths
house/dropped_write: 8 account
house/refused_settles: 8 refused
house/surplus_against_shortfall: 6.11 cover
house/market_refused_as_account: CALLS 2 numbers
house/show_ends: CALLS 1 calls, 8 every
margins/available_credit: 6.11 available
margins/concentration_lower: 6.9 higher
margins/level_upper: 6.9 15
margins/mark_fixed: 6.6 mark
margins/own_clears_at_90: 7 own clear
margins/own_flag_of_second: 7 own set, 7 own clear
margins/second_today_only: 7 second stays
margins/volatility_family: 6.8 margin
margins/figures_levels: 6.9 higher, 8 account
market/check_replaces_larger: 6.8 larger
market/ratio_two: 6.8 two returns
market/step_up_to_set: CALLS 5 step-up
market/take_closes: CALLS 5 close
market/market_month: 4 state
market/market_state_unkept: 4 state
models/check_tick_place: 5.5 place
models/laid_new_nothing_kept: 5.2 table
opening/opening_month: CALLS 2 30
risk/key_bucket: 6.3 bucket
risk/groups_residuals: 6.3 groups
risk/no_risk_whole: 6.2 VaR
risk/flow_side: 6.1 loss, 6.4 minimum, 6.6 sign
tables/holdings_forward: 3 levels
tables/security_haircut_kept: 6.10 lots
tables/house_kept_twice: 3 figures
accounts/cover_twice: 6.11 cover carried
accounts/draw_cash_unasked: CALLS 2 16
accounts/draws_lots_not_held: CALLS 2 15
accounts/last_place_kept: 3 closing up
accounts/nine_early: CALLS 1 order, CALLS 2 9, CALLS 2 3-6
accounts/number_used_again: CALLS 2 8
accounts/restricted_as_tried: CALLS 2 10
accounts/sixty_five_trades: CALLS 2 9
accounts/term_121: CALLS 2 7
engine/play_idles: CALLS 1 calls
house/cover_for_all: 6.11 cover carried, CALLS 4 with it
house/first_constituent_not_summed: 3 stored cover, 8 cover
house/flags_swapped: 7 number
house/house_not_settled: 8 house, 8 cover
house/second_of_house_kept: 7 house
margins/charge_at_stored_levels: 6.9 higher
margins/gain_against_loss: 6.7 no offset
margins/last_security_left_out: 6.10 sum
margins/levels_without_averages: 6.9 none
margins/mark_sign_after: 6.6 sign
margins/own_sets_at_95: 7 own set, 7 second set
margins/second_without_house: 7 second free
margins/volatility_floor: 2 ceil, 6.8 margin
market/calm_at_mark: 6.8 slots, 6.8 close
market/calm_at_trigger: CALLS 2 24
market/price_of_first_security: CALLS 5 price
market/published_family_two: CALLS 2 22
market/return_at_most: CALLS 2 25
market/security_32: CALLS 2 17
market/set_at_count: CALLS 2 19
market/thresholds_unasked: CALLS 2 26
models/lengths_of_ticks: 5.5 lengths
opening/rows_not_emptied: CALLS 3 opening
tables/cash_at_most: 3 cash
tables/house_most: 3 house
tables/unlisted_counts: 6.10 unlisted
tables/unused_places_unasked: 3 unused places
""".split("\n") if line)


def by_name(table, name):
    if name in table:
        return table[name]
    ends = [it for it in table if it.endswith("*") and name.startswith(it[:-1])]
    return table[max(ends, key=len)] if ends else ""


def rules_of(crate, name, function, path="src/"):
    if not path.startswith("src/"):
        return EDITS.get(f"{crate}/{name}") or "laws"
    return EDITS.get(f"{crate}/{name}") or by_name(PLACES, f"{crate}/{function}") or "?"


def shown(rules):
    """As it stands in a table: the sections of RULES.md have the page's name in front."""
    return ", ".join(f"RULES {it}" if it[:1].isdigit() else it for it in rules.split(", "))


# --- the page ---


def section(page, name):
    found = re.search(rf"<!-- {name}: begin -->\n(.*?)<!-- {name}: end -->", page, re.S)
    return found[1] if found else None


def put(page, name, text):
    if section(page, name) is None:
        sys.exit(f"planted.py: {PAGE} has no lines <!-- {name}: begin --> and <!-- {name}: end -->")
    at = page.index(f"<!-- {name}: begin -->\n") + len(f"<!-- {name}: begin -->\n")
    return page[:at] + text + page[page.index(f"<!-- {name}: end -->") :]


def rows_in(text):
    for line in (text or "").split("\n"):
        if line.startswith("| ") and not line.startswith("|---"):
            yield [it.strip().replace("\\|", "|") for it in re.split(r"(?<!\\)\|", line)[1:-1]]


def main(words):
    only_print, logs = "--print" in words, [it for it in words if it != "--print"]
    if not logs or any(it.startswith("-") for it in logs):
        sys.exit(__doc__)
    with open(PAGE, encoding="utf-8") as it:
        page = it.read()
    before = {row[3].strip("`"): row[4] for row in rows_in(section(page, "kept")) if len(row) == 5}
    said, kept, breaks, unknown, count = told(logs), [], {}, [], {}
    for crate, name, pairs in edits():
        path, function = place_of(crate, pairs)
        rules = rules_of(crate, name, function, path)
        if rules == "?":
            unknown.append(f"{crate}/{name} ({function})")
        for it in rules.split(", "):
            breaks.setdefault(it, []).append(f"`{crate}/{name}`")
        line = said.get((crate, name))
        by = refused_by(crate, line) if line else before.get(f"{crate}/{name}", "not run here")
        kind = "bold" if by.startswith("**") else "none" if by == "not run here" else "refused"
        count[kind] = count.get(kind, 0) + 1
        where = f"`{crate}`, `{function or path}`"
        kept.append([cell(words_of(name, pairs)), where, shown(rules), f"`{crate}/{name}`", cell(by)])
    tried = [row for row in rows_in(section(page, "tried")) if len(row) == 4 and row[0] != "edit"]
    for row in tried:
        for it in row[2].split(", "):
            breaks.setdefault(it.removeprefix("RULES "), []).append(f"{row[0].split(':')[0]} (tried)")
    total = len(kept)
    table = "| edit | place | breaks | kept as | refused by |\n|---|---|---|---|---|\n"
    table += "".join(f"| {' | '.join(row)} |\n" for row in kept)
    cover = "| rule | it says | planted edits that break it |\n|---|---|---|\n"
    empty = []
    for rule, text in RULES:
        found = breaks.get(rule, [])
        if not found:
            empty.append(rule)
        few = ", ".join(found[:4]) + (f", and {len(found) - 4} more" if len(found) > 4 else "")
        cover += f"| {shown(rule)} | {text} | {cell(few) or '**none**'} |\n"
    counts = f"{total} edits are kept: {count.get('refused', 0)} refused in the runs read here, {count.get('none', 0)} not run here, "
    counts += f"{count.get('bold', 0)} otherwise. {len(tried)} more were tried and not kept. Of the {len(RULES)} rules below {len(RULES) - len(empty)} have an edit that breaks them.\n"
    if only_print:
        print(counts, table, cover, sep="\n")
    else:
        for name, text in (("counts", counts), ("kept", table), ("coverage", cover)):
            page = put(page, name, text)
        with open(PAGE, "w", encoding="utf-8") as it:
            it.write(page)
    known = {rule for rule, _ in RULES}
    for what, names in (
        ("no rule is known for", unknown),
        ("no edit breaks", empty),
        ("these rules are not in RULES", sorted({it for it in breaks if it not in known and it != "?"})),
        ("neither refused nor unknown", [row[3] for row in kept if row[4].startswith("**")]),
    ):
        if names:
            print(f"planted.py: {what}: {', '.join(names)}", file=sys.stderr)


if __name__ == "__main__":
    main(sys.argv[1:])
