#!/usr/bin/env python3
"""Make the sample event files, and what the program prints for each.

    make_events.py DIRECTORY

writes NAME.ev and NAME.expected into DIRECTORY (crates/event_samples/data in this
repository) for every sample below, always the same.

An event file is a run of records (docs/EVENT_FILE.md).  The expected lines are
worked out here from the bytes of the file alone, with the engine of
margin_reference.py and a model that is all zero.  Nothing here is shared with
the program that is tested.
"""

import os
import struct
import sys

from margin_reference import MOST_CASH, PAY, RECEIVE, flat_model, opening

MOST_BYTES = 65_536
MODEL = flat_model(0, 0, scenarios=20)
LENGTHS = {1: 7, 10: 21, 12: 13, 13: 13}


# --- the reader, and the lines of a run ---


def fault_of(data, at, first):
    """The number of the fault of the record at a place, or 0."""
    left = len(data) - at
    if left < 4:
        return 1
    length, kind = struct.unpack_from("<HH", data, at)
    if kind not in LENGTHS:
        return 2
    if length != LENGTHS[kind]:
        return 3
    if left < length:
        return 1
    if first != (kind == 1):
        return 4
    return 0


def run(data):
    """The lines that the program prints for a file."""
    if len(data) > MOST_BYTES:
        return ["0 fault 5 0"]
    lines = []
    house = None
    record = 0
    at = 0
    while at < len(data):
        record += 1
        fault = fault_of(data, at, record == 1)
        if fault:
            lines.append("%d fault %d %d" % (record, fault, at))
            break
        kind = struct.unpack_from("<H", data, at + 2)[0]
        if kind == 1:
            number, house = opening(*struct.unpack_from("<BH", data, at + 4))
            lines.append("%d 1 %d" % (record, number))
            if number:
                break
        else:
            if kind == 10:
                answer = house.trade(MODEL, *struct.unpack_from("<BIBBHII", data, at + 4))
            elif kind == 12:
                answer = house.lodge_cash(MODEL, *struct.unpack_from("<BQ", data, at + 4))
            else:
                answer = house.draw_cash(MODEL, *struct.unpack_from("<BQ", data, at + 4))
            lines.append("%d %d %d %d %d %d %d" % ((record, kind) + answer))
        at += LENGTHS[kind]
    return lines


# --- the samples ---


def open_house(accounts, month):
    return struct.pack("<HHBH", 7, 1, accounts, month)


def trade(account, number, benchmark, side, maturity, notional, rate=0):
    return struct.pack("<HHBIBBHII", 21, 10, account, number, benchmark, side,
                       maturity, notional, rate)


def lodge(account, amount):
    return struct.pack("<HHBQ", 13, 12, account, amount)


def draw(account, amount):
    return struct.pack("<HHBQ", 13, 13, account, amount)


OPEN = open_house(2, 300)


def samples():
    """Name, records, and the refusals and faults that the file is there for."""
    made = [
        ("worked", [OPEN, lodge(1, 6_000_000), trade(1, 7, 0, PAY, 312, 100),
                    draw(1, 1_500_000), draw(1, 1_000_000)], (16,)),
        ("empty", [], ()),

        # openings
        ("open_accounts_none", [open_house(0, 300), lodge(0, 1)], (29,)),
        ("open_accounts_many", [open_house(33, 300), lodge(0, 1)], (29,)),
        ("open_accounts_before_month", [open_house(33, 1200), lodge(0, 1)], (29,)),
        ("open_month_late", [open_house(2, 1200), lodge(0, 1)], (30,)),
        ("open_limits", [open_house(32, 1199), lodge(31, 1), draw(31, 1), lodge(32, 1)], (2,)),

        # the arguments of a trade, each question at both of its ends
        ("trade_arguments", [
            OPEN,
            lodge(1, MOST_CASH),
            trade(2, 1, 4, 2, 421, 0, 200_001),
            trade(255, 1, 0, PAY, 312, 100),
            trade(1, 1, 4, 2, 421, 0, 200_001),
            trade(1, 1, 255, PAY, 312, 100),
            trade(1, 1, 3, 2, 421, 0, 200_001),
            trade(1, 1, 0, 255, 312, 100),
            trade(1, 1, 3, RECEIVE, 421, 0, 200_001),
            trade(1, 1, 0, PAY, 312, 1_000_001),
            trade(1, 1, 0, PAY, 312, 4_294_967_295),
            trade(1, 1, 3, RECEIVE, 421, 1, 200_001),
            trade(1, 1, 0, PAY, 312, 1, 4_294_967_295),
            trade(1, 1, 3, RECEIVE, 421, 1, 200_000),
            trade(1, 1, 0, PAY, 299, 100),
            trade(1, 1, 0, PAY, 65_535, 100),
            trade(1, 1, 3, RECEIVE, 420, 1, 200_000),
            trade(1, 2, 0, PAY, 300, 1_000_000, 1),
        ], (2, 3, 4, 5, 6, 7)),

        # a number is free in an account that has no trade of it, whatever others have
        ("trade_numbers", [
            OPEN,
            lodge(0, 100_000_000),
            lodge(1, 100_000_000),
            trade(1, 7, 0, PAY, 312, 100),
            trade(1, 7, 2, RECEIVE, 330, 5),
            trade(0, 7, 1, PAY, 340, 100),
            trade(1, 0, 0, RECEIVE, 312, 40),
            trade(1, 0, 0, RECEIVE, 312, 40),
            trade(1, 4_294_967_295, 0, RECEIVE, 312, 60),
            trade(1, 4_294_967_295, 0, RECEIVE, 312, 60),
        ], (8,)),

        # the 65th trade, though its number is taken first and then is not
        ("trade_places",
         [OPEN, lodge(1, 1_000_000_000)]
         + [trade(1, 100 + i, i % 4, (i // 4) % 2, 300 + i, 10) for i in range(64)]
         + [trade(1, 100, 0, PAY, 312, 1), trade(1, 164, 0, PAY, 312, 1),
            trade(1, 164, 0, PAY, 421, 1)], (7, 8, 9)),

        # available reaches the obligation, or is one paisa short
        ("trade_available", [
            OPEN,
            trade(1, 1, 0, PAY, 312, 100),
            lodge(1, 4_999_999),
            trade(1, 1, 0, PAY, 312, 100),
            lodge(1, 1),
            trade(1, 1, 0, PAY, 336, 100),
            trade(1, 2, 0, RECEIVE, 337, 50),
            trade(1, 3, 1, RECEIVE, 337, 50),
            trade(1, 4, 1, PAY, 361, 28),
            trade(1, 5, 3, PAY, 361, 29),
            trade(1, 5, 3, PAY, 361, 28),
            draw(1, 1),
        ], (11, 16)),

        # the bands of the minimum margin, and what offsets what
        ("trade_bands", [
            OPEN,
            lodge(1, 1_000_000_000),
            trade(1, 1, 0, PAY, 336, 100),
            trade(1, 2, 1, RECEIVE, 337, 100),
            trade(1, 3, 2, PAY, 360, 100),
            trade(1, 4, 3, PAY, 361, 100),
            trade(1, 5, 3, RECEIVE, 420, 100),
            trade(1, 6, 0, RECEIVE, 300, 200),
            trade(1, 7, 2, RECEIVE, 372, 40),
        ], ()),

        # an account that is restricted takes only what lowers its obligation
        ("trade_restricted", [
            OPEN,
            lodge(1, 5_000_000),
            trade(1, 1, 0, PAY, 312, 100),
            trade(1, 2, 0, PAY, 312, 1),
            trade(1, 2, 1, PAY, 312, 1),
            trade(1, 2, 0, RECEIVE, 312, 200),
            trade(1, 2, 0, RECEIVE, 312, 9),
            trade(1, 3, 0, PAY, 312, 1),
            trade(1, 4, 0, RECEIVE, 312, 2),
            trade(1, 5, 0, PAY, 312, 12),
            trade(1, 5, 0, PAY, 312, 8),
            trade(1, 6, 0, RECEIVE, 312, 97),
            draw(1, 5_000_000),
        ], (10, 11)),

        # the own flag between 90 and 95 per cent stays as it was
        ("own_flag", [
            OPEN,
            lodge(1, 100_000_000),
            trade(1, 1, 0, PAY, 300, 1_900),
            draw(1, 1),
            lodge(1, 5_555_556),
            lodge(1, 1),
            draw(1, 5_555_557),
            trade(1, 2, 0, PAY, 300, 1),
            lodge(1, 1_000_000),
            trade(1, 3, 0, RECEIVE, 300, 1),
        ], (10,)),

        # while the house is restricted the second flag is set above 90 per cent, clear below 70, and else stays
        ("second_flag", [
            open_house(4, 300),
            lodge(1, 100_000_000),
            lodge(2, 100_000_000),
            lodge(3, 100_000_000),
            trade(1, 1, 0, PAY, 300, 1_850),
            trade(2, 1, 0, PAY, 300, 1_600),
            trade(3, 1, 0, PAY, 300, 1_960),
            lodge(0, 1_000_000),
            trade(0, 1, 0, PAY, 300, 20),
            lodge(1, 1),
            lodge(2, 1),
            lodge(3, 1),
            trade(1, 2, 1, PAY, 300, 1),
            trade(2, 2, 1, PAY, 300, 10),
            trade(3, 2, 0, RECEIVE, 300, 100),
            lodge(1, 20_000_000),
            lodge(1, 20_000_000),
            lodge(0, 1_000_000),
            lodge(3, 1),
            draw(0, 1_000_001),
            draw(0, 950_000),
            lodge(2, 1),
            draw(1, 10_000_000),
            draw(1, 30_000_000),
            lodge(3, 1),
        ], (10, 16)),

        # the amounts of cash, at both ends
        ("lodge", [
            OPEN,
            lodge(2, 0),
            lodge(1, 0),
            lodge(1, MOST_CASH + 1),
            lodge(1, 18_446_744_073_709_551_615),
            lodge(1, MOST_CASH),
            lodge(1, 1),
            draw(1, 1),
            lodge(1, 2),
            lodge(1, 1),
            lodge(0, MOST_CASH),
            lodge(0, MOST_CASH),
        ], (2, 13, 14)),
        ("draw", [
            OPEN,
            draw(2, 0),
            draw(1, 0),
            draw(1, MOST_CASH + 1),
            draw(1, 18_446_744_073_709_551_615),
            draw(1, MOST_CASH),
            draw(1, 1),
            lodge(1, 6_000_000),
            draw(1, 6_000_001),
            trade(1, 7, 2, RECEIVE, 337, 50),
            draw(1, 6_000_001),
            draw(1, 1_000_001),
            draw(1, 1_000_000),
            draw(1, 1),
            draw(0, 1),
            lodge(0, 3),
            draw(0, 3),
        ], (2, 13, 15, 16)),

        # a house of one account, in the first month
        ("house_alone", [
            open_house(1, 0),
            lodge(1, 1),
            trade(0, 1, 0, PAY, 0, 1),
            lodge(0, 50_000),
            trade(0, 1, 0, PAY, 0, 1),
            trade(0, 2, 0, PAY, 0, 1),
            draw(0, 1),
            trade(0, 2, 0, RECEIVE, 36, 1),
            draw(0, 50_000),
            trade(0, 3, 0, PAY, 0, 1),
        ], (2, 10, 11, 16)),

        # faults, at the first record and after an opening
        ("fault_head_first", [b"\0\0\0"], ("f1",)),
        ("fault_head_later", [OPEN, b"\0\0\0"], ("f1",)),
        ("fault_head_one_byte", [OPEN, b"\x0d"], ("f1",)),
        ("fault_kind_first", [struct.pack("<HHBQ", 7, 0, 0, 0)], ("f2",)),
        ("fault_kind_later", [OPEN, struct.pack("<HH", 9, 11), bytes(5)], ("f2",)),
        ("fault_kind_high_byte", [OPEN, struct.pack("<HHBQ", 13, 12 + 256, 1, 1)], ("f2",)),
        ("fault_kind_before_length", [OPEN, struct.pack("<HH", 0, 14)], ("f2",)),
        ("fault_length_short", [OPEN, struct.pack("<HH", 12, 12), bytes(8)], ("f3",)),
        ("fault_length_long", [OPEN, struct.pack("<HH", 14, 13), bytes(10)], ("f3",)),
        ("fault_length_before_cut", [OPEN, struct.pack("<HH", 20, 10)], ("f3",)),
        ("fault_length_before_place", [struct.pack("<HH", 14, 12), bytes(10)], ("f3",)),
        ("fault_cut_later", [OPEN, lodge(1, 6_000_000)[:10]], ("f1",)),
        ("fault_cut_last_byte", [OPEN, lodge(1, 5), trade(1, 7, 0, PAY, 312, 100)[:20]], ("f1",)),
        ("fault_cut_before_place", [trade(1, 7, 0, PAY, 312, 100)[:10]], ("f1",)),
        ("fault_place_first", [lodge(1, 6_000_000)], ("f4",)),
        ("fault_place_trade_first", [trade(1, 7, 0, PAY, 312, 100), OPEN], ("f4",)),
        ("fault_place_open_again", [OPEN, OPEN], ("f4",)),
        ("fault_after_lines", [OPEN, lodge(1, 9), draw(1, 4), draw(1, 6), OPEN, lodge(1, 1)],
         (15, "f4")),
        ("fault_after_refused_opening", [open_house(0, 0), b"\0\0\0"], (29,)),

        # one byte more than a file may have
        ("too_long", [OPEN] + [lodge(1, 5)] * 5_040 + [bytes(10)], ("f5",)),
    ]
    return [(name, b"".join(records), wanted) for name, records, wanted in made]


WORKED = """1 1 0
2 12 0 0 6000000 0 0
3 10 0 5000000 6000000 0 0
4 13 16 5000000 6000000 0 0
5 13 0 5000000 5000000 0 1
"""


def reached(lines):
    """The refusals, as numbers, and the faults, as words, that the lines show."""
    found = set()
    for line in lines:
        words = line.split()
        found.add("f" + words[2] if words[1] == "fault" else int(words[2]))
    found.discard(0)
    return found


def other_lines(directory):
    """The worked example once more, with expected lines of which the last digit is another: a run has to say that it differs."""
    with open(os.path.join(directory, "worked.ev"), "rb") as file:
        data = file.read()
    last = WORKED.rstrip("\n")
    wrong = last[:-1] + ("1" if last[-1] != "1" else "2") + "\n"
    with open(os.path.join(directory, "other_lines.ev"), "wb") as out:
        out.write(data)
    with open(os.path.join(directory, "other_lines.expected"), "w", newline="\n") as out:
        out.write(wrong)


def main():
    if len(sys.argv) != 2:
        sys.exit("usage: make_events.py DIRECTORY")
    everything = set()
    for name, data, wanted in samples():
        lines = run(data)
        text = "".join(line + "\n" for line in lines)
        found = reached(lines)
        missing = set(wanted) - found
        if missing:
            sys.exit("%s does not reach %s" % (name, sorted(map(str, missing))))
        if name == "worked" and text != WORKED:
            sys.exit("the worked example differs")
        everything |= found
        with open(os.path.join(sys.argv[1], name + ".ev"), "wb") as out:
            out.write(data)
        with open(os.path.join(sys.argv[1], name + ".expected"), "w", newline="\n") as out:
            out.write(text)
        print("%-28s %6d bytes: %s" % (name, len(data), " ".join(sorted(map(str, found)))))
    other_lines(sys.argv[1])
    should = set(range(2, 12)) | {13, 14, 15, 16, 29, 30} | {"f%d" % n for n in range(1, 6)}
    if everything != should:
        sys.exit("reached in all: %s" % sorted(map(str, everything)))


if __name__ == "__main__":
    main()
