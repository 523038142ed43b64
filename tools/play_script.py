#!/usr/bin/env python3
"""Play a script and print what the program `marginday` should print for it.

    play_script.py < SCRIPT

The format is that of docs/SCRIPT.md; model files are looked for in the folder
the program is run in.  The engine is that of margin_reference.py.
"""

import re
import sys

from margin_reference import (
    MAKES, JoinedModel, House, Refused, check_counts, flat_model, opening)

sys.set_int_max_str_digits(0)      # a word of any length may be a number

NUMBER = re.compile(rb"-?[0-9]+")
RESTRICTIONS = ("none", "own", "second", "both")
REPORT_LINE = "%7s %19s %19s %19s  %-11s %6s"

# Each word's fields, by their widths in bits.
FIELDS = {
    b"open": (32, 16),
    b"trade": (32, 32, 8, 8, 16, 32, 32),
    b"end": (32, 32),
    b"lodge-cash": (32, 64),
    b"draw-cash": (32, 64),
    b"lodge-security": (32, 32, 32),
    b"draw-security": (32, 32, 32),
    b"show": (32,),
    b"set": (32,),
    b"price": (32, 32, 32, 32),
    b"step-up": (32,),
    b"averages": (32, 64, 64),
    b"thresholds": (32,) * 11,
    b"check": (32,) * 7,
    b"close": (),
    b"month": (16,),
    b"report": (),
}


class Malformed(Exception):
    """A line that is no call; the argument is the reason."""


def words_of(text):
    """The words of a text: runs of bytes above 32."""
    return re.findall(rb"[^\x00-\x20]+", text)


def number_of(word, width):
    """The value of a field's word, or Malformed."""
    if not NUMBER.fullmatch(word):
        raise Malformed("not a number")
    value = int(word)
    if value < 0:
        raise Malformed("negative number")
    if value >= 1 << width:
        raise Malformed("number too large")
    return value


def fields_of(words, widths):
    numbers = []
    for at, width in enumerate(widths):
        if at >= len(words):
            raise Malformed("missing number")
        numbers.append(number_of(words[at], width))
    if len(words) > len(widths):
        raise Malformed("too many words")
    return numbers


# --- model files ---

class ModelText:
    """The words of a model file, and how far they have been read."""

    def __init__(self, text):
        self.words = words_of(text)
        self.at = 0

    def next(self):
        """The next word, or None at the end."""
        return self.words[self.at] if self.at < len(self.words) else None

    def take(self):
        word = self.next()
        self.at += 1
        return word

    def take_number(self):
        word = self.take()
        if word is None or not NUMBER.fullmatch(word):
            raise Malformed("not a model file")
        return int(word)

    def take_numbers(self):
        numbers = []
        while self.next() is not None and NUMBER.fullmatch(self.next()):
            numbers.append(int(self.take()))
        return numbers


def numbers_of(make, sets, scenarios):
    """How many numbers a model of these counts has."""
    points = {"table": 121, "knot": 12}[make]
    return sets * 4 * points * (2 + scenarios)


def read_single(text):
    """A table or knot model, as far as its text goes."""
    word = text.take()
    if word not in (b"table", b"knot"):
        raise Malformed("not a model file")
    sets = text.take_number()
    scenarios = text.take_number()
    check_counts(sets, scenarios)
    numbers = text.take_numbers()
    if len(numbers) > numbers_of(word.decode(), sets, scenarios):
        raise Refused(32)
    if text.next() not in (None, b"table", b"knot"):
        raise Malformed("not a model file")
    return MAKES[word.decode()](sets, scenarios, numbers)


def read_model(data):
    """The model of a file's bytes; Refused or Malformed if there is none."""
    text = ModelText(data)
    if text.next() == b"joined":
        text.take()
        first = read_single(text)
        model = JoinedModel(first, read_single(text))
    else:
        model = read_single(text)
    if text.next() is not None:
        raise Malformed("not a model file")
    return model


# --- the run ---

class Run:
    def __init__(self):
        self.house = House()
        self.model = flat_model(0, 0, scenarios=20)

    def lines_of(self, words):
        """What a line of these words prints, each without its line number."""
        word, rest = words[0], words[1:]
        if word == b"model":
            return [self.load(rest)]
        if word not in FIELDS:
            raise Malformed("unknown word")
        numbers = fields_of(rest, FIELDS[word])
        name = word.decode()
        if name == "report":
            return self.report()
        if name == "open":
            number, house = opening(*numbers)
            if number == 0:
                self.house = house
            return ["open %d" % number]
        if name == "thresholds":
            numbers = [numbers[0], numbers[1:6], numbers[6:]]
        elif name == "check":
            numbers = numbers[:2] + [numbers[2:]]
        call = getattr(self.house, name.replace("-", "_"))
        answer = call(self.model, *numbers)
        return [name + " " + " ".join(map(str, answer))]

    def load(self, words):
        if not words:
            raise Malformed("missing file name")
        if len(words) > 1:
            raise Malformed("too many words")
        try:
            with open(words[0], "rb") as file:
                data = file.read()
        except OSError:
            raise Malformed("cannot read file") from None
        try:
            self.model = read_model(data)
        except Refused as refused:
            if refused.place is None:
                return "model %d" % refused.number
            return "model %d %d" % (refused.number, refused.place)
        return "model 0"

    def report(self):
        market, accounts = self.house.market, self.house.accounts
        lines = ["report %d %d %d %d %d" % (
            len(accounts), market.set, market.month, *market.volatility)]
        table = [("account", "obligation", "available", "shortfall",
                  "restriction", "trades")]
        for index, account in enumerate(accounts):
            table.append((index, account.obligation, account.available,
                          account.shortfall,
                          RESTRICTIONS[account.restriction()],
                          len(account.trades)))
        return lines + [REPORT_LINE % row for row in table]


def play(script):
    """The lines that a script of these bytes prints."""
    run = Run()
    printed = []
    for number, line in enumerate(script.split(b"\n"), 1):
        words = words_of(line.split(b"#", 1)[0])
        if not words:
            continue
        try:
            first, *others = run.lines_of(words)
        except Malformed as reason:
            first, others = "error %s" % reason, []
        printed.append("%d %s" % (number, first))
        printed += others
    return printed


def main():
    if len(sys.argv) != 1:
        sys.exit("usage: play_script.py < SCRIPT")
    for line in play(sys.stdin.buffer.read()):
        print(line)


if __name__ == "__main__":
    main()
