#!/usr/bin/env python3
"""Print a script of random lines, good and bad.

    random_script.py SEED LINES

The same numbers give the same script.  The model files it names are those of
crates/script_samples/data: play it in that folder, with play_script.py and with
the program, and compare the two.
"""

import random
import sys

GOOD_MODELS = ("knots.model", "table.model", "joined.model", "mixed.model",
               "steps.model", "sets8.model", "spread.model", "tail199.model",
               "tail200.model", "highest.model", "lowest.model", "blanks.model")
BAD_MODELS = ("r31_huge.model", "r32_first_many.model", "r33_huge.model",
              "r33_second.model", "n_empty.model", "n_two.model",
              "n_joined_one.model", "no_such_file.model")
JUNK = ("x", "-", "--3", "+7", "1.5", "-1", "-0", "00012", "1e3", "0x9", "4294967295",
        "4294967296", "18446744073709551615", "18446744073709551616",
        "-18446744073709551616", "255", "256", "65535", "65536", "caf\u00e9", "open",
        "9" * 50)
BLANKS = (" ", " ", " ", " ", "  ", "\t", " \r ", "\x0b", "\x01", "\0")


class Maker:
    def __init__(self, seed):
        self.source = random.Random(seed)
        self.accounts = 1
        self.month = 0
        self.begin_day()
        self.numbers = 0

    def below(self, limit):
        return int(self.source.random() * limit)

    def chance(self, part):
        return self.source.random() < part

    def one_of(self, *choices):
        return choices[self.below(len(choices))]

    def begin_day(self):
        self.slots = [0, 0]
        self.calm = [self.chance(0.5), self.chance(0.5)]

    def account(self):
        return self.accounts if self.chance(0.02) else self.below(self.accounts)

    def number(self):
        """A trade number: mostly one of the last few."""
        return max(0, self.numbers - self.below(12))

    def family(self):
        return 2 if self.chance(0.03) else self.below(2)

    def security(self):
        return self.one_of(31, 32) if self.chance(0.05) else self.below(3)

    def maturity(self):
        if self.chance(0.06):
            return max(0, self.month + self.one_of(-1, 120, 121))
        return self.month + self.below(self.one_of(4, 13, 61, 121))

    def notional(self):
        if self.chance(0.05):
            return self.one_of(0, 1, 1_000_000, 1_000_001)
        return 1 + self.below(self.one_of(20, 300, 3_000))

    def amount(self):
        if self.chance(0.04):
            return self.one_of(0, 1, 10 ** 14, 10 ** 14 + 1)
        return 1 + self.below(self.one_of(1_000, 10 ** 7, 10 ** 9))

    def mark(self):
        if self.chance(0.02):
            return self.one_of(0, 1_000_000, 1_000_001)
        return self.one_of(9_000, 10_000, 11_000, 13_000)

    def fields(self, word):
        if word == "open":
            accounts = self.one_of(1, 2, 3, 4, 6, 32, 33, 0)
            month = self.one_of(0, 300, 300, 311, 1190, 1199, 1200)
            if 1 <= accounts <= 32 and month <= 1199:
                self.accounts, self.month = accounts, month
                self.begin_day()
            return accounts, month
        if word == "trade":
            self.numbers += 1
            number = self.number() if self.chance(0.05) else self.numbers
            return (self.account(), number,
                    4 if self.chance(0.02) else self.below(4),
                    2 if self.chance(0.02) else self.below(2),
                    self.maturity(), self.notional(),
                    self.one_of(0, 200_000, 200_001) if self.chance(0.04)
                    else 55_000 + self.below(15_000))
        if word == "end":
            return self.account(), self.number()
        if word in ("lodge-cash", "draw-cash"):
            return self.account(), self.amount()
        if word in ("lodge-security", "draw-security"):
            lots = self.one_of(0, 1_000_000, 1_000_001) if self.chance(0.05) \
                else 1 + self.below(self.one_of(5, 200, 5_000))
            return self.account(), self.security(), lots
        if word == "show":
            return (self.account(),)
        if word == "set":
            return (self.below(3),)
        if word == "price":
            return (self.security(),
                    self.one_of(0, 1, 30_000, 30_001) if self.chance(0.05)
                    else 9_000 + self.below(2_000),
                    self.one_of(0, 100, 101) if self.chance(0.05) else self.below(12),
                    2 if self.chance(0.03) else self.one_of(0, 1, 1, 1))
        if word == "step-up":
            return (self.one_of(100, 101) if self.chance(0.05) else self.below(20),)
        if word == "averages":
            if self.chance(0.05):
                return self.family(), self.one_of(0, 10 ** 16, 10 ** 16 + 1), 1
            return (self.family(), 1 + self.below(self.one_of(10 ** 8, 10 ** 10)),
                    1 + self.below(self.one_of(2_000, 50_000)))
        if word == "thresholds":
            triggers = [self.mark() for _ in range(5)]
            calm = [max(0, trigger - self.below(self.one_of(1, 5_000)))
                    for trigger in triggers]
            if self.chance(0.03):
                calm[self.below(5)] += 5_000
            return (self.family(), *triggers, *calm)
        if word == "check":
            family = self.family()
            slot = self.below(7)
            if family < 2 and self.chance(0.9):
                slot = self.slots[family] + 1
                self.slots[family] = min(slot, 4)
            size = self.one_of(9_000, 15_000, 25_000, 40_000)
            if family < 2 and self.calm[family]:
                size = 4_200        # mostly below the calm marks
            returns = [self.below(size) for _ in range(5)]
            if self.chance(0.03):
                returns[self.below(5)] = self.one_of(1_000_000, 1_000_001)
            return (family, slot, *returns)
        if word == "close":
            self.begin_day()
        if word == "month":
            month = self.month + self.one_of(-1, 0, 1, 1, 1, 2, 7, 30)
            if self.month < month <= 1199:
                self.month = month
            return (max(month, 0),)
        return ()

    def line(self):
        word = self.one_of(
            "trade", "trade", "trade", "trade", "trade", "trade", "end", "end",
            "lodge-cash", "lodge-cash", "lodge-cash", "draw-cash", "draw-cash",
            "lodge-security", "lodge-security", "draw-security", "show", "show", "show",
            "price", "price", "step-up", "averages", "thresholds", "check", "check",
            "check", "set", "month", "model", "report")
        if self.chance(0.004):
            word = "open"
        if self.chance(0.2 if max(self.slots) == 4 else 0.005):
            word = "close"
        if word == "model":
            return [word, self.one_of(*BAD_MODELS) if self.chance(0.3)
                    else self.one_of(*GOOD_MODELS)]
        return [word] + [str(field) for field in self.fields(word)]

    def written(self, words):
        """The words as a line, now and then damaged or oddly spaced."""
        if self.chance(0.06):
            at = self.below(len(words))
            how = self.below(4)
            if how == 0:
                del words[at]
            elif how == 1:
                words.insert(at + 1, self.one_of(*JUNK))
            elif how == 2:
                words[at] = self.one_of(*JUNK)
            else:
                words.append(self.one_of(*JUNK))
        if self.chance(0.05):
            text = self.one_of(*BLANKS) + "".join(
                word + self.one_of(*BLANKS) for word in words)
        else:
            text = " ".join(words)
        if self.chance(0.04):
            text += self.one_of("#", " # a comment", "# 5", "\r")
        if self.chance(0.01):
            text = self.one_of("", "#", "  \t", "# " + text)
        return text


def main():
    if len(sys.argv) != 3:
        sys.exit("usage: random_script.py SEED LINES")
    maker = Maker(int(sys.argv[1]))
    lines = []
    if maker.chance(0.9):
        maker.accounts, maker.month = 2 + maker.below(5), 300
        lines.append("open %d 300" % maker.accounts)
        lines += ["lodge-cash %d %d" % (account, 1 + maker.below(10 ** 9))
                  for account in range(maker.accounts)]
    while len(lines) < int(sys.argv[2]):
        lines.append(maker.written(maker.line()))
    sys.stdout.buffer.write("\n".join(lines).encode())
    if maker.chance(0.8):
        sys.stdout.buffer.write(b"\n")


if __name__ == "__main__":
    main()
