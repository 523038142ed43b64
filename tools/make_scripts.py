#!/usr/bin/env python3
"""Make the sample scripts, their model files, and what should be printed.

    make_scripts.py             writes all of it anew, always the same
    make_scripts.py --big N     prints a script of N lines of mixed calls, for
                                timing; play it in crates/script_samples/data

Written are crates/marginday (the script of a day: stdin, stdout, data) and
crates/script_samples (args, stdout and data with NAME.script, NAME.expected).
What should be printed is worked out by play_script.py.  The scripts themselves
stand in day_script.py and sample_scripts.py.
"""

import os
import random
import shutil
import sys

import day_script
import play_script
import sample_scripts

ROOT = os.path.join(os.path.dirname(os.path.abspath(__file__)), "..", "crates")


def write(path, text):
    with open(path, "wb") as out:
        out.write(text if isinstance(text, bytes) else text.encode())


def fresh_folder(*names):
    folder = os.path.join(ROOT, *names)
    shutil.rmtree(folder, ignore_errors=True)
    os.makedirs(folder)
    return folder


def printed(script):
    text = script if isinstance(script, bytes) else script.encode()
    return "".join(line + "\n" for line in play_script.play(text))


def write_day():
    data = fresh_folder("marginday", "data")
    for name, text in day_script.models():
        write(os.path.join(data, name), text)
    os.chdir(data)
    script = day_script.script()
    write(os.path.join(ROOT, "marginday", "stdin"), script)
    write(os.path.join(ROOT, "marginday", "stdout"), printed(script))


def write_samples():
    data = fresh_folder("script_samples", "data")
    for name, text in sample_scripts.models():
        write(os.path.join(data, name), text)
    os.chdir(data)
    reached = set()
    names = []
    for name, script in sorted(sample_scripts.scripts().items()):
        expected = printed(script)
        known = sample_scripts.KNOWN.get(name)
        if known is not None and expected != known:
            sys.exit("%s differs from what is known" % name)
        names.append(name)
        reached |= reached_by(expected)
        write(os.path.join(data, name + ".script"), script)
        write(os.path.join(data, name + ".expected"), expected)
    samples = os.path.join(ROOT, "script_samples")
    write(os.path.join(samples, "args"), "".join(name + "\n" for name in names))
    write(os.path.join(samples, "stdout"),
          "".join(name + " as expected\n" for name in names))
    missing = sample_scripts.WANTED - reached
    if missing:
        sys.exit("not reached: %s" % sorted(map(str, missing)))
    print("%d scripts reach %d answers and errors" % (len(names), len(reached)))


def reached_by(expected):
    """Pairs of word and number, and of error and reason, that the lines show."""
    found = set()
    for line in expected.splitlines():
        if not line[0].isdigit():
            continue                    # the table of a report
        _, word, rest = line.split(" ", 2)
        if word == "error":
            found.add((word, rest))
        elif word != "report":
            found.add((word, int(rest.split()[0])))
    return found


def big(lines):
    """Lines of a house of 32 accounts in which most calls are accepted."""
    source = random.Random(20)
    out = ["open 32 300", "model knots.model", "price 0 9850 4 1", "price 1 10010 2 1",
           "averages 0 4000000000 60000", "averages 1 5000000000 80000",
           "thresholds 0" + " 10000" * 5 + " 6000" * 5,
           "thresholds 1" + " 12000" * 5 + " 7000" * 5]
    out += ["lodge-cash %d %d" % (account, 2_000_000_000) for account in range(32)]
    standing = {account: [] for account in range(32)}
    checks = days_of_checks()
    number = 0
    while len(out) < lines:
        account = int(source.random() * 32)
        choice = source.random()
        if choice < 0.40 and len(standing[account]) < 40:
            number += 1
            standing[account].append(number)
            out.append("trade %d %d %d %d %d %d %d" % (
                account, number, source.random() * 4, source.random() * 2,
                301 + source.random() * 119, 1 + source.random() * 300,
                55_000 + source.random() * 15_000))
        elif choice < 0.62 and standing[account]:
            at = int(source.random() * len(standing[account]))
            out.append("end %d %d" % (account, standing[account].pop(at)))
        elif choice < 0.75:
            out.append("lodge-cash %d %d" % (account, 1 + source.random() * 10_000_000))
        elif choice < 0.85:
            out.append("lodge-security %d %d %d" % (
                account, source.random() * 2, 1 + source.random() * 5))
        elif choice < 0.90:
            out.append("draw-cash %d %d" % (account, 1 + source.random() * 1_000_000))
        elif choice < 0.98:
            out.append("show %d" % account)
        elif choice < 0.99:
            out.append("price %d %d 4 1" % (source.random() * 2,
                                            9_700 + source.random() * 500))
        elif choice < 0.9925:
            out.append("step-up %d" % (source.random() * 10))
        elif choice < 0.995:
            out.append("set %d" % (source.random() * 2))
        else:
            out.append(next(checks))
    return out[:lines]


def days_of_checks():
    """Checks in every slot of both families and a close: a day on which the per
    cents rise, then one on which they fall, and so on."""
    while True:
        for returns in ("14000 13000 3000 3000 3000", "3000 4000 5000 4000 3000"):
            for slot in range(1, 5):
                for family in range(2):
                    yield "check %d %d %s" % (family, slot, returns)
            yield "close"


def main():
    arguments = sys.argv[1:]
    if not arguments:
        write_day()
        write_samples()
    elif len(arguments) == 2 and arguments[0] == "--big":
        print("\n".join(big(int(arguments[1]))))
    else:
        sys.exit("usage: make_scripts.py [--big N]")


if __name__ == "__main__":
    main()
