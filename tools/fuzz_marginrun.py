"""Runs marginrun on random and damaged event files.

    fuzz_marginrun.py PROGRAM SAMPLES [COUNT] [SEED]

Every run has to end with status 0 and print only lines that the format has: an opening's line
first, then answers in the order of the records, and at most one fault, as the last line.
"""
import os
import random
import re
import subprocess
import sys

OPENING = re.compile(r"^1 1 (0|1|29|30)$")
ANSWER = re.compile(r"^(\d+) (10|12|13) (\d+) (\d+) (\d+) (\d+) ([0-3])$")
FAULT = re.compile(r"^(\d+) fault ([1-5]) (\d+)$")


def wrong(text):
    """What is wrong with the output of a run, or None."""
    if text and not text.endswith("\n"):
        return "no line feed at the end"
    lines = text.split("\n")[:-1]
    for at, line in enumerate(lines, 1):
        fault = FAULT.match(line)
        if fault:
            if at != len(lines):
                return f"line {at} follows a fault"
            if fault.group(2) == "5":
                return None if text == "0 fault 5 0\n" else "fault 5 is not alone"
            if int(fault.group(1)) != at:
                return f"fault at record {fault.group(1)}, line {at}"
        elif at == 1:
            if not OPENING.match(line):
                return "the first line is no opening's"
            if line != "1 1 0" and len(lines) > 1:
                return "lines follow a refused opening"
        else:
            answer = ANSWER.match(line)
            if not answer or int(answer.group(1)) != at:
                return f"line {at}: {line}"
            if int(answer.group(3)) > 18:
                return f"line {at}: refusal {answer.group(3)}"
    return None


def damaged(data, rng):
    """A sample with a few bytes changed, cut out or put in, or random bytes."""
    if rng.random() < 0.1:
        return bytes(rng.randrange(256) for _ in range(rng.randrange(200)))
    data = bytearray(data)
    for _ in range(rng.randrange(1, 6)):
        kind = rng.randrange(4)
        at = rng.randrange(len(data) + 1)
        if kind == 0 and at < len(data):
            data[at] = rng.randrange(256)
        elif kind == 1:
            del data[at:at + rng.randrange(1, 20)]
        elif kind == 2:
            data[at:at] = bytes(rng.randrange(256) for _ in range(rng.randrange(1, 8)))
        else:
            data = data[:at] + data[at:] * rng.randrange(1, 3)
    return bytes(data[:70000])


def main():
    program, folder = sys.argv[1:3]
    count = int(sys.argv[3]) if len(sys.argv) > 3 else 1000
    rng = random.Random(int(sys.argv[4]) if len(sys.argv) > 4 else 1)
    names = sorted(n for n in os.listdir(folder) if n.endswith(".ev"))
    files = [open(os.path.join(folder, n), "rb").read() for n in names]
    for turn in range(count):
        data = damaged(rng.choice(files), rng)
        run = subprocess.run([program], input=data, capture_output=True)
        fault = f"status {run.returncode}" if run.returncode else wrong(run.stdout.decode("ascii"))
        if fault:
            print(f"turn {turn}: {fault}")
            open("/tmp/failing.ev", "wb").write(data)
            sys.exit(1)
    print(f"{count} runs, all as the format has it")


if __name__ == "__main__":
    main()
