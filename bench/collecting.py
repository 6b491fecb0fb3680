#!/usr/bin/env python3
"""Times how long a collection takes for each name that it deletes, at once and in steps, where as many names live."""

import argparse
import sys
import tempfile

import common

# How many names are deleted (those of the files of whole segments), and how often that is timed. The fastest counts.
SIZES = [(1_002, 9), (10_002, 5), (100_002, 3)]

# How many hundredths of the time for a name of the first size one of the last may take. Where the time goes with n log n, it
# takes 170, and more where memory is far; where it goes with the square, 10,000.
LIMIT = 500


def seconds_of(program, under, names, script, told):
    """How long the collection of a script takes in an index of twice as many files, of which every second segment lives."""
    with tempfile.TemporaryDirectory(dir=under) as place:
        words = common.replay_in(place)
        common.write_index(words[1], 2 * names // len(common.EXTENSIONS), lambda number: number % 2 == 0)
        _, seconds, lines = common.timed_replay(program, words, script)
    if len(lines[1].split()) != names + told:
        sys.exit("the collection took something else")
    return seconds


def main():
    parser = argparse.ArgumentParser(description=__doc__)
    parser.add_argument("--built", action="store_true", help="take the program as it lies there")
    parser.add_argument("--under", help="where the folders are made, a folder for temporary files if left out")
    arguments = parser.parse_args()
    program = common.tv(arguments.built)
    once, steps = common.Trend(), common.Trend()
    for names, runs in SIZES:
        # The answers are `gc deleted`, the names, and `failed`; and `gc 0` and the names.
        ways = [(once, "gc\n", 3), (steps, "gc-begin\n" + "gc-step 0\n" * names + "gc-end 0\n", 2)]
        nanos = [
            trend.add(min(seconds_of(program, arguments.under, names, script, told) for _ in range(runs)), names)
            for trend, script, told in ways
        ]
        print(f"{names} names: {nanos[0]:.0f} ns a name at once, {nanos[1]:.0f} ns in steps")
    most = max(once.percent(), steps.percent())
    print(f"the last takes {once.percent():.0f} % of the first at once, {steps.percent():.0f} % in steps")
    return 0 if most <= LIMIT else 1


if __name__ == "__main__":
    sys.exit(main())
