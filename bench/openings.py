#!/usr/bin/env python3
"""Times how long it takes to open an index and to commit its segments again, for each segment of the commit."""

import argparse
import sys
import tempfile

import common

# How many segments the commit has. No line of a script names more than 31,774.
OPENED = [1_000, 10_000, 100_000]
COMMITTED = [1_000, 10_000, 31_000]


def seconds_of(program, under, segments, script):
    """How long an opening takes, and the script behind it."""
    with tempfile.TemporaryDirectory(dir=under) as place:
        words = common.replay_in(place)
        common.write_index(words[1], segments, lambda number: True)
        opening, rest, lines = common.timed_replay(program, words, script)
    if lines[0].split() != [b"open", b"1", str(segments).encode()]:
        sys.exit("another commit was opened")
    return opening, rest


def main():
    parser = argparse.ArgumentParser(description=__doc__)
    parser.add_argument("--built", action="store_true", help="take the program as it lies there")
    parser.add_argument("--runs", type=int, default=3, help="how often each is timed, the fastest counts")
    parser.add_argument("--under", help="where the folders are made, a folder for temporary files if left out")
    arguments = parser.parse_args()
    program = common.tv(arguments.built)
    openings, commits = common.Trend(), common.Trend()
    for segments in OPENED:
        took = min(seconds_of(program, arguments.under, segments, "")[0] for _ in range(arguments.runs))
        print(f"{segments} segments: {openings.add(took, segments):.0f} ns a segment to open")
    for segments in COMMITTED:
        script = " ".join(["commit -", *map(common.segment, range(segments))]) + "\n"
        took = min(seconds_of(program, arguments.under, segments, script)[1] for _ in range(arguments.runs))
        print(f"{segments} segments: {commits.add(took, segments):.0f} ns a segment to commit")
    print(f"the last takes {openings.percent():.0f} % of the first to open, {commits.percent():.0f} % to commit")


if __name__ == "__main__":
    sys.exit(main())
