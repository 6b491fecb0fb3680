#!/usr/bin/env python3
"""Times how fast the program `tv` takes lines that write to one open file.

Each script opens one file and then has only `write` lines, each of 64 bytes. The seconds for the
longest script may be at most 12 times those for the one before it, which has a tenth of its lines.
"""

import argparse
import subprocess
import sys
import tempfile
import time

import common

ID = "a5c4dfcbdfe645089129e308e26d5523"
BYTES = 64
LINES = [1_000, 10_000, 100_000]
LIMIT = 12


def script_of(lines):
    """A script that opens one file and then has this many `write` lines."""
    digits = "".join(f"{byte:02x}" for byte in range(BYTES))
    opening = f"segment {ID}\nopen {ID} idx\n"
    return opening + f"write {ID} idx {digits}\n" * lines


def report_of(lines):
    """What has to be told of that script."""
    told = ["open 0 0", f"segment {ID}", f"opened {ID}.idx"]
    told += [f"wrote {ID}.idx {BYTES * (i + 1)}" for i in range(lines)]
    return "".join(f"{line}\n" for line in told)


def seconds_of(program, script, report):
    """How long the program takes for a script, whose report is looked at."""
    with tempfile.TemporaryDirectory() as place, tempfile.TemporaryFile() as told:
        words = common.replay_in(place)
        script.seek(0)
        start = time.perf_counter()
        done = subprocess.run([program, *words], stdin=script, stdout=told)
        seconds = time.perf_counter() - start
        told.seek(0)
        if done.returncode != 0 or told.read().decode() != report:
            sys.exit("the program told something else")
    return seconds


def main():
    parser = argparse.ArgumentParser(description=__doc__.splitlines()[0])
    parser.add_argument("--built", action="store_true", help="take the program as it lies there")
    parser.add_argument("--runs", type=int, default=5, help="runs of each script, the fastest counts")
    arguments = parser.parse_args()
    program = common.tv(arguments.built)
    fastest = {}
    for lines in LINES:
        report = report_of(lines)
        with tempfile.TemporaryFile() as script:
            script.write(script_of(lines).encode())
            fastest[lines] = min(seconds_of(program, script, report) for _ in range(arguments.runs))
        print(f"{lines} lines: {fastest[lines]:.4f} s, {lines / fastest[lines]:.0f} lines a second")
    _, middle, longest = LINES
    factor = fastest[longest] / fastest[middle]
    word = "at most" if factor <= LIMIT else "MORE THAN"
    print(f"{longest} lines took {factor:.1f} times as long as {middle}: {word} {LIMIT} times")
    return 0 if factor <= LIMIT else 1


if __name__ == "__main__":
    sys.exit(main())
