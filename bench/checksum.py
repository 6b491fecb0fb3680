#!/usr/bin/env python3
"""Times the checksum of 64 MiB side by side with zlib's crc32.

Both have to tell the same checksum, and that of `tv_checksum` has to be at least half as fast.
"""

import argparse
import pathlib
import random
import subprocess
import sys
import tempfile
import time
import zlib

import common

BYTES = 64 << 20
RUNS = 5
LIMIT = 0.5


def told_by(command, file):
    """The checksum that a program tells of a file, and the nanoseconds of its fastest run."""
    with open(file, "rb") as bytes:
        done = subprocess.run(command, stdin=bytes, stdout=subprocess.PIPE, check=True)
    sum, nanos = done.stdout.split()
    return int(sum), int(nanos)


def told_by_python(bytes):
    """The same of Python's own zlib."""
    took = []
    for _ in range(RUNS):
        start = time.perf_counter_ns()
        sum = zlib.crc32(bytes)
        took.append(time.perf_counter_ns() - start)
    return sum, min(took)


def main():
    parser = argparse.ArgumentParser(description=__doc__.splitlines()[0])
    parser.add_argument("--built", action="store_true", help="take the program as it lies there")
    parser.add_argument("--rounds", type=int, default=5, help="how often both are run, in turn")
    arguments = parser.parse_args()
    timings = common.program_of("tv_timings", arguments.built)
    ours, theirs = [], []
    with tempfile.TemporaryDirectory() as folder:
        bytes = random.Random(0).randbytes(BYTES)
        file = pathlib.Path(folder) / "bytes"
        file.write_bytes(bytes)
        program = common.compiled("zlib_crc32.c", folder, "-lz")
        for _ in range(arguments.rounds):
            sum, nanos = told_by([timings, "checksum"], file)
            ours.append(nanos)
            want, nanos = told_by([program], file) if program else told_by_python(bytes)
            theirs.append(nanos)
            if sum != want:
                sys.exit(f"the checksum is {want}, and {sum} was told")
    speeds = [BYTES * 1000 / min(nanos) for nanos in (ours, theirs)]
    caller = "C" if program else "Python"
    print(f"tv_checksum: {speeds[0]:.0f} MB a second")
    print(f"zlib, called from {caller}: {speeds[1]:.0f} MB a second")
    ratio = speeds[0] / speeds[1]
    word = "at least" if ratio >= LIMIT else "LESS THAN"
    print(f"the first is {ratio:.2f} times as fast as the second: {word} {LIMIT} times")
    return 0 if ratio >= LIMIT else 1


if __name__ == "__main__":
    sys.exit(main())
