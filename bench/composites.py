#!/usr/bin/env python3
"""Times how long a composite file takes to open, for each field that it has a body of."""

import argparse
import pathlib
import subprocess
import sys
import tempfile

import common

FIELDS = [1_000, 10_000, 100_000]


def vint(number):
    """A number in groups of seven bits, the lowest first. The last byte has 128 added."""
    groups = []
    while number >= 128:
        groups.append(number % 128)
        number //= 128
    return bytes([*groups, number + 128])


def composite(fields):
    """The file of so many fields, each with a body of one byte."""
    entries = [vint(min(field, 1)) + field.to_bytes(4, "little") + vint(0) for field in range(fields)]
    footing = vint(fields) + b"".join(entries)
    return bytes(fields) + footing + len(footing).to_bytes(4, "little")


def main():
    parser = argparse.ArgumentParser(description=__doc__)
    parser.add_argument("--built", action="store_true", help="take the program as it lies there")
    parser.add_argument("--rounds", type=int, default=5, help="how often each file is opened, five times in a run")
    arguments = parser.parse_args()
    program = common.program_of("tv_timings", arguments.built)
    trend = common.Trend()
    with tempfile.TemporaryDirectory() as folder:
        for fields in FIELDS:
            file = pathlib.Path(folder) / "composite"
            file.write_bytes(composite(fields))
            took = []
            for _ in range(arguments.rounds):
                with open(file, "rb") as bytes_of:
                    done = subprocess.run([program, "composite"], stdin=bytes_of, stdout=subprocess.PIPE, check=True)
                length, nanos = map(int, done.stdout.split())
                if length != 1:
                    sys.exit("the body of field 0 has another length")
                took.append(nanos)
            print(f"{fields} fields: {trend.add(min(took) / 1e9, fields):.0f} ns a field")
    print(f"the last takes {trend.percent():.0f} % of the first")


if __name__ == "__main__":
    sys.exit(main())
