#!/usr/bin/env python3
"""Times how long `tv space` takes for each part of a composite file, and runs it where somebody else writes or nobody may.

    python3 bench/spaces.py [--built] [--rounds N]

makes an index of one segment whose postings are a composite file of so many parts, and runs `tv space` over it: with the parts in a
few fields of many indexes, and in many fields of a few, whose names come in order or backwards. Then it runs `tv space` beside a
`tv replay` that holds the writer lock, before and after a commit of that, and over a folder that its user can't write. The status is
1 where an answer is another than was expected, or a file of the folder changed.
"""

import argparse
import json
import os
import pathlib
import shutil
import subprocess
import sys
import tempfile
import time

import common
from composites import vint

PARTS = [1_000, 10_000, 100_000]
# How many fields the parts are in, at most: the names of more would not fit a schema.
MANY = 20_000
NOBODY = 65_534


def composite(parts):
    """The file of parts of one byte, each of a field and an index."""
    entries = [vint(min(at, 1)) + field.to_bytes(4, "little") + vint(index) for at, (field, index) in enumerate(parts)]
    footing = vint(len(parts)) + b"".join(entries)
    return bytes(len(parts)) + footing + len(footing).to_bytes(4, "little")


def spread(count, fields):
    """So many parts in so many fields, field by field."""
    return [(at * fields // count, at - -(-(at * fields // count) * count // fields)) for at in range(count)]


def write_space(folder, fields, backwards, parts):
    """Writes a schema of so many fields, and an index of one segment with these parts. Gives the words that measure it."""
    folder = pathlib.Path(folder)
    (folder / "index").mkdir()
    common.write_index(folder / "index", 1, lambda number: True)
    names = [f"f{fields - at if backwards else at:06}" for at in range(fields)]
    schema = json.dumps([{"name": name, "type": "t"} for name in names], separators=(",", ":"))
    (folder / "schema").write_text(schema)
    meta = folder / "index" / "meta.json"
    meta.write_text(meta.read_text().replace('"schema":[]', f'"schema":{schema}'))
    idx = folder / "index" / f"{common.segment(0)}.idx"
    idx.unlink()
    idx.write_bytes(composite(parts) + common.EMPTY)
    return ["space", folder / "index", folder / "schema"]


def measured(program, words, wanted, **options):
    """The seconds that a run takes which says these lines."""
    start = time.perf_counter()
    done = subprocess.run([program, *words], stdin=subprocess.DEVNULL, stdout=subprocess.PIPE, **options)
    took = time.perf_counter() - start
    if done.returncode != 0 or done.stdout.decode().splitlines() != wanted:
        sys.exit(f"status {done.returncode}, and it said {done.stdout[-100:].decode()}")
    return took


def lines_of(size):
    """What is said of a segment of one document whose postings take so much."""
    return [f"segment {common.segment(0)} 1 0 {size} 0 0 0 0 0 {size}", f"total {size}"]


def time_parts(program, rounds, name, most_fields, backwards):
    """Times files of more and more parts, in so many fields at most."""
    trend = common.Trend()
    for count in PARTS:
        with tempfile.TemporaryDirectory() as folder:
            fields = min(count, most_fields)
            words = write_space(folder, fields, backwards, spread(count, fields))
            took = min(measured(program, words, lines_of(count)) for _ in range(rounds))
            print(f"{count} parts in {fields} fields{name}: {took * 1e3:.1f} ms, {trend.add(took, count):.0f} ns a part")
    print(f"the last takes {trend.percent():.0f} % of the first")


def state_of(folder):
    """The names of a folder, each with its bytes and with when it was written."""
    return {path.name: (path.read_bytes(), path.stat().st_mtime_ns) for path in pathlib.Path(folder).iterdir()}


def beside_a_writer(program):
    """Measures a folder while a replay holds its writer lock, before and after a commit."""
    with tempfile.TemporaryDirectory() as place:
        words = common.replay_in(place)
        with subprocess.Popen([program, *words], stdin=subprocess.PIPE, stdout=subprocess.PIPE, text=True) as writer:

            def tell(*lines):
                for line in lines:
                    writer.stdin.write(line + "\n")
                    writer.stdin.flush()
                    answer = writer.stdout.readline().strip()
                return answer

            writer.stdout.readline()
            measured(program, ["space", *words[1:]], ["total 0"])
            segment = common.segment(7)
            files = [f"{word} {segment} {name}" for name in common.EXTENSIONS for word in ("open", "seal")]
            told = tell(f"segment {segment}", *files, f"docs {segment} 2", f"commit - {segment}")
            if told != "commit 1 1":
                sys.exit(f"the writer told {told}")
            before = state_of(words[1])
            measured(program, ["space", *words[1:]], [f"segment {segment} 2 0 0 0 0 0 0 0 0", "total 0"])
            if state_of(words[1]) != before:
                sys.exit("a file of the writer's folder changed")
            if tell("commit +6869") != "commit 2 0":
                sys.exit("the writer did not go on")
            writer.stdin.close()
            if writer.wait() != 0:
                sys.exit("the writer ended otherwise")
    print("beside a writer: as it should be")


def in_a_folder_of_others(program):
    """Measures a folder that the user who runs the program can't write."""
    if os.geteuid() == 0 and shutil.which("setpriv") is None:
        print("in a folder that can't be written: left out, since root writes all")
        return
    with tempfile.TemporaryDirectory() as place:
        # The program is copied, since it may lie where only its owner looks.
        own = pathlib.Path(place) / "tv"
        shutil.copy(program, own)
        own.chmod(0o755)
        words = write_space(place, 1, False, [(0, 0)])
        index = words[1]
        for path in [*index.iterdir(), words[2]]:
            path.chmod(0o444)
        index.chmod(0o555)
        pathlib.Path(place).chmod(0o755)
        command = [own, *words]
        if os.geteuid() == 0:
            command = ["setpriv", f"--reuid={NOBODY}", f"--regid={NOBODY}", "--clear-groups", *command]
        before = state_of(index)
        measured(command[0], command[1:], lines_of(1))
        if state_of(index) != before:
            sys.exit("a file of a folder that can't be written changed")
        index.chmod(0o755)
    print("in a folder that can't be written: as it should be")


def main():
    parser = argparse.ArgumentParser(description=__doc__, formatter_class=argparse.RawDescriptionHelpFormatter)
    parser.add_argument("--built", action="store_true", help="take the program as it lies there")
    parser.add_argument("--rounds", type=int, default=3, help="how often each file is measured")
    arguments = parser.parse_args()
    program = common.tv(arguments.built)
    time_parts(program, arguments.rounds, "", 10, False)
    time_parts(program, arguments.rounds, " in order", MANY, False)
    time_parts(program, arguments.rounds, " backwards", MANY, True)
    beside_a_writer(program)
    in_a_folder_of_others(program)


if __name__ == "__main__":
    sys.exit(main())
