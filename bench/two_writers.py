#!/usr/bin/env python3
"""Two processes write one folder at a time that suits neither, and what was told to either is looked for afterwards.

    python3 bench/two_writers.py [--pairs N] [--under FOLDER] [--built] [--seed N]

starts pairs of `tv replay` over one folder, the second at a moment within the first one's run: over an empty folder and over an
index, with commits alone and with files and collections. N pairs (200) end where the lock is refused, and N try again until it is
given. It counts told commits that are gone, stamps that were told twice, files that the list or the commit misses, and
temporary files that are left. The status is 1 where any count isn't 0.
"""

import argparse
import collections
import json
import pathlib
import random
import subprocess
import sys
import tempfile
import threading
import time

import common

COMPONENTS = ("idx", "pos", "term", "store", "fast", "fieldnorm")
TRIES = 2_000
COUNTS = ("lost", "doubled", "unlisted", "missing", "temporary", "failed")


def payload(writer, number):
    """The payload of a writer's commit of this number, which no other commit has."""
    return f"{writer}{number:04}"


def commits(writer, count):
    """Commits without segments."""
    return [f"commit +{payload(writer, number).encode().hex()}" for number in range(count)]


def files(writer, count):
    """Commits of a new segment each; the files of the one before are collected."""
    lines, before = [], None
    for number in range(count):
        segment = f"{random.getrandbits(120):030x}{ord(writer):02x}"
        lines.append(f"segment {segment}")
        lines += [f"{word} {segment} {name}" for name in COMPONENTS for word in ("open", "seal")]
        lines += [f"docs {segment} 1", f"commit +{payload(writer, number).encode().hex()} {segment}"]
        if before:
            lines += [f"release segment {before}", "gc"]
        before = segment
    return lines


class Writer(threading.Thread):
    """One process over the folder, begun anew where the lock was refused, if it is to try again."""

    def __init__(self, program, place, lines, delay, again):
        super().__init__()
        self.command = [program, "replay", place / "index", place / "schema"]
        self.script = "".join(line + "\n" for line in lines)
        self.delay, self.again = delay, again
        self.told, self.status, self.refusals, self.seconds = [], None, 0, 0.0

    def run(self):
        time.sleep(self.delay)
        for _ in range(TRIES if self.again else 1):
            began = time.perf_counter()
            ran = subprocess.run(self.command, input=self.script, capture_output=True, text=True)
            self.seconds = time.perf_counter() - began
            self.told, self.status = ran.stdout.splitlines(), ran.returncode
            if self.told != ["error lock"]:
                return
            self.refusals += 1

    def is_refused(self):
        return self.told == ["error lock"] and self.status == 1

    def stamps(self):
        """The stamp of the opening line, and those of the commits."""
        words = [line.split(" ") for line in self.told]
        opened = [int(it[1]) for it in words if it[0] == "open" and it[1].isdigit()]
        return opened[0], [int(it[1]) for it in words if it[0] == "commit"]


def names_of(segments):
    """The files that a commit requires."""
    return [f"{it['segment_id'].replace('-', '')}.{name}" for it in segments for name in COMPONENTS]


def look(folder, writers, begun):
    """What is wrong in the folder, where these writers have ended, and `begun` was the stamp before."""
    found = collections.Counter()
    ended = []
    for writer in writers:
        if writer.status == 0:
            ended.append((*writer.stamps(), writer))
        elif not writer.is_refused():
            found["failed"] += 1
    told = collections.Counter(stamp for _, stamps, _ in ended for stamp in stamps)
    found["doubled"] += sum(count - 1 for count in told.values())
    last = begun
    for opened, stamps, _ in sorted(ended, key=lambda it: it[0]):
        found["lost"] += max(last - opened, 0)
        last = max([last, opened, *stamps])
    meta = json.loads((folder / "meta.json").read_text())
    found["lost"] += max(last - meta["opstamp"], 0)
    for _, stamps, writer in ended:
        if stamps and stamps[-1] == meta["opstamp"]:
            mine = [bytes.fromhex(line.split(" ")[1][1:]).decode() for line in writer.script.splitlines() if line.startswith("commit")]
            found["lost"] += mine[-1] != meta.get("payload")
    there = {it.name for it in folder.iterdir()}
    listed = set(json.loads((folder / ".managed.json").read_text()))
    found["unlisted"] += len({it for it in there if not it.startswith(".")} - listed)
    found["missing"] += len(set(names_of(meta["segments"])) - there)
    found["temporary"] += len({it for it in there if it.startswith(".")} - {".managed.json", ".tantivy-writer.lock", ".tantivy-meta.lock"})
    return found


def pair(program, under, begins, lines_of, again, length):
    """Runs two writers over a new folder, and answers what is wrong afterwards, how often a lock was refused, and a run's seconds."""
    with tempfile.TemporaryDirectory(dir=under) as at:
        place = pathlib.Path(at)
        common.replay_in(place)
        begun = 0
        if begins:
            first = Writer(program, place, files("z", 1), 0, False)
            first.run()
            begun = first.stamps()[1][-1]
        delays = (0, random.uniform(0, 1.3 * length))
        writers = [Writer(program, place, lines_of(name, random.randint(1, 3)), delay, again) for name, delay in zip("ab", delays)]
        for it in writers:
            it.start()
        for it in writers:
            it.join()
        found = look(place / "index", writers, begun)
        return found, sum(it.refusals for it in writers), max((it.seconds for it in writers if it.status == 0), default=length)


def main():
    words = argparse.ArgumentParser(description=__doc__.splitlines()[0])
    words.add_argument("--pairs", type=int, default=200)
    words.add_argument("--under")
    words.add_argument("--built", action="store_true")
    words.add_argument("--seed", type=int, default=None)
    given = words.parse_args()
    random.seed(given.seed)
    program = common.tv(given.built)
    total = collections.Counter()
    for again in (False, True):
        for begins in (False, True):
            for lines_of in (commits, files):
                found, refused, length = collections.Counter(), 0, 0.01
                count = max(given.pairs // 4, 1)
                for _ in range(count):
                    wrong, refusals, seconds = pair(program, given.under, begins, lines_of, again, length)
                    found += wrong
                    refused += refusals
                    length += 0.1 * (seconds - length)
                total += found
                told = ", ".join(f"{it} {found[it]}" for it in COUNTS)
                print(
                    f"{count} pairs over {'an index' if begins else 'an empty folder'}, {lines_of.__name__}"
                    f"{', trying again' if again else ''}: the lock refused {refused} times; {told}",
                    flush=True,
                )
    print(f"all: {', '.join(f'{it} {total[it]}' for it in COUNTS)}")
    sys.exit(1 if any(total.values()) else 0)


main()
