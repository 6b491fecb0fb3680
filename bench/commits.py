#!/usr/bin/env python3
"""Times commits of `tv` over a folder of plain files, in commits a second, side by side with C and Lucene.

Each commit is of one new segment of six files, of which one has a single byte and five are empty, and replaces
the one before. Without `--collect` the files of the segments before stay, so that the list of managed files grows
by six names a commit, and with it what is written for each new file; with it each commit is followed by a
collection, which deletes those of the segment before.

- `tv` replays a script of these events, and tells its lines to nobody.
- `commits.c` makes the same calls on the folder, in the same order and on the same names, and nothing else: what
  C can do by the same order of writes and syncs. Both have to leave the same files.
- `Commits.java` commits one document of one byte with Lucene 8, which deletes the files of the commit before. It
  has an order of its own, with fewer files and syncs. Without the jar it is left out.

All run once in each round, each time in a new folder, and each round starts with the next one. Before a run all
that was written goes to the device, so that no run pays for another one's writes. The seconds of all rounds are
summed: of the whole process for `tv` and C, of the commits alone for Lucene, since Java takes long to start. Then
the system calls on the folder are counted in runs of their own under `strace`.
"""

import argparse
import collections
import os
import pathlib
import re
import shutil
import subprocess
import sys
import tempfile
import time

import common

JARS = pathlib.Path("/usr/share/java")
LIMIT = 0.9
COUNTED = {
    "fsync and fdatasync": ["fsync", "fdatasync"],
    "rename": ["rename", "renameat", "renameat2"],
    "open and openat": ["open", "openat"],
}
# A line of strace: the name of the call, its arguments, and its answer. Calls that never answer are left out.
CALL = re.compile(r"\d+ +(\w+)\((.*)\) += (-?\d+)")


def script_of(commits, collects):
    """A script of this many commits, each of a new segment alone, and after each a collection if wanted."""
    lines = []
    for commit in range(1, commits + 1):
        segment = common.segment(commit)
        lines.append(f"segment {segment}")
        for extension in common.EXTENSIONS:
            lines.append(f"open {segment} {extension}")
            if extension == "idx":
                lines.append(f"write {segment} {extension} 61")
            lines.append(f"seal {segment} {extension}")
        # A segment without documents would be left out of the commit.
        lines += [f"docs {segment} 1", f"commit - {segment}"]
        if collects and commit > 1:
            lines += [f"release segment {commit - 1:032x}", "gc"]
    return "".join(f"{line}\n" for line in lines)


def lucene():
    """The jar of Lucene 8, as Debian's liblucene8-java has it, or None."""
    jars = sorted(JARS.glob("lucene-core-8*.jar"))
    return jars[-1] if jars and shutil.which("java") else None


def commands_of(program, compiled, jar, arguments):
    """For each that is timed, what gives its command, from the words of a replay."""
    commits = str(arguments.commits)
    more = ["collect"] if arguments.collect else []
    commands = {
        "tv": lambda words: [program, *words],
        "C": lambda words: [compiled, words[1], commits, *more],
    }
    if jar is not None:
        commands["Lucene"] = lambda words: ["java", "-cp", jar, common.HERE / "Commits.java", words[1], commits]
    return commands


def run(command, script):
    """Runs a command on a script. Gives the seconds that it took, or that it tells itself, as Lucene does."""
    tells = command[0] == "java"
    with open(script, "rb") as lines:
        start = time.perf_counter()
        done = subprocess.run(command, stdin=lines, stdout=subprocess.PIPE if tells else subprocess.DEVNULL)
        seconds = time.perf_counter() - start
    if done.returncode != 0:
        sys.exit(f"{pathlib.Path(command[0]).name} ended with status {done.returncode}")
    return int(done.stdout) / 1e9 if tells else seconds


def files_in(folder):
    """The bytes of each file of a folder."""
    return {file.name: file.read_bytes() for file in folder.iterdir()}


def in_turn(names, number):
    """The names in the order of the round with this number, where round 0 has them as they stand."""
    first = number % len(names)
    return names[first:] + names[:first]


def timed(commands, script, arguments):
    """The seconds of each, one number for each round."""
    seconds = {name: [] for name in commands}
    for number in range(arguments.rounds):
        left = {}
        for name in in_turn(list(commands), number):
            with tempfile.TemporaryDirectory(dir=arguments.under) as place:
                words = common.replay_in(place)
                os.sync()
                seconds[name].append(run(commands[name](words), script))
                left[name] = files_in(words[1])
        if left["tv"] != left["C"]:
            sys.exit("tv and C have left different files")
    return seconds


def calls_of(command, script, under):
    """How often each system call is made on the folder, and how often elsewhere; refused ones are counted apart."""
    inside, elsewhere = collections.Counter(), collections.Counter()
    with tempfile.TemporaryDirectory(dir=under) as place, tempfile.NamedTemporaryFile("r") as log:
        words = common.replay_in(pathlib.Path(place).resolve())
        # The path of each open file is printed with its number, so that the folder stands in each call on it.
        run(["strace", "-f", "-y", "-o", log.name, *command(words)], script)
        for line in log:
            found = CALL.match(line)
            if found is None:
                continue
            name, of, answer = found.groups()
            counts = inside if str(words[1]) in of and name != "execve" else elsewhere
            counts[f"{name} refused" if answer.startswith("-") else name] += 1
    return inside, elsewhere


def listed(counts):
    """Calls with how many of each there are, the most frequent first."""
    return ", ".join(f"{number} {name}" for name, number in counts.most_common()) or "none"


def print_calls(commands, script, arguments):
    """Counts the calls of `tv` and of C on the folder, and says where they differ."""
    if shutil.which("strace") is None:
        print("system calls: not counted, since strace isn't here")
        return
    (ours, elsewhere), (theirs, _) = (calls_of(commands[name], script, arguments.under) for name in ("tv", "C"))
    for what, names in COUNTED.items():
        first, second = (sum(counts[name] for name in names) for counts in (ours, theirs))
        print(f"{what}: {first} of tv, {second} of C ({first / arguments.commits:.1f} a commit of tv)")
    print(f"all on the folder of tv: {listed(ours)}")
    print(f"beyond those of C: {listed(ours - theirs)}")
    print(f"of C alone: {listed(theirs - ours)}")
    print(f"of tv elsewhere: {listed(elsewhere)}")


def beside(seconds, other):
    """How many times as fast as another one `tv` is in all rounds, and words that tell it with single rounds."""
    ours, theirs = seconds["tv"], seconds[other]
    ratio = sum(theirs) / sum(ours)
    single = [their / our for our, their in zip(ours, theirs)]
    words = f"tv is {ratio:.2f} times as fast as {other} ({min(single):.2f} to {max(single):.2f} in single rounds)"
    return ratio, words


def print_speeds(seconds, jar, arguments):
    """Says how fast each is, and how fast `tv` is beside the others."""
    for name, took in seconds.items():
        speed = arguments.commits * len(took) / sum(took)
        print(f"{name if name != 'Lucene' else jar.stem}: {speed:.1f} commits a second")
    ratio, words = beside(seconds, "C")
    print(f"{words}: {'at least' if ratio >= LIMIT else 'LESS THAN'} {LIMIT} times")
    if "Lucene" in seconds:
        print(beside(seconds, "Lucene")[1])
    else:
        print("Lucene: left out, since java or its jar isn't here (Debian's liblucene8-java has that)")


def main():
    parser = argparse.ArgumentParser(description=__doc__.splitlines()[0])
    parser.add_argument("--built", action="store_true", help="take the program as it lies there")
    parser.add_argument("--commits", type=int, default=200, help="how many commits a run makes")
    parser.add_argument("--collect", action="store_true", help="collect the segment before after each commit")
    parser.add_argument("--rounds", type=int, default=4, help="how often each is run, in turn")
    parser.add_argument("--under", help="where the folders are made, a folder for temporary files if left out")
    arguments = parser.parse_args()
    program, jar = common.tv(arguments.built), lucene()
    with tempfile.TemporaryDirectory() as work:
        compiled = common.compiled("commits.c", work)
        if compiled is None:
            sys.exit("commits.c could not be built")
        script = pathlib.Path(work) / "script"
        script.write_text(script_of(arguments.commits, arguments.collect))
        commands = commands_of(program, compiled, jar, arguments)
        print_speeds(timed(commands, script, arguments), jar, arguments)
        print_calls(commands, script, arguments)
    return 0


if __name__ == "__main__":
    sys.exit(main())
