"""What the benchmarks share: how programs are built, where `tv` replays a script, and in which indexes."""

import os
import pathlib
import subprocess
import sys
import tempfile
import time

HERE = pathlib.Path(__file__).resolve().parent
CRATES = HERE.parent / "crates"

# The files of a segment, but for that of its deletes, in the order of their names, as `commits.c` has them.
EXTENSIONS = ["fast", "fieldnorm", "idx", "pos", "store", "term"]
# A sealed file without a body: its footer, the length of that, and the number 1337.
FOOTER = b'{"version":{"major":0,"minor":26,"patch":2,"index_format_version":7},"crc":0}'
EMPTY = FOOTER + len(FOOTER).to_bytes(4, "little") + (1337).to_bytes(4, "little")
# A file of that many names is left alone, and the next one is made.
MOST_NAMES = 60_000


def program_of(crate, is_built, *words):
    """The program of a crate, which is proved and built where that isn't done yet, and then run on these words."""
    program = CRATES / crate / "out" / crate
    if not is_built:
        command = ["rt", "run", "--", *words]
        nowhere = {"stdin": subprocess.DEVNULL, "stdout": subprocess.DEVNULL}
        if subprocess.run(command, cwd=CRATES / crate, **nowhere).returncode != 0:
            sys.exit("the program could not be built")
    if not program.exists():
        sys.exit("the program isn't built")
    return program


def tv(is_built):
    """The program `tv`, which is built by a replay of nothing."""
    with tempfile.TemporaryDirectory() as place:
        return program_of("tv", is_built, *replay_in(place))


def replay_in(place):
    """The words for a replay in a new folder at this place, under a schema without fields."""
    place = pathlib.Path(place)
    (place / "index").mkdir()
    (place / "schema").write_text("[]")
    return "replay", place / "index", place / "schema"


def compiled(source, folder, *libraries):
    """The program of a C file of this folder, or None where it can't be built, as without a library's header."""
    program = pathlib.Path(folder) / source.removesuffix(".c")
    command = ["cc", "-O2", "-o", program, HERE / source, *libraries]
    try:
        done = subprocess.run(command, stderr=subprocess.DEVNULL)
    except FileNotFoundError:
        return None
    return program if done.returncode == 0 else None


def segment(number):
    """The id of the segment of this number."""
    return f"{number:032x}"


def files_of(number):
    """The names of its files, in their order."""
    return [f"{segment(number)}.{extension}" for extension in EXTENSIONS]


def write_index(folder, segments, lives):
    """Writes an index with empty files of so many segments, and a commit of those of them that live, of one document each."""
    folder = pathlib.Path(folder)
    names = [name for number in range(segments) for name in files_of(number)]
    for at, name in enumerate(names):
        if at % MOST_NAMES == 0:
            (folder / name).write_bytes(EMPTY)
            first = folder / name
        else:
            os.link(first, folder / name)
    listed = ",".join(f'"{name}"' for name in [*names, "meta.json"])
    (folder / ".managed.json").write_text(f"[{listed}]\n")
    living = [number for number in range(segments) if lives(number)]
    metas = ",".join(f'{{"segment_id":"{segment(number)}","max_doc":1}}' for number in living)
    (folder / "meta.json").write_text(f'{{"segments":[{metas}],"schema":[],"opstamp":1}}\n')


def timed_replay(program, words, script):
    """Replays a script. Gives the seconds until the opening is told, those from there to the end, and the lines."""
    with tempfile.TemporaryFile() as lines:
        lines.write(script.encode())
        lines.seek(0)
        start = time.perf_counter()
        with subprocess.Popen([program, *words], stdin=lines, stdout=subprocess.PIPE) as running:
            opening = running.stdout.readline()
            opened = time.perf_counter()
            told = running.stdout.read()
        ended = time.perf_counter()
    if running.returncode != 0:
        sys.exit(f"the replay said {(opening + told)[-100:].decode()}")
    return opened - start, ended - opened, [opening, *told.splitlines()]


class Trend:
    """How long something takes for one of so many, at the first size and at the last one so far."""

    def __init__(self):
        self.first = self.last = None

    def add(self, seconds, count):
        """Takes the seconds at the next size, and gives the nanoseconds for one."""
        self.last = seconds * 1e9 / count
        self.first = self.first or self.last
        return self.last

    def percent(self):
        """How many hundredths of the first time the last one is."""
        return self.last * 100 / self.first
