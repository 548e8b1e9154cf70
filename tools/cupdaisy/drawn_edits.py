"""Runs sessions of drawn edits over long streams, and compares with plans of the streams as they then are."""
import concurrent.futures
import os
import pathlib
import random
import tempfile
from typing import NamedTuple

from cupdaisy.command_line import keep, parser_of
from cupdaisy.processes import printed
from cupdaisy.program import program
from cupdaisy.streams import cut, slices_in, split, text_of

SECONDS, LEAST, MOST, NEAR, ALL = 100, 300, 2000, 40, 50


class Unit(NamedTuple):
    number: int
    text: bytes


def units_of(file):
    """The texts of a stream's units, but for one without a slice: `plan` reads its NAL units with those of the next one."""
    return [text_of(nals) for nals in cut(split(file.read_bytes())) if slices_in(nals)]


def drawn_stream(rng, files):
    """The texts of a stream: beginnings of the files' units, one after the other."""
    texts, length = [], rng.randint(LEAST, MOST)
    while len(texts) < length:
        units = rng.choice(files)
        texts += units[:rng.randint(1, len(units))]
    return texts[:length]


class Drawn:
    """A stream under drawn edits: its units, and the script's lines with the units that each is to show, by their places."""

    def __init__(self, rng, files):
        self.rng, self.pool = rng, [text for units in files for text in units]
        self.begin = drawn_stream(rng, files)
        self.units = [Unit(number, text) for number, text in enumerate(self.begin, 1)]
        self.ids, self.edits, self.undo = len(self.units), len(self.units), None

    def edit(self):
        """The line of the next edit, what it prints, and the place where the stream changed."""
        rng, undo, self.undo = self.rng, self.undo, None
        kind = rng.choice(("insert", "delete", "replace", "replace", "undo", "undo"))
        if kind == "undo" and undo:
            kind, at, text = undo
        else:
            kind = "replace" if kind == "undo" else kind
            at = rng.randrange(len(self.units))
            near = self.units[max(at - rng.randint(0, 2), 0)].text
            text = rng.choice((near, rng.choice(self.pool), rng.choice(self.pool)))
        self.edits += 1
        line, number = getattr(self, kind)(at, text)
        return line, f"edit {self.edits} id {number}", at

    def insert(self, at, text):
        self.ids += 1
        line = f"insert after {self.units[at - 1].number}" if at else "insert first"
        self.units.insert(at, Unit(self.ids, text))
        self.undo = ("delete", at, b"")
        return f"{line} {text.hex()}", self.ids

    def delete(self, at, _):
        gone = self.units.pop(at)
        self.undo = ("insert", at, gone.text)
        return f"delete {gone.number}", gone.number

    def replace(self, at, text):
        number, former = self.units[at]
        self.units[at] = Unit(number, text)
        self.undo = ("replace", at, former)
        return f"replace {number} {text.hex()}", number


def run(words, **how):
    """What the program prints; it has to end well and in time."""
    return printed(words, timeout=SECONDS, **how)


def written(folder, units):
    """A file with the texts of these units."""
    file = pathlib.Path(folder) / "units.264"
    file.write_bytes(b"".join(unit.text for unit in units))
    return file


def plan_of(command, folder, units):
    """The lines of each unit as `plan` prints them, with the units' ids in the place of those that the file gives them."""
    groups = []
    for line in run([*command, "plan", written(folder, units)]).splitlines():
        if line.startswith("unit "):
            groups.append([])
        groups[-1].append(renumbered(line, units))
    return groups


def renumbered(line, units):
    words = line.split(" ")
    number, dot, rest = words[1].partition(".")
    words[1] = f"{units[int(number) - 1].number}{dot}{rest}"
    if words[0] == "request":
        words[3] = time_of(words[3], units)
        entries = (entry.partition(":") for entry in words[11].split(",") if entry != "-")
        words[11] = ",".join(time_of(time, units) + colon + rest for time, colon, rest in entries) or "-"
    return " ".join(words)


def time_of(time, units):
    return str(1000 * units[int(time) // 1000 - 1].number)


def shown_of(command, folder, units):
    """What a session that loads the units shows of each once all is settled."""
    script = f"load {written(folder, units)}\nsettle\n" + "".join(f"show {n}\n" for n in range(1, len(units) + 1))
    return [renumbered(line, units) for line in run([*command, "run", "--hex", "-"], input=script).splitlines()[2:]]


def session(command, seed, edits, files):
    """A session's script, and where what it prints isn't what it has to, if anywhere."""
    rng = random.Random(seed)
    drawn = Drawn(rng, files)
    with tempfile.TemporaryDirectory() as folder:
        first = pathlib.Path(folder) / "first.264"
        first.write_bytes(b"".join(drawn.begin))
        lines, wanted = [f"load {first}"], [f"loaded {len(drawn.units)}"]
        for count in range(1, edits + 1):
            line, answer, at = drawn.edit()
            lines.append(line)
            wanted.append(answer)
            groups = plan_of(command, folder, drawn.units)
            places = range(len(drawn.units)) if count % ALL == 0 else sorted(
                {*range(max(at - 3, 0), min(at + NEAR, len(drawn.units))), *rng.sample(range(len(drawn.units)), 9)})
            for place in places:
                lines.append(f"unit {drawn.units[place].number}")
                wanted += groups[place]
        lines.append("settle")
        wanted += ["settled", *shown_of(command, folder, drawn.units)]
        lines += [f"show {unit.number}" for unit in drawn.units]
        script = "".join(line + "\n" for line in lines)
        found = run([*command, "run", "--hex", "-"], input=script).splitlines()
    if found == wanted:
        return script, ""
    at = next((at for at, (a, b) in enumerate(zip(found, wanted)) if a != b), min(len(found), len(wanted)))
    return script, f"line {at + 1}: {found[at:at + 1]}, not {wanted[at:at + 1]}"


def main(doc):
    parser = parser_of(doc)
    parser.add_argument("--sessions", type=int, default=20)
    parser.add_argument("--edits", type=int, default=500)
    parser.add_argument("--seed", type=int, default=0)
    parser.add_argument("--keep", type=pathlib.Path, metavar="FOLDER")
    parser.add_argument("files", type=pathlib.Path, metavar="FILE", nargs="+")
    options = parser.parse_args()
    command, files, failures = [program()], [units_of(file) for file in options.files], 0
    seeds = range(options.seed, options.seed + options.sessions)
    with concurrent.futures.ProcessPoolExecutor(os.cpu_count()) as pool:
        tasks = [pool.submit(session, command, seed, options.edits, files) for seed in seeds]
        for seed, task in zip(seeds, tasks):
            script, wrong = task.result()
            if wrong:
                failures += 1
                print(f"seed {seed}: {wrong}", flush=True)
                keep(options.keep, f"{seed}.script", script.encode())
    print(f"{options.sessions} sessions of {options.edits} edits, {failures} failures")
    return 1 if failures else 0
