"""Runs drawn scripts beside workers, and holds what they print against a plain model."""
import concurrent.futures
import os
import pathlib
import random

from cupdaisy import scripts, session
from cupdaisy.command_line import add_numbers, keep, parser_of
from cupdaisy.processes import run
from cupdaisy.program import program
from cupdaisy.streams import texts_of
from cupdaisy.workspace import SAMPLES

SECONDS, UNITS, ROOM, ROOMS, MOST_WANTED = 60, 16, 4096, (64, 1, 4096), 64
FILES = sorted(SAMPLES.glob("*.264"))
# The text of a unit without a slice.
DELIMITER = bytes((0, 0, 1, 9, 0x10))


class Drawn:
    """A script that is drawn and answered line by line: for each line the texts that may be printed."""

    def __init__(self, seed, texts):
        self.rng, self.model, self.texts = random.Random(seed), session.Session(ROOM), {}
        # The keys whose pictures are known to be there, the ids that are wanted, and whether the rest is on.
        self.ready, self.ids, self.is_on = set(), [], True
        self.lines, self.wanted, self.edits, self.shows = [], [], 0, 0
        for number, text in enumerate(texts):
            self.insert(number, text)

    def add(self, line):
        """A line more; the model's answer."""
        name, *operands = scripts.command_of(line.encode())
        self.lines.append(line)
        if name in ("settle", "drop", "clear", "want", "rest"):
            self.wanted.append(getattr(self, name)(*operands))
            return ""
        text = "".join(scripts.answer(self.model, True, name, operands))
        self.wanted.append(name == "show" and shown(self.model, operands[0], self.ready) or {text})
        self.shows += name == "show"
        self.edits += text.startswith("edit ")
        self.ready &= self.keys()
        return text

    def keys(self):
        """The keys in use."""
        return {row.key for row in self.model.rows} - {None}

    def keys_of(self, numbers):
        """The keys of those units of these ids that are there and valid."""
        places = {self.model.place(number) for number in numbers} - {None}
        return {self.model.rows[at].key for at in places} - {None}

    def settle(self, *number):
        """A wait for all pictures, or for that of a unit; while the rest is off, for those that are wanted."""
        self.ready |= self.keys_of(number) if number else self.keys() if self.is_on else self.keys_of(self.ids)
        return {"settled\n"}

    def drop(self, number):
        """A picture that goes, if it is there."""
        keys = self.keys_of([number])
        words = ["none"] if self.model.place(number) is None else ["not held"] if not keys else \
            ["dropped"] if keys <= self.ready else ["dropped", "not held"]
        self.ready -= keys
        return {f"drop {number} {word}\n" for word in words}

    def clear(self):
        """The cached pictures go."""
        return {"cleared\n"}

    def want(self, ids):
        """A list of wanted ids in the place of the last one."""
        if len(ids) > MOST_WANTED:
            return {"refused 22 TooManyWanted\n"}
        self.ids = ids
        return {f"wanted {len(ids)}\n"}

    def rest(self, switch):
        """The rest is on or off."""
        self.is_on = switch == "on"
        return {f"rest {switch}\n"}

    def add_group(self, lines):
        """A group of these edits; the model's answer."""
        edits = [scripts.command_of(line.encode()) for line in lines]
        text = "".join(scripts.answer(self.model, True, "group", [edits]))
        self.lines += ["group", *lines, "end"]
        self.wanted.append({text})
        self.edits += not text.startswith("group refused")
        self.ready &= self.keys()
        return text

    def insert(self, before, text):
        """A unit after the one of this id, or first."""
        answer = self.add(f"insert after {before} {text.hex()}" if before else f"insert first {text.hex()}")
        if answer.startswith("edit "):
            self.texts[self.model.ids] = text

    def unit(self):
        """The place and the id of a unit that is there."""
        at = self.rng.randrange(len(self.model.stream))
        return at, self.model.stream[at][0]

    def draw(self):
        """A command more, or a few that belong together."""
        at, number = self.unit()
        text, other = self.texts[number], bytes(self.rng.choices(range(4, 256), k=3))
        kinds = {"show": 8, "change": 6, "restore": 3, "remove": 3, "refused": 2, "settle": 1, "empty": 1, "group": 3, "jump": 3,
                 "drop": 2}
        kind = self.rng.choices(list(kinds), list(kinds.values()))[0]
        if kind == "change":
            self.add(f"replace {number} {(text + other).hex()}")
        elif kind == "empty":
            self.add(f"replace {number} {DELIMITER.hex()}")
            self.add(f"show {number}")
        elif kind == "group":
            self.draw_group(at, number, text)
        elif kind == "jump":
            self.draw_jump(number)
        elif kind == "drop":
            self.add(f"drop {self.rng.choice((number, number, self.model.ids + 1))}")
            self.add(self.rng.choice((f"show {number}", f"settle {number}", "clear")))
        elif kind == "restore":
            self.add(f"replace {number} {text.hex()}")
        elif kind == "remove":
            before = self.model.stream[at - 1][0] if at else 0
            self.add(f"delete {number}")
            self.add(f"show {self.unit()[1]}")
            self.insert(before, text)
        elif kind == "refused":
            self.add(self.rng.choice((f"delete {self.model.ids + 1}", f"replace {number} 00000168", f"insert after 0 {text.hex()}")))
        else:
            self.add("settle" if kind == "settle" else f"show {number}")

    def draw_jump(self, number):
        """A cursor that jumps: what is wanted changes, and now and then the rest goes off, or on again."""
        if self.rng.random() < 0.3:
            self.add(f"rest {self.rng.choice(('on', 'on', 'off'))}")
        count = self.rng.choice((0, 1, 1, 2, 5, MOST_WANTED, MOST_WANTED + 1))
        ids = [number] + [self.rng.randint(0, self.model.ids + 2) for _ in range(count)]
        self.add(" ".join(["want", *map(str, ids[:count])]))
        self.add(self.rng.choice(("settle", f"settle {number}", f"show {number}")))
        self.add(f"show {number}")

    def draw_group(self, at, number, text):
        """A unit that comes back as one step, beside another that is changed; or a group of which an edit is refused."""
        place, other = f"after {self.model.stream[at - 1][0]}" if at else "first", self.unit()[1]
        again = [f"delete {number}", f"insert {place} {text.hex()}"]
        if self.rng.random() < 0.3:
            self.add_group(again + [f"delete {number}"])
            return
        if other != number:
            again.append(f"replace {other} {self.texts[other].hex()}")
        if not self.add_group(again).startswith("group refused"):
            self.texts[self.model.ids] = text


def drawn(seed, count, texts):
    """A script of some more than so many commands, at whose end all pictures are shown."""
    script = Drawn(seed, texts)
    while len(script.lines) < count:
        script.draw()
    for line in ["rest on", "settle"] + [f"show {number}" for number in range(1, script.model.ids + 1)]:
        script.add(line)
    return script.lines, script.wanted, f"agreed {script.edits} edits {script.shows} shows\n"


def shown(model, number, known):
    """What may be shown of a unit that is there and valid: its picture, or that it is pending where that isn't known."""
    at = model.place(number)
    if at is None or model.rows[at].key is None:
        return None
    ready = f"show {number} ready {model.pictures[model.rows[at].key].hex()}\n"
    return {ready} if model.rows[at].key in known else {ready, f"show {number} pending\n"}


def output_of(command, script):
    """What a run prints, or what is wrong with it."""
    ran = run([*command, "-"], script, SECONDS)
    if ran.status is None:
        return None, f"no end within {SECONDS} s"
    if ran.status or ran.errors:
        return None, f"status {ran.status}, on standard error {ran.errors[:200]!r}"
    return ran.output.decode(), ""


def verdict(task):
    """What is wrong with the runs of a drawn script, if anything, and its lines."""
    command, workers, seed, count, texts = task
    lines, wanted, agreed = drawn(seed, count, texts)
    script, options = "\n".join(lines).encode(), ["--workers", str(workers), "--cache", str(ROOMS[seed % len(ROOMS)])]
    text, wrong = output_of([command, "run", "--hex", *options], script)
    if wrong:
        return f"run: {wrong}", lines
    found = text.splitlines(keepends=True)
    for at, (line, texts) in enumerate(zip(found, wanted)):
        if line not in texts:
            return f"run: {line!r} answers {lines[at][:60]!r}, not {sorted(texts)}", lines
    if len(found) != len(wanted):
        return f"run: {len(found)} lines, not {len(wanted)}", lines
    text, wrong = output_of([command, "audit", *options], script)
    return wrong and f"audit: {wrong}" or (f"audit: {text!r}, not {agreed!r}" if text != agreed else ""), lines


def main(doc):
    parser = parser_of(doc)
    add_numbers(parser, runs=20, commands=1000, seed=0, workers=8)
    parser.add_argument("--keep", type=pathlib.Path, metavar="FOLDER")
    parser.add_argument("program", metavar="PROGRAM", nargs="?")
    options = parser.parse_args()
    chosen = options.program or program()
    parts = [texts_of(file.read_bytes())[:UNITS] for file in FILES]
    seeds = range(options.seed, options.seed + options.runs)
    tasks = [(chosen, options.workers, seed, options.commands, parts[seed % len(parts)]) for seed in seeds]
    failures = commands = 0
    with concurrent.futures.ProcessPoolExecutor(max(os.cpu_count() // 2, 1)) as pool:
        for seed, (found, lines) in zip(seeds, pool.map(verdict, tasks)):
            commands += len(lines)
            if found:
                failures += 1
                print(f"seed {seed}: {found}", flush=True)
                keep(options.keep, f"{seed}.script", ("\n".join(lines) + "\n").encode())
    print(f"{len(seeds)} scripts, {commands} commands beside {options.workers} workers, {failures} failures")
    return 1 if failures else 0
