#!/usr/bin/env python3
"""Drives drawn sessions through the module for Python, and compares every answer with the plain model in tools/.

    tests/python/drawn.py [--sessions N] [--steps N] [--seed N] FILE..

Each of N sessions (10 by default), by a seed of its own from --seed on, makes so many steps (60 by default): edits whose texts
are the files' units, whole or damaged, groups of edits, loads, and jobs that are taken, landed and given back in any order.
The host decodes by the structs that it is told: a surface holds the digest of a job's requests, of their bytes and of what the
surfaces hold that the job refers to. Each answer is compared, and after each step the whole stream: ids, outcomes, positions,
keys, what is told of doubts, what the surfaces hold that are shown, the requests of one unit and of one job with all their bytes,
and which surfaces the session has. At the end the journal is that of the accepted edits.

Exit status: 0 if nothing differs, else 1.
"""
import hashlib
import importlib.util
import os
import pathlib
import random
import sys
import tempfile

sys.path.append(str(pathlib.Path(__file__).resolve().parent.parent.parent / "tools"))

from cupdaisy import doubts, fold, kernel_structs, scripts, session as model    # noqa: E402
from cupdaisy.command_line import NOT_INSTALLED, parser_of    # noqa: E402
from cupdaisy.streams import START, Refused, texts_of    # noqa: E402
from cupdaisy.workspace import TOP    # noqa: E402

# The package in python/, which has the name of the tools' package.
HOME = TOP / "python" / "cupdaisy"
INTERFACE = importlib.util.spec_from_file_location("interface", HOME / "__init__.py", submodule_search_locations=[str(HOME)])
interface = importlib.util.module_from_spec(INTERFACE)
sys.modules["interface"] = interface
INTERFACE.loader.exec_module(interface)
# The model's names of edits, as kinds of the interface.
KINDS = {"first": interface.INSERT_FIRST, "after": interface.INSERT_AFTER, "delete": interface.DELETE,
         "replace": interface.REPLACE}
CACHE, MOST_UNITS = 4096, 24
STEPS = ("edit", "edit", "edit", "edit", "group", "load", "take", "take", "take_for", "take_for", "land", "give", "settle",
         "settle_for", "drop", "drop", "uncache", "released", "mark")


class Differs(Exception):
    """The library and the model answer differently."""


def same(what, found, wanted):
    if found != wanted:
        raise Differs(f"{what}: {found!r}, and by the model {wanted!r}")


def answered(call, *operands):
    """What a call answers, or the number and the index that it is refused with."""
    try:
        return call(*operands)
    except interface.Refused as refused:
        return ("refused", refused.status, refused.index)


def buffered(request):
    """The timestamps of the frames in the decoded picture buffer of a request of the model's, in their order."""
    entries = request.line.split(" ")[11]
    return [int(entry.split(":")[0]) for entry in entries.split(",")] if entries != "-" else []


def asked(edit):
    """An edit of the model's, as the interface has it: its kind, its id and its text."""
    name, *operands = edit
    return KINDS[name], 0 if name == "first" else operands[0], b"" if name == "delete" else operands[-1]


class Session(interface.Session):
    """A session whose host knows surfaces that it took back: it uses none of them again while a job refers to it."""

    def __init__(self, cache):
        super().__init__(cache)
        self.known = {}    # by their handles

    def land(self, job, surface):
        self.known[self.given + 1] = surface
        return super().land(job, surface)

    def job_references(self, job):
        found = (self.written(interface.records.JobReference(), "job_reference", job, index)
                 for index in range(self.job_input(job).references))
        return [(each.timestamp, self.known[each.surface]) for each in found]


class Drawn:
    """A session and its model."""

    def __init__(self, rng, files, memory, session):
        self.rng, self.memory, self.session = rng, memory, session
        self.model, self.texts = model.Session(CACHE), [text for units in files for text in units]
        self.files, self.jobs, self.journal = files, {}, []
        # The number of each key that was in use before the step, or is told in it.
        self.keys, self.numbers = {}, set()
        self.given, self.undo, self.at = {}, None, -1
        # What each surface of the host holds, by its number, and those that the session has.
        self.contents, self.has = [], set()

    def begin(self):
        """Inserts the first units of a file."""
        for text in self.rng.choice(self.files)[:self.rng.randint(0, 12)]:
            unit = self.model.edit(edit := ("after", self.model.stream[-1][0], text) if self.model.stream else ("first", text))
            same("insert", self.session.insert_last(text).id, unit)
            self.accepted([edit], [unit])

    def text(self):
        """A unit's text: one of the stream, the next one of the files, or any; now and then damaged."""
        rng, near = self.rng, [*self.given.values()]
        self.at = (self.at + 1) % len(self.texts) if rng.random() < 0.7 else rng.randrange(len(self.texts))
        text = bytearray(rng.choice(near) if near and rng.random() < 0.4 else self.texts[self.at])
        if rng.random() < 0.15:
            place = rng.randrange(len(text))
            text[place] = rng.randrange(256)
            text = text[:rng.choice((place, len(text), len(text)))]
        return bytes(text)

    def unit(self):
        """An id of the stream, or now and then one that isn't there."""
        ids = [unit[0] for unit in self.model.stream]
        return self.rng.choice(ids) if ids and self.rng.random() < 0.95 else self.rng.choice((0, 9999, 4294967295))

    def drawn_edit(self):
        """An edit, as the model has it: often one that undoes the last; few units are left in longer streams."""
        rng, undo, self.undo = self.rng, self.undo, None
        if undo and rng.random() < 0.5:
            return undo
        many = len(self.model.stream) >= MOST_UNITS
        kind = rng.choice(("delete", "delete", "replace") if many else ("first", "after", "after", "replace", "delete"))
        if kind == "first" and rng.random() < 0.2 or not self.model.stream:
            return "first", self.text()
        if kind == "delete":
            return "delete", self.unit()
        last = self.model.stream[-1][0]
        return (kind, self.unit(), self.text()) if kind == "replace" else ("after", rng.choice((last, self.unit())), self.text())

    def undoing(self, name, *operands):
        """The edit that undoes one that is made next, but for an insertion, whose id isn't there yet."""
        at = self.model.place(operands[0]) if name in ("delete", "replace") else None
        if at is None:
            return None
        former = self.given[operands[0]]
        if name == "replace":
            return "replace", operands[0], former
        return ("after", self.model.stream[at - 1][0], former) if at else ("first", former)

    def accepted(self, edits, ids):
        """Notes edits that were made together, and the ids that they are about."""
        self.journal.append([asked(edit) for edit in edits])
        for (name, *operands), unit in zip(edits, ids):
            self.given.pop(unit, None)
            if name != "delete":
                self.given[unit] = operands[-1]

    def edit(self):
        edit = self.drawn_edit()
        name, *operands = edit
        undo = self.undoing(*edit)
        calls = {"first": self.session.insert_first, "after": self.session.insert_after, "replace": self.session.replace,
                 "delete": self.session.delete}
        is_last = name == "after" and operands[0] == self.model.stream[-1][0]
        found = answered(self.session.insert_last, operands[1]) if is_last else answered(calls[name], *operands)
        try:
            unit = self.model.edit(edit)
        except Refused as refused:
            return same(f"{name} {operands[:-1]}", found, ("refused", refused.number, None))
        if not isinstance(found, interface.Receipt) or found.steps < (name != "delete"):
            raise Differs(f"{name} is answered by {found}")
        same(f"receipt of {name}", (found.number, found.id, found.changed_from, found.changed_count),
             (self.model.edits, unit, *self.model.changed))
        self.accepted([edit], [unit])
        self.undo = undo or ("delete", unit)

    def group(self):
        edits = [self.drawn_edit() for _ in range(self.rng.choice((0, 1, 2, 3, 5)))]
        found = answered(self.session.group, [asked(edit) for edit in edits])
        try:
            ids = self.model.group(edits)
        except model.GroupRefused as refused:
            words = str(refused).split(" ")
            number, index = (int(words[2]), int(words[1])) if words[0] == "at" else (int(words[0]), None)
            return same("group", found, ("refused", number, index))
        if not isinstance(found, tuple) or isinstance(found[0], str):
            raise Differs(f"a group is answered by {found}")
        same("group", (found[0].number, found[0].index, found[1], found[0].changed_from, found[0].changed_count),
             (self.model.edits, 0, ids, *self.model.changed))
        self.accepted(edits, ids)

    def load(self):
        units = self.rng.choice(self.files)
        begin = self.rng.choice((0, 0, self.rng.randrange(len(units))))
        text = b"".join(units[begin:begin + self.rng.randint(1, 4)])
        if self.rng.random() < 0.2:
            text = text[:self.rng.randrange(len(text))] + self.rng.randbytes(1) + b"\1\2"
        if len(self.model.stream) >= MOST_UNITS:
            return
        with tempfile.NamedTemporaryFile() as file:
            file.write(text)
            file.flush()
            before = self.model.ids
            words = scripts.loaded(self.model, file.name).split()
        found = answered(self.session.load, text)
        if "refused" in words:
            index = int(words[1]) if words[0] == "unit" else 0
            return same("load", found, ("refused", int(words[words.index("refused") + 1]), index))
        if not isinstance(found, interface.LoadReceipt):
            raise Differs(f"a load is answered by {found}")
        count = int(words[1])
        same("load", (found.number, found.units, found.first, found.index, found.changed_from, found.changed_count),
             (self.model.edits, count, before + 1, 0, len(self.model.stream) - count, count))
        # The first unit of an empty stream is inserted first, each other one after the one before it.
        texts = texts_of(text)
        afters = [unit[0] for unit in self.model.stream][-count - 1:-1] if len(self.model.stream) > count else [None, *(
            unit[0] for unit in self.model.stream[:-1])]
        for after, each in zip(afters, texts):
            before += 1
            self.accepted([("first", each) if after is None else ("after", after, each)], [before])

    def take(self):
        due = self.model.due()
        self.taken(answered(self.session.take), due, self.model.take())

    def take_for(self):
        unit = self.unit()
        needed = self.model.needed(unit)
        due = self.model.due(needed)
        self.taken(answered(self.session.take_for, unit), due, self.model.take(needed))

    def taken(self, found, due, taken):
        same("take", (found.number, found.unit) if isinstance(found, interface.Job) else found, taken)
        if taken is not None:
            rows = {unit[0]: row for unit, row in zip(self.model.stream, self.model.rows)}
            self.jobs[taken[0]] = taken[1], rows[taken[1]], {unit: row.key for unit, row in rows.items()}, due[1]

    def form(self, found, weights):
        """The digest form of a request's structs, and their values by the controls' names."""
        form, values = b"", {}
        for control in kernel_structs.CONTROLS:
            struct = weights if control == "pred_weights" else getattr(found, control)
            form += b"" if control != "pred_weights" else b"\0" if weights is None else b"\1"
            if struct is not None:
                values[control], more = self.memory.read(f"v4l2_ctrl_h264_{control}", bytes(struct))
                form += more
        return form, values

    def decoded(self, number):
        """What a job's picture holds: the digest of its requests and of the pictures in the surfaces of its references."""
        held = {timestamp: self.contents[surface] for timestamp, surface in self.session.job_references(number)}
        records = b""
        for place in range(self.session.job_input(number).slices):
            form, values = self.form(self.session.job_request(number, place), self.session.job_weights(number, place))
            records += kernel_structs.record(form, values["slice_params"], values["decode_params"]["dpb"],
                                             self.session.job_bytes(number, place), held)
        return hashlib.sha256(records).digest()

    def surface(self):
        """One that the session doesn't have, and no job that is out refers to."""
        referred = {surface for number in self.jobs for _, surface in self.session.job_references(number)}
        free = sorted(set(range(len(self.contents))) - self.has - referred)
        if not free or self.rng.random() < 0.2:
            self.contents.append(None)
            return len(self.contents) - 1
        return self.rng.choice(free)

    def landed(self, number):
        """Decodes a job into a surface, and lands it."""
        surface = self.surface()
        self.contents[surface] = self.decoded(number) if number in self.jobs else None
        found, wanted = answered(self.session.land, number, surface), self.model.land(number)
        same("land", found, {"taken": True, "stale": False, "none": ("refused", 105, None)}[wanted])
        if wanted == "taken":
            self.has.add(surface)
        self.jobs.pop(number, None)

    def came_back(self, surface):
        """What a surface holds that is the host's again."""
        if surface not in self.has:
            raise Differs(f"the surface {surface} comes back, which the session doesn't have")
        self.has.remove(surface)
        return self.contents[surface]

    def settle_for(self):
        """What a unit's picture needs is made; it is ready then, if none of it is out."""
        unit = self.unit()
        while (due := self.model.due(self.model.needed(unit))) is not None:
            self.taken(answered(self.session.take_for, unit), due, self.model.take(self.model.needed(unit)))
            self.landed(max(self.jobs))

    def drop(self):
        unit = self.unit()
        found, wanted = answered(self.session.drop, unit), self.model.drop(unit)
        if wanted == "dropped":
            same("drop", self.came_back(found), self.model.pictures[self.model.rows[self.model.place(unit)].key])
        else:
            same("drop", found, {"not held": None, "none": ("refused", 16, None)}[wanted])

    def uncache(self):
        """The picture that was cached first is one of the last group of the model's cache."""
        surface = self.session.uncache()
        if surface is None or not self.model.cached:
            return same("uncache", surface, None if not self.model.cached else "a surface")
        picture = self.came_back(surface)
        last = [key for key in self.model.cached[-1] if self.model.pictures[key] == picture]
        same("uncache, pictures of the last group", len(last), 1)
        self.model.cached[-1].remove(last[0])
        self.model.cached = [group for group in self.model.cached if group]

    def released(self):
        """The cache is large enough here, so that nothing is released."""
        same("released", [*self.session.released()], [])

    def job(self):
        """The number of a job that is out, or now and then of none."""
        return self.rng.choice([*self.jobs]) if self.jobs and self.rng.random() < 0.9 else self.rng.choice((0, 7777, 1))

    def land(self):
        self.landed(self.job())

    def give(self):
        number = self.job()
        found, wanted = answered(self.session.give_back, number), self.model.leave(number)
        same("give back", found, ("refused", 105, None) if wanted is None else None)
        self.jobs.pop(number, None)

    def settle(self):
        while self.model.due():
            self.take()
            self.landed(max(self.jobs))

    def request(self, what, found, weights, text, wanted, timestamp, is_last):
        """A request by the model's: what is told beside the controls, their digest form, and the references' timestamps."""
        same(f"{what}, timestamp, hold and unit's begin", (found.timestamp, found.hold, found.unit_begins),
             (timestamp, int(not is_last), len(START)))
        same(f"{what}, bytes", (found.bytes, text), (len(wanted.text), wanted.text))
        form, values = self.form(found, weights)
        same(f"{what}, whether it has weights", found.has_weights, int(weights is not None))
        same(f"{what}, digest form", form.hex(), wanted.form.hex())
        times = buffered(wanted)
        same(f"{what}, reference_ts", [entry["reference_ts"] for entry in values["decode_params"]["dpb"]],
             times + [0] * (16 - len(times)))

    def frame(self, what, found, first, text_of, requests):
        """The request of a whole picture, by that of its first slice and the model's of all."""
        text = b"".join(request.text for request in requests)
        same(f"{what}, frame", (found.timestamp, found.bytes, found.slices), (first.timestamp, len(text), len(requests)))
        for control in ("sps", "pps", "scaling_matrix"):
            same(f"{what}, {control} of the frame", bytes(getattr(found, control)), bytes(getattr(first, control)))
        whole, of_first = (self.memory.read("v4l2_ctrl_h264_decode_params", bytes(each.decode_params))[0]
                           for each in (found, first))
        types = {request.line.split(" ")[7] for request in requests}
        of_first["flags"] |= 16 if "1" in types else 8 if "0" in types else 0
        same(f"{what}, decode_params of the frame", [name for name in whole if whole[name] != of_first[name]], [])
        same(f"{what}, bytes of the frame", text_of(True), text)
        same(f"{what}, bytes without start codes", answered(text_of, False),
             text[len(START):] if len(requests) == 1 else ("refused", 118, None))

    def unit_requests(self):
        valid = [(unit[0], row) for unit, row in zip(self.model.stream, self.model.rows) if row.key is not None]
        if not valid:
            return
        unit, row = self.rng.choice(valid)
        requests = row.outcome.requests
        for place, wanted in enumerate(requests):
            self.request(f"unit {unit} slice {place}", self.session.unit_request(unit, place),
                         self.session.unit_weights(unit, place), self.session.unit_bytes(unit, place), wanted, 1000 * unit,
                         place + 1 == len(requests))
        self.frame(f"unit {unit}", self.session.unit_frame(unit), self.session.unit_request(unit, 0),
                   lambda start: self.session.unit_frame_bytes(unit, start), requests)
        same("a slice past the last", answered(self.session.unit_request, unit, len(requests)), ("refused", 106, None))

    def job_requests(self):
        """Those of a job that is out, as they were when it was taken."""
        if not self.jobs:
            return
        number = self.rng.choice([*self.jobs])
        unit, row, keys, key = self.jobs[number]
        requests = row.outcome.requests
        for place, wanted in enumerate(requests):
            self.request(f"job {number} slice {place}", self.session.job_request(number, place),
                         self.session.job_weights(number, place), self.session.job_bytes(number, place), wanted, 1000 * unit,
                         place + 1 == len(requests))
        self.frame(f"job {number}", self.session.job_frame(number), self.session.job_request(number, 0),
                   lambda start: self.session.job_frame_bytes(number, start), requests)
        found = self.session.job_input(number)
        same(f"job {number}", (found.unit, found.slices), (unit, len(requests)))
        same(f"job {number}, its picture", self.decoded(number), self.model.pictures[key])
        named = {1000 * each: self.model.pictures[keys[each]] for request in requests for each in request.entries
                 if each is not None}
        found = [(timestamp, self.contents[surface]) for timestamp, surface in self.session.job_references(number)]
        same(f"job {number}, its references", found, [(time, named[time]) for time in buffered(requests[0]) if time in named])

    def stream(self):
        """The whole stream."""
        same("ids", self.session.ids(), [unit[0] for unit in self.model.stream])
        same("past the end", (self.session.id_at(len(self.model.stream)), self.session.unit_at(len(self.model.stream))),
             (None, None))
        for place, ((unit, _), row) in enumerate(zip(self.model.stream, self.model.rows)):
            same("place", self.session.place(unit), place)
            found, outcome = self.session.outcome(unit), row.outcome
            if isinstance(outcome, fold.Plan):
                self.plan(unit, row, found)
            else:
                kind, number = (interface.FAULT, outcome.number) if isinstance(outcome, fold.Fault) else (interface.EMPTY, 0)
                same(f"outcome of {unit}", (found.kind, found.fault, found.slices), (kind, number, 0))
                same(f"show {unit}", self.session.show(unit), None)
                same(f"key of {unit}", answered(self.session.key, unit), ("refused", 107, None))

    def doubts(self):
        """Which units follow a damage, and which of them are in doubt: of a stretch, and past the end."""
        told = [(follows or 0, int(in_doubt)) for follows, in_doubt in doubts.told_in(self.model)]
        begin, count = self.rng.randint(0, len(told) + 1), self.rng.choice((0, 1, 3, len(told), 1000))
        found = [(doubt.follows, doubt.in_doubt) for doubt in self.session.doubts(begin, count)]
        same(f"doubts of {count} units from {begin} on", found, told[begin:begin + count])

    def keys_in_use(self):
        """Which numbers of keys are in use, also of some that were."""
        now = {self.keys[row.key] for row in self.model.rows if row.key is not None}
        self.numbers |= now
        for key in {*self.rng.sample(sorted(self.numbers), min(len(self.numbers), 8)), 0, 1 << 63}:
            same(f"whether {key} is in use", self.session.in_use(key), key in now)

    def mark(self):
        self.session.mark()
        self.model.mark()

    def altered(self):
        """Which units are altered since the mark, and one that isn't there."""
        for unit, _ in self.model.stream:
            same(f"whether {unit} is altered", self.session.is_altered(unit), self.model.altered(unit))
        same("altered of no unit", answered(self.session.is_altered, 0), ("refused", 16, None))

    def plan(self, unit, row, found):
        outcome = row.outcome
        same(f"outcome of {unit}",
             (found.kind, found.fault, found.top, found.bottom, found.order, found.begins_period, found.slices),
             (interface.PLAN, 0, *outcome.counts, outcome.order, int(outcome.begins_period), len(outcome.requests)))
        same(f"position of {unit}", self.session.position(unit), row.position)
        same(f"unit at {row.position}", self.session.unit_at(row.position), unit)
        surface = self.session.show(unit)
        same(f"show {unit}", None if surface is None else self.contents[surface],
             self.model.pictures[row.key] if row.key in self.model.held else None)
        if surface not in {None, *self.has}:
            raise Differs(f"unit {unit} shows the surface {surface}, which the session doesn't have")
        key = self.session.key(unit)
        same(f"key of {unit}", key, self.keys.get(row.key, key))
        self.keys[row.key] = key
        others = {self.keys[other.key] for other in self.model.rows if other.key in self.keys and other.key != row.key}
        if key in others:
            raise Differs(f"unit {unit} has the key {key} of another picture")

    def step(self):
        in_use = {row.key for row in self.model.rows}
        self.keys = {key: number for key, number in self.keys.items() if key in in_use}
        kind = self.rng.choice(STEPS)
        getattr(self, kind)()
        self.stream()
        same("surfaces that the session has", len(self.has), len(self.model.held) + sum(map(len, self.model.cached)))
        self.keys_in_use()
        self.doubts()
        self.altered()
        self.unit_requests()
        self.job_requests()


def run(seed, steps, files, memory):
    """Runs a session; where it differs, if it does."""
    with Session(CACHE) as session:
        drawn = Drawn(random.Random(seed), files, memory, session)
        for number in range(steps):
            try:
                drawn.step() if number else drawn.begin()
            except (Differs, interface.Refused, kernel_structs.Differs) as fault:
                return f"step {number}: {fault!r}"
        found = session.journal()
        return "" if found == drawn.journal else f"the journal has {found}, and not {drawn.journal}"


def main():
    parser = parser_of(__doc__)
    parser.add_argument("--sessions", type=int, default=10)
    parser.add_argument("--steps", type=int, default=60)
    parser.add_argument("--seed", type=int, default=0)
    parser.add_argument("files", type=pathlib.Path, metavar="FILE", nargs="+")
    options = parser.parse_args()
    if not os.path.exists(kernel_structs.HEADER):
        print(f"{kernel_structs.HEADER} isn't there: nothing was compared")
        return NOT_INSTALLED
    memory, failures = kernel_structs.Memory(pathlib.Path(kernel_structs.HEADER).read_text()), 0
    files = [texts_of(path.read_bytes()) for path in options.files]
    for seed in range(options.seed, options.seed + options.sessions):
        wrong = run(seed, options.steps, files, memory)
        failures += bool(wrong)
        if wrong:
            print(f"seed {seed}: {wrong}", flush=True)
    print(f"{options.sessions} sessions of {options.steps} steps, {failures} failures")
    return 1 if failures else 0


if __name__ == "__main__":
    sys.exit(main())
