"""A session over a stream under edits, as plain lists."""
from typing import NamedTuple

from cupdaisy import fold, syntax
from cupdaisy.streams import Refused

MOST_UNITS, MOST_IDS, MOST_EDITS = 65536, 4294967295, 1024


class Open(Exception):
    """The answer isn't decided by docs/OUTPUT.md."""


class GroupRefused(Exception):
    """A group is refused, as its line says."""


class Job(NamedTuple):
    number: int
    key: bytes


def place_in(stream, unit_id):
    return next((at for at, unit in enumerate(stream) if unit[0] == unit_id), None)


def edited(stream, ids, edit):
    """The stream after an edit, how many ids are given then, and the id that it is about."""
    name, *operands = edit
    if name in ("first", "after"):
        unit = syntax.read_unit(operands[-1])
        after = 0 if name == "first" else place_in(stream, operands[0])
        at = after if name == "first" or after is None else after + 1
        for number, is_so in ((16, at is None), (17, len(stream) >= MOST_UNITS), (18, ids >= MOST_IDS)):
            if is_so:
                raise Refused(number)
        return stream[:at] + [(ids + 1, unit)] + stream[at:], ids + 1, ids + 1
    unit_id = operands[0]
    put = [(unit_id, syntax.read_unit(operands[1]))] if name == "replace" else []
    at = place_in(stream, unit_id)
    if at is None:
        raise Refused(16)
    return stream[:at] + put + stream[at + 1:], ids, unit_id


def told(row):
    """What of a unit's outcome an edit may change: its kind, its fault, and its key."""
    return type(row.outcome), getattr(row.outcome, "number", None), row.key


def changed(before, after):
    """The least range of places, as its first and how many, of all units that weren't there before or of which another thing is told;
    both streams as lists of pairs of a unit and its row."""
    was = {unit[0]: told(row) for unit, row in before}
    places = [at for at, (unit, row) in enumerate(after) if unit[0] not in was or was[unit[0]] != told(row)]
    return (places[0], places[-1] + 1 - places[0]) if places else (0, 0)


class Session:
    """The stream with a row for each unit, the pictures held and cached by their keys, and the jobs that are out."""

    def __init__(self, room):
        self.room, self.stream, self.rows, self.edits, self.ids, self.jobs = room, [], [], 0, 0, 0
        # The cache's keys lie in groups of those that went out of use at once, the last group first.
        self.pictures, self.held, self.cached, self.out = {}, set(), [], []
        # Which places the last edit changed.
        self.changed = 0, 0
        # The keys of the valid units at the mark, None before there is one.
        self.marked = None

    def place(self, unit_id):
        return place_in(self.stream, unit_id)

    def edit(self, edit):
        """Makes an edit; the id that it is about."""
        stream, ids, unit_id = edited(self.stream, self.ids, edit)
        self.change(stream, ids)
        return unit_id

    def group(self, edits):
        """Makes edits as one step; their ids."""
        if not edits:
            raise GroupRefused("20 EmptyGroup")
        if len(edits) > MOST_EDITS:
            raise GroupRefused("21 GroupTooLarge")
        stream, ids, about = self.stream, self.ids, []
        for index, edit in enumerate(edits):
            try:
                stream, ids, unit_id = edited(stream, ids, edit)
            except Refused as refused:
                raise GroupRefused(f"at {index} {refused.number} {refused}") from None
            about.append(unit_id)
        self.change(stream, ids)
        return about

    def change(self, stream, ids):
        """The stream becomes this one, with so many ids given, in one step."""
        before = [*zip(self.stream, self.rows)]
        self.stream, self.ids = stream, ids
        self.rows, self.edits = fold.rows(stream, self.pictures), self.edits + 1
        self.changed = changed(before, [*zip(self.stream, self.rows)])
        in_use = {row.key for row in self.rows} - {None}
        cached = {key for group in self.cached for key in group}
        gone = self.held - in_use
        self.held = in_use & (self.held | cached)
        self.cached = [group - in_use for group in self.cached]
        self.cached = [group for group in [gone] + self.cached if group]
        self.shorten()

    def mark(self):
        """Remembers the keys of the valid units as they are."""
        self.marked = {row.key for row in self.rows} - {None}

    def altered(self, unit_id):
        """Whether the key of a valid unit was no unit's at the mark; None where there is no such unit."""
        at = self.place(unit_id)
        if at is None:
            return None
        key = self.rows[at].key
        return self.marked is not None and key is not None and key not in self.marked

    def shorten(self):
        """Drops what the cache has no room for."""
        while (over := sum(map(len, self.cached)) - self.room) > 0:
            if len(self.cached[-1]) > over:
                raise Open("which of several pictures the full cache drops")
            self.cached.pop()

    def named(self, row):
        """The ids of the units that a valid unit's lists name."""
        return {named for request in row.outcome.requests for named in request.entries if named is not None}

    def needed(self, unit_id):
        """The ids of the units that the picture of one needs: pending ones that it names, and those that these name."""
        rows, found, left = {unit[0]: row for unit, row in zip(self.stream, self.rows)}, set(), [unit_id]
        while left:
            each = left.pop()
            row = rows.get(each)
            if row is not None and row.key is not None and row.key not in self.held and each not in found:
                found.add(each)
                left += self.named(row)
        return found

    def due(self, among=None):
        """The earliest unit whose picture is due, among those of some ids if any are given, and its key."""
        out = {job.key for job in self.out}
        keys = {unit[0]: row.key for unit, row in zip(self.stream, self.rows)}
        for (unit_id, _), row in zip(self.stream, self.rows):
            if row.key is None or row.key in self.held or row.key in out or among is not None and unit_id not in among:
                continue
            if {keys[named] for named in self.named(row)} <= self.held:
                return unit_id, row.key
        return None

    def take(self, among=None):
        """The number and the unit of a job that goes out, of a needed one of some ids if any are given."""
        found = self.due(among)
        if found is None:
            return None
        self.jobs += 1
        self.out.append(Job(self.jobs, found[1]))
        return self.jobs, found[0]

    def drop(self, unit_id):
        """The picture of a unit is gone: dropped, not held, or none."""
        at = self.place(unit_id)
        if at is None:
            return "none"
        if self.rows[at].key not in self.held:
            return "not held"
        self.held.remove(self.rows[at].key)
        return "dropped"

    def clear(self):
        """No picture is cached any more."""
        self.cached = []

    def leave(self, number):
        """The job of this number, which is out no more, or None."""
        job = next((job for job in self.out if job.number == number), None)
        self.out = [other for other in self.out if other is not job]
        return job

    def land(self, number):
        job = self.leave(number)
        if job is None:
            return "none"
        if job.key in self.held or job.key not in {row.key for row in self.rows}:
            return "stale"
        self.held.add(job.key)
        return "taken"
