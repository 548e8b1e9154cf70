"""What can be undone and redone of a stream, by docs/SERVER.md: plain and slow."""
from typing import NamedTuple


class Change(NamedTuple):
    """At a place, a text in the place of a former one; None where there is none."""
    at: int
    former: bytes | None
    text: bytes | None

    def back(self):
        return Change(self.at, self.text, self.former)


class History:
    """The units of a stream as pairs of an id and a text, the steps that are done and those that can be done again."""

    def __init__(self):
        self.units, self.step, self.done, self.undone = [], [], [], []

    def text(self, number):
        return dict(self.units).get(number)

    def take_in(self, edit, number):
        """An edit that was accepted, which is about the unit of an id."""
        self.step.append(change_of(self.units, edit))
        make(self.units, self.step[-1], number)

    def end(self):
        """What was taken in is a step, if anything was."""
        if self.step:
            self.done.append(self.step)
            self.step, self.undone = [], []

    def undoing(self):
        """What takes the last step back, the last change first."""
        return [change.back() for change in reversed(self.done[-1])]

    def edits(self, changes, ids):
        """The edits that make changes, where so many ids were given."""
        units, edits = [*self.units], []
        for change in changes:
            edits.append(edit_of(units, change))
            ids += change.former is None
            make(units, change, ids if change.former is None else units[change.at][0])
        return edits

    def move(self, one, other):
        """The last step of one list is the last of the other; the edits for it are no step of their own."""
        other.append(one.pop())
        self.step = []


def place_in(units, number):
    return next(at for at, unit in enumerate(units) if unit[0] == number)


def change_of(units, edit):
    if edit[0] == "first":
        return Change(0, None, edit[-1])
    at = place_in(units, edit[1])
    return Change(at + 1, None, edit[-1]) if edit[0] == "after" \
        else Change(at, units[at][1], edit[-1] if edit[0] == "replace" else None)


def edit_of(units, change):
    if change.former is None:
        return ("after", units[change.at - 1][0], change.text) if change.at else ("first", change.text)
    number = units[change.at][0]
    return ("delete", number) if change.text is None else ("replace", number, change.text)


def make(units, change, number):
    units[change.at:change.at + (change.former is not None)] = [] if change.text is None else [(number, change.text)]
