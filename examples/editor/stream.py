"""The units of a stream in a server of their own: in order, with the text of each, and with what was planned of them."""
import base64
import re
import subprocess
import tempfile

from access_units import sets_before, unit_of_text
from server import PREVIEW, Ended, Refused

MOST_UNITS = 65_536
# What a group may hold, and how much of a message its texts may be (docs/SERVER.md).
MOST_EDITS, MOST_BYTES = 1_024, 32 << 20
PAGE = 1_000
# How many entries of the journal are asked for at once: each may have the texts of a group.
ENTRIES = 16
# Up to how many units a part may have that `plan --json` is asked of, which prints all controls of each.
MOST_PLANNED = 1_000


class Stream:
    def __init__(self, server):
        self.server, self.units, self.ids, self.outcomes, self.doubts, self.next_id, self.edits_made = server, [], [], [], {}, 1, 0
        self.texts = {}    # of each id that there ever was: what is copied can be pasted when it is gone

    def load(self, path, units):
        loaded = self.server.call("load", path=str(path))
        if len(units) != loaded["units"]:
            raise Refused(f"{loaded['units']} units were loaded, and {len(units)} found")
        self.take(dict(enumerate(units, 1)))

    def resume(self):
        """Takes the stream that the server's journal leads to. The answer is whether any edit is in it."""
        texts, entries = {}, 0
        while found := self.server.call("journal", **{"from": entries, "count": ENTRIES}):
            entries += len(found)
            for edit in (edit for entry in found for edit in entry["edits"]):
                (what, params), = edit.items()
                if what != "delete":
                    unit_id = params.get("id", len(texts) + 1)    # insertions are given the ids from 1 on
                    texts[unit_id] = unit_of_text(base64.b64decode(params["bytes"]))
        if entries:
            self.take(texts)
        return entries > 0

    def take(self, texts):
        """Takes the stream as the server has it, where the units of all ids that were given are these."""
        stats = self.server.call("stats")
        self.edits_made, self.texts, self.next_id = stats["edits"], texts, len(texts) + 1
        self.outcomes = self.asked(0, stats["units"])
        self.ids = [outcome["unit"] for outcome in self.outcomes]
        self.units = [self.texts[unit_id] for unit_id in self.ids]
        self.doubts = self.told_doubts()
        self.mark()

    def call(self, method, **params):
        """Calls the server. One that was killed is begun again, with the same ids, and marked as it is then. A group that it was
        killed over isn't made twice: where that is in the journal it has no receipt."""
        try:
            return self.server.call(method, **params)
        except Ended:
            self.server.begin_again()
        self.mark()
        made = self.server.call("stats")["edits"]
        if method == "group" and made == self.edits_made + 1:
            return {}
        if made != self.edits_made:
            self.server.close()
            raise Refused("the journal has other edits than are shown: start the editor again")
        return self.server.call(method, **params)

    def mark(self):
        """What a unit was made of now isn't altered later, whatever its id is then."""
        self.server.call("mark")
        for outcome in filter(None, self.outcomes):
            outcome.pop("altered", None)

    def asked(self, begin, end):
        """The outcomes of the units at these places."""
        found = []
        for place in range(begin, end, PAGE):
            found += self.call("units", **{"from": place, "count": min(PAGE, end - place)})
        return found

    def make(self, splices):
        """Makes splices, each (place, how many units go, the units that come), as one step. The answer is what undoes them, and the
        range of places whose units may have changed."""
        if len(self.ids) + sum(len(come) - gone for _, gone, come in splices) > MOST_UNITS:
            raise Refused(f"a stream has {MOST_UNITS:,} units at most", 17)
        ids, units, outcomes = self.ids[:], self.units[:], self.outcomes[:]
        group, back, marks = Group(self, ids), [], []
        for place, gone, come in splices:
            back.insert(0, (place, len(come), units[place:place + gone]))
            group.add(place, gone, come)
            units[place:place + gone] = come
            outcomes[place:place + gone] = [None] * len(come)
            marks = [mark + len(come) - gone if mark > place else mark for mark in marks] + [place, place + len(come)]
        range = group.make()
        self.ids, self.units, self.outcomes, self.next_id = ids, units, outcomes, group.next_id
        self.texts.update(zip(ids, units))
        if range is None:
            return back, self.compared()
        self.look_again(min([*marks, range[0]] if range[1] else marks), max([*marks, sum(range)] if range[1] else marks))
        return back, range

    def compared(self):
        """Asks for all outcomes again, where no receipt tells what changed: the least range of places whose outcome isn't what it
        was, but for its position. That a unit's requests are others isn't seen."""
        before, self.outcomes = self.outcomes, self.asked(0, len(self.ids))
        differ = [place for place, (old, new) in enumerate(zip(before, self.outcomes))
                  if old is None or {**old, "position": 0} != {**new, "position": 0}]
        self.doubts = self.told_doubts()
        return (differ[0], differ[-1] + 1 - differ[0]) if differ else (0, 0)

    def look_again(self, low, high):
        """Asks again for what an edit of these places may have moved or doubted: from where the period before begins up to the
        next valid IDR picture. Behind that every position moves by one number."""
        low -= low > 0
        while low > 0 and not (self.outcomes[low] or {}).get("begins_period"):
            low -= 1
        while high < len(self.ids) and not (self.units[high].is_idr and "position" in self.outcomes[high]):
            high += 1
        self.outcomes[low:high] = self.asked(low, high)
        shown = sum("position" in outcome for outcome in self.outcomes[:high])
        behind = [outcome["position"] for outcome in self.outcomes[high:] if "position" in outcome]
        moved = shown - min(behind) if behind else 0
        if moved:
            self.outcomes[high:] = [{**outcome, "position": outcome["position"] + moved} if "position" in outcome else outcome
                                    for outcome in self.outcomes[high:]]
        self.doubts = self.told_doubts()

    def told_doubts(self):
        """By place, which break a unit follows, and whether it is in doubt: told by the server, or else by `plan`."""
        is_told = any("follows" in outcome for outcome in self.outcomes)
        known = self.outcomes if is_told else self.planned()
        return {place: (outcome["follows"], "in_doubt" in outcome) for place, outcome in enumerate(known) if "follows" in outcome}

    def planned(self):
        """What `plan --json` says of follows and doubt. Neither goes beyond a valid IDR picture, so parts with a fault are planned."""
        found = [{}] * len(self.ids)
        starts = [place for place, unit in enumerate(self.units) if unit.is_idr and "position" in self.outcomes[place]]
        for begin, end in zip([0, *starts], [*starts, len(self.ids)]):
            if end - begin <= MOST_PLANNED and any("fault" in outcome for outcome in self.outcomes[begin:end]):
                found[begin:end] = self.planned_part(begin, end)
        return found

    def planned_part(self, begin, end):
        """The same of some units; nothing where `plan` cuts them otherwise."""
        with tempfile.NamedTemporaryFile(suffix=".264") as file:
            file.write(sets_before(self.units, begin) + b"".join(unit.text for unit in self.units[begin:end]))
            file.flush()
            lines = subprocess.run([PREVIEW, "plan", "--json", file.name], capture_output=True).stdout.splitlines()
        if len(lines) != end - begin:
            return [{}] * (end - begin)
        found = []
        for line in lines:
            follows = re.match(rb'.{0,200}?"follows":(\d+)(,"in_doubt":true)?', line)    # they stand before the requests
            told = {"follows": self.ids[begin + int(follows[1]) - 1]} if follows else {}
            found.append({**told, "in_doubt": True} if follows and follows[2] else told)
        return found

    def states(self):
        """By id, whether the unit is faulty and whether it is in doubt."""
        return {unit_id: ("fault" in outcome, self.doubts.get(place, (None, False))[1])
                for place, (unit_id, outcome) in enumerate(zip(self.ids, self.outcomes))}


class Group:
    """Edits that are made together, in as few groups as the server takes, and the range that its receipt tells of them."""

    def __init__(self, stream, ids):
        self.stream, self.next_id, self.ids, self.edits = stream, stream.next_id, ids, []

    def add(self, place, gone, come):
        """Adds a splice. Each unit that comes gets the next id, and the one after it stands behind that id."""
        self.edits += [{"delete": {"id": unit_id}} for unit_id in self.ids[place:place + gone]]
        after = self.ids[place - 1] if place else None
        given = range(self.next_id, self.next_id + len(come))
        for unit, unit_id in zip(come, given):
            self.edits.append({"insert": {"after": after, "bytes": base64.b64encode(unit.text).decode()}})
            after = unit_id
        self.ids[place:place + gone] = given
        self.next_id += len(come)

    def make(self):
        """Makes what was added. The answer is the range that the receipt tells; of several groups none is known for all."""
        receipts = []
        for part in parts(self.edits):
            try:
                receipts.append(self.stream.call("group", edits=part))
                self.stream.edits_made += 1
            except Ended:
                self.stream.server.close()    # nobody knows whether it was made
                raise
            except Refused as refused:
                if receipts:
                    raise RuntimeError(f"made in part, and then refused: {refused}. Open the stream again.") from refused
                raise
        changed = receipts[0].get("changed") if len(receipts) == 1 else None
        return changed and (changed["from"], changed["count"])


def parts(edits):
    """Edits in lists that the server takes as a group."""
    part, size = [], 0
    for edit in edits:
        needs = len(edit.get("insert", {}).get("bytes", ""))
        if part and (len(part) == MOST_EDITS or size + needs > MOST_BYTES):
            yield part
            part, size = [], 0
        part.append(edit)
        size += needs
    if part:
        yield part
