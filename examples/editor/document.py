"""A stream that is open in an editor: its edits with what undoes them, what an edit would break, and the file."""
import concurrent.futures
import pathlib

from access_units import access_units, nal_units, sets_before
from server import Refused, Server
from stream import Stream


class Document:
    """Units' texts, undo and redo are kept here, as a second session tries each step too. An edit is a list of splices, each (place,
    how many units go, the units that come), and so is what undoes it: a unit that comes back has a new id. Beside a file that isn't
    a copy stands its journal, from which edits that weren't saved are resumed."""

    def __init__(self, path, workers, is_copy):
        self.path, self.is_copy, self.undone_by, self.redone_by, self.is_saved = pathlib.Path(path), is_copy, [], [], True
        self.journal, self.range = None if is_copy else f"{self.path}.journal", (0, 0)
        # A session beside tries edits before they are made. It begins while the user looks at the first pictures.
        self.trials, self.beside = concurrent.futures.ThreadPoolExecutor(1), None
        file = self.path.read_bytes()
        self.shown = Stream(Server(workers, self.journal))
        if self.shown.resume():
            self.is_saved = nal_units(self.text()) == nal_units(file)
        else:
            self.load(file)
        self.is_resumed = not self.is_saved
        self.trials.submit(self.beside_of, self.shown.units)

    def load(self, file):
        try:
            self.shown.load(self.path, access_units(file))
        except Refused:
            self.close()
            raise

    def close(self):
        """Ends both sessions. The journal stays if edits weren't saved."""
        self.shown.server.close()
        if self.journal and self.is_saved:
            for name in (self.journal, f"{self.journal}-wal"):
                pathlib.Path(name).unlink(missing_ok=True)
        self.trials.submit(lambda: self.beside and self.beside.server.close())
        self.trials.shutdown(wait=False)

    def beside_of(self, units):
        """The session beside, which has these units: begun where there is none, or where its server was killed."""
        if not self.beside or self.beside.server.process.poll() is not None:
            self.beside = Stream(Server(0))
            self.beside.make([(0, 0, units)])
        return self.beside

    def edit(self, splices):
        """Makes an edit, which can be undone."""
        if not any(gone or come for _, gone, come in splices):
            raise Refused("there is nothing to edit")
        self.undone_by.append(self.made(splices))
        self.redone_by = []

    def undo(self):
        if not self.undone_by:
            raise Refused("there is nothing to undo")
        self.redone_by.append(self.made(self.undone_by[-1]))
        self.undone_by.pop()

    def redo(self):
        if not self.redone_by:
            raise Refused("there is nothing to redo")
        self.undone_by.append(self.made(self.redone_by[-1]))
        self.redone_by.pop()

    def made(self, splices):
        units = self.shown.units
        back, self.range = self.shown.make(splices)
        self.is_saved = False
        self.trials.submit(lambda: self.beside_of(units).make(splices))
        return back

    def units(self, ids):
        return [self.shown.texts[unit_id] for unit_id in ids]

    def foreseen(self, splices):
        """How many units an edit would make faulty or put in doubt, and how many whole again: it is made beside, and undone."""
        units = self.shown.units

        def tried():
            stream = self.beside_of(units)
            before = stream.states()
            back, _ = stream.make(splices)
            after = stream.states()
            stream.make(back)
            sound = (False, False)
            return {"faulty": sum(faulty and not before.get(unit, sound)[0] for unit, (faulty, _) in after.items()),
                    "in_doubt": sum(doubt and not before.get(unit, sound)[1] for unit, (_, doubt) in after.items()),
                    "whole": sum(before.get(unit, sound) != sound and state == sound for unit, state in after.items())}
        return self.trials.submit(tried).result()

    def text(self):
        return b"".join(unit.text for unit in self.shown.units)

    def save(self):
        """Has the server write the stream as the file: whoever reads that finds the old one or the new one whole."""
        self.shown.call("save", path=str(self.path))
        self.is_saved, self.is_resumed = True, False
        self.shown.mark()

    def told(self):
        """All that the page shows, but for pictures: a member for each property of units, lists in stream order or of places."""
        stream = self.shown
        outcomes = list(enumerate(stream.outcomes))
        return {"name": self.path.name, "is_copy": self.is_copy, "is_saved": self.is_saved, "resumed": self.is_resumed,
                "undo": len(self.undone_by), "redo": len(self.redone_by), "changed": self.range,
                "ids": stream.ids, "letters": "".join(unit.letter for unit in stream.units),
                "references": "".join("01"[unit.is_reference] for unit in stream.units),
                "idr": [place for place, unit in enumerate(stream.units) if unit.is_idr],
                "positions": [outcome.get("position", -1) for _, outcome in outcomes],
                "begins": [place for place, outcome in outcomes if outcome.get("begins_period")],
                "altered": [place for place, outcome in outcomes if "altered" in outcome],
                "faults": [[place, *outcome["fault"].values()] for place, outcome in outcomes if "fault" in outcome],
                "follows": [[place, broken, doubt] for place, (broken, doubt) in stream.doubts.items()]}

    def to_decode(self, ids, begin):
        """What a decoder is fed for these ids: of each its picture's name where it is ready, and its text. A unit without a picture
        brings its parameter sets alone. The first of a run has those in front that were sent before its place."""
        told, texts = [], []
        places = {unit_id: place for place, unit_id in enumerate(self.shown.ids)} if begin else {}
        for unit_id in ids:
            shown = self.shown.call("show", id=unit_id)
            unit = self.shown.texts[unit_id]
            text = unit.text if shown["state"] in ("ready", "pending") else unit.sets
            if begin and unit_id == ids[0]:
                text = sets_before(self.shown.units, places[unit_id]) + text
            told.append({"id": unit_id, "picture": shown.get("picture"), "valid": text is not unit.sets, "bytes": len(text)})
            texts.append(text)
        return told, texts
