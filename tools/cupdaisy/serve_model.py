"""What `preview serve` answers (docs/SERVER.md), by the plain session of session.py.

A `Server` takes lines and gives for each what has to come of it: messages as Python values. What the model leaves open equals
each value that may be there: how many steps an edit makes, the controls of valid units, and how far workers are.
"""
import base64
import binascii
import json
import os
import re
from typing import NamedTuple
from unittest.mock import ANY

from cupdaisy import doubts, history, mending, session, streams, syntax
from cupdaisy.fold import Empty, Plan

MOST_LINE, MOST_TOLD, MOST_LEFT_OUT, MOST_WANTED, MOST_NUMBER, MOST_DEPTH = 64 << 20, 1000, 1000, 64, 1 << 64, 127
MESSAGES = {-32700: "Parse error", -32600: "Invalid Request", -32601: "Method not found", -32602: "Invalid params"}
JOBS = "take", "land", "give_back"
FIRST = {"initialize": None, "load": "path", "save": "path", "insert": "after", "delete": "id", "replace": "id", "group": "edits", "undo": None,
         "redo": None, "mark": None, "units": "from", "text": "id", "find": "position", "show": "id", "want": "ids", "drop": "id",
         "take": "id", "land": "job", "give_back": "job", "journal": "from", "stats": None, "reset": None, "compact": None, "shutdown": None}
LIMITS = {"units": session.MOST_UNITS, "unit_bytes": 4194304, "slices": 256, "group": session.MOST_EDITS, "wanted": MOST_WANTED,
          "count": MOST_TOLD, "left_out": MOST_LEFT_OUT, "message_bytes": MOST_LINE}
REASONS = {
    1: "the bytes don't begin with a start code, or a NAL unit is empty or has bytes that none may have (B.1, 7.4.1)",
    2: "a NAL unit is of a type that isn't read: data partitions, a subset SPS, a prefix, or slices of other views or layers "
       "(table 7-1)",
    3: "forbidden_zero_bit of a NAL unit is 1: it is damaged (7.4.1)",
    4: "a sequence parameter set can't be read (7.3.2.1.1)",
    5: "a picture parameter set can't be read (7.3.2.2)",
    6: "a slice is of type SP or SI, which the Extended profile alone has (7.4.3)",
    7: "slices of an IDR picture and of another one stand in one access unit (7.4.1.2.4)",
    8: "an IDR picture has a P or B slice (7.4.3)",
    9: "an IDR picture has nal_ref_idc 0 (7.4.1)",
    10: "nal_ref_idc is 0 in a slice of an access unit and not in another (7.4.1)",
    11: "a NAL unit stands behind a slice that belongs before it (7.4.1.2.3)",
    13: "a second picture begins in one access unit (7.4.1.2.3)",
    14: "an access unit has more than 4,194,304 bytes or 256 slices",
    15: "out of memory",
    16: "no unit has the id",
    17: "the stream has no room: 65,536 units are the most",
    18: "all 4,294,967,295 ids were given",
    20: "the group has no edit",
    21: "the group has more than 1,024 edits",
    22: "more than 64 ids are wanted",
    23: "the file can't be read",
    24: "all numbers of jobs were given",
    25: "the file can't be written",
    26: "there is nothing to undo",
    27: "there is nothing to redo",
}
LEFT_OUT = re.compile(r"byte (\d+): left out (\d+) bytes: (.*)\n")
NUMBER = re.compile(r"-?(0|[1-9][0-9]*)(\.[0-9]+)?([eE][+-]?[0-9]+)?")


class Failed(Exception):
    """A call is refused."""

    def __init__(self, code, name=None, data=None):
        super().__init__(name)
        data = data if code < 0 else (data or {}) | {"reason": REASONS[code]}
        self.error = {"code": code, "message": name or MESSAGES[code]} | ({} if data is None else {"data": data})


class Either:
    """One of these."""

    def __init__(self, *values):
        self.values = values

    def __eq__(self, other):
        return other in self.values

    def __repr__(self):
        return " or ".join(map(repr, self.values))


class Some(Either):
    """Some of these, in their order."""

    def __eq__(self, other):
        left = iter(self.values)
        return isinstance(other, list) and all(each in left for each in other)


class Wanted:
    """A unit that is wanted: the picture that was told of it last, and what was shown of it when that was asked last."""

    def __init__(self, told=None, seen=None):
        self.told, self.seen = told, seen


class Float(NamedTuple):
    """A number that isn't digits alone."""
    text: str


def refused(refusal, data=None):
    return Failed(refusal.number, str(refusal), data)


def nesting(value):
    """How deep arrays and objects lie in one another."""
    inner = value.values() if isinstance(value, dict) else value if isinstance(value, list) else None
    return 0 if inner is None else 1 + max(map(nesting, inner), default=0)


def constant(_):
    raise ValueError


def value_of(line):
    """The value of a line of JSON; ValueError where it is none."""
    value = json.loads(line.decode(), parse_constant=constant, parse_float=Float)
    json.dumps(value).encode()
    if "\\u" in line.decode() and any(0xD800 <= ord(c) < 0xE000 for c in json.dumps(value, ensure_ascii=False)):
        raise ValueError
    if nesting(value) > MOST_DEPTH:
        raise ValueError
    return value


def is_number(value):
    return isinstance(value, int) and not isinstance(value, bool) and 0 <= value < MOST_NUMBER


class Parameters:
    """The parameters of a method, read in the order of the table."""

    def __init__(self, values):
        self.values = values

    def read(self, name, is_right, usual=()):
        """A parameter that is right; what is usual where it may be absent and is."""
        if name not in self.values and usual != ():
            return usual
        if name not in self.values or not is_right(self.values[name]):
            raise Failed(-32602, data=name)
        return self.values[name]

    def number(self, name):
        return self.read(name, is_number)

    def flag(self, name, usual):
        return self.read(name, lambda value: isinstance(value, bool), usual)

    def bytes(self, name):
        text = self.read(name, lambda value: isinstance(value, str))
        try:
            found = base64.b64decode(text.encode("ascii"), validate=True)
        except (UnicodeEncodeError, binascii.Error):
            raise Failed(-32602, data=name) from None
        if base64.b64encode(found).decode() != text:
            raise Failed(-32602, data=name)
        return found

    def place(self):
        return self.read("after", lambda value: value is None or is_number(value))


def edit_of(name, parameters):
    """The edit of a method, as session.py has it."""
    if name == "insert":
        after = parameters.place()
        return ("first", parameters.bytes("bytes")) if after is None else ("after", after, parameters.bytes("bytes"))
    number = parameters.number("id")
    return (name, number, parameters.bytes("bytes")) if name == "replace" else (name, number)


def entry_of(value):
    """The edit of a group's entry."""
    named = [name for name in ("insert", "delete", "replace") if isinstance(value, dict) and name in value]
    if len(named) != 1 or not isinstance(value[named[0]], dict):
        raise Failed(-32602, data="edits")
    return edit_of(named[0], Parameters(value[named[0]]))


class Server:
    """A server beside so many workers, with a journal or without one."""

    def __init__(self, workers, room=4096, has_journal=False):
        self.workers, self.room, self.has_journal, self.is_over, self.saved = workers, room, has_journal, False, {}
        self.begin()

    def begin(self):
        self.session, self.wanted = session.Session(self.room), {}
        self.history, self.entries, self.told_entries, self.bytes = history.History(), [], 0, 0
        # What the journal's file begins with: units, how many ids were given, and how many edits were made before that.
        self.compacted = [], 0, 0

    def begin_from(self, units, ids):
        """Begins from units under their ids, where so many ids were given."""
        self.begin()
        self.session.change([(number, syntax.read_unit(text)) for number, text in units], ids)
        self.session.edits, self.history.units, self.compacted = 0, [*units], (units, ids, 0)

    def line(self, line):
        """What comes of a line: its answer, or None where it isn't answered, and the notifications behind it. Beside workers these
        are the ones that don't rest on how far the workers are."""
        answer = self.answer(line)
        return answer, [] if self.is_over else self.news()

    def answer(self, line):
        if len(line) > MOST_LINE:
            return failed(None, Failed(-32600))
        try:
            value = value_of(line)
        except (ValueError, RecursionError):
            return failed(None, Failed(-32700))
        if isinstance(value, list) and value:
            return [answer for answer in map(self.message, value) if answer is not None] or None
        return self.message(value)

    def message(self, value):
        """The answer to a message, or None where it isn't answered."""
        number = value.get("id") if isinstance(value, dict) else None
        may_be = number is None or isinstance(number, (str, int, Float)) and not isinstance(number, bool)
        if not isinstance(value, dict) or not may_be or value.get("jsonrpc") != "2.0" \
                or not isinstance(value.get("method"), str) or not isinstance(value.get("params", {}), (dict, list)):
            return failed(number if may_be else None, Failed(-32600))
        try:
            answer = {"jsonrpc": "2.0", "id": number, "result": self.call(value["method"], value.get("params", {}), "id" in value)}
        except Failed as fault:
            answer = failed(number, fault)
        return answer if "id" in value else None

    def call(self, name, parameters, is_answered):
        """The result of a call."""
        if not self.has(name):
            raise Failed(-32601)
        if isinstance(parameters, list) and parameters and name != "initialize":
            raise Failed(-32602, data=FIRST[name])
        parameters = Parameters(parameters if isinstance(parameters, dict) else {})
        if name in ("insert", "delete", "replace"):
            return self.edit(edit_of(name, parameters))
        if name == "want":
            return self.want(parameters, is_answered)
        return getattr(self, name)(parameters)

    def edit(self, edit):
        number = self.made(edit)
        self.history.end()
        return {"edit": self.session.edits, "id": number, "steps": ANY, "changed": self.changed()}

    def made(self, edit):
        """Makes an edit of a step: the id of its unit."""
        try:
            number = self.session.edit(edit)
        except streams.Refused as refusal:
            raise refused(refusal) from None
        self.keep([edit], [number])
        return number

    def keep(self, edits, about):
        """Keeps edits that were accepted together, which are about the units of these ids."""
        self.entries.append(edits)
        for edit, number in zip(edits, about):
            self.bytes += size_of(edit)
            self.history.take_in(edit, number)

    def has(self, name):
        """Whether there is a method of this name."""
        return name in FIRST and not (self.workers and name in JOBS) and (self.has_journal or name != "compact")

    def initialize(self, _):
        methods = [*filter(self.has, FIRST)]
        return {"name": "cupdaisy", "version": ANY, "methods": methods, "limits": LIMITS}

    def mark(self, _):
        self.session.mark()
        return "marked"

    def text(self, parameters):
        number = parameters.number("id")
        text = self.history.text(number)
        if text is None:
            raise Failed(16, "NoSuchUnit")
        return {"bytes": base64.b64encode(text).decode()}

    def journal(self, parameters):
        begin, count = parameters.number("from"), parameters.read("count", lambda value: is_number(value) and value <= MOST_TOLD)
        return [{"edits": [*map(told_edit, entry)]} for entry in self.entries[begin:begin + count]]

    def reset(self, _):
        self.begin()
        return "reset"

    def compact(self, _):
        self.compacted = [*self.history.units], self.session.ids, len(self.entries)
        return "compacted"

    def group(self, parameters):
        edits = parameters.read("edits", lambda value: isinstance(value, list))
        try:
            edits = [entry_of(value) for value in edits]
        except Failed:
            raise Failed(-32602, data="edits") from None
        answer = self.together(edits)
        self.history.end()
        return answer

    def together(self, edits):
        """Makes edits together."""
        try:
            about = self.session.group(edits)
        except session.GroupRefused as refusal:
            words = str(refusal).split(" ")
            data = {"index": int(words[1])} if words[0] == "at" else None
            raise Failed(int(words[-2]), words[-1], data) from None
        self.keep(edits, about)
        return {"edit": self.session.edits, "ids": about, "steps": ANY, "changed": self.changed()}

    def undo(self, _):
        if not self.history.done:
            raise Failed(26, "NothingToUndo")
        answer = self.together(self.history.edits(self.history.undoing(), self.session.ids))
        self.history.move(self.history.done, self.history.undone)
        return answer

    def redo(self, _):
        if not self.history.undone:
            raise Failed(27, "NothingToRedo")
        answer = self.together(self.history.edits(self.history.undone[-1], self.session.ids))
        self.history.move(self.history.undone, self.history.done)
        return answer

    def load(self, parameters):
        if ("path" in parameters.values) == ("bytes" in parameters.values):
            raise Failed(-32602, data="path")
        is_file = "path" in parameters.values
        given = parameters.read("path", lambda value: isinstance(value, str)) if is_file else parameters.bytes("bytes")
        mend = parameters.flag("mend", False)
        text = whole_file(given) if is_file else given
        if not mend:
            return self.load_text(text)
        stays, lines = mending.mended(text)
        return self.load_text(stays) | {"left_out": left_out(lines)[:MOST_LEFT_OUT]}

    def save(self, parameters):
        path = parameters.read("path", lambda value: isinstance(value, str))
        if not can_be_written(path):
            raise Failed(25, "CannotWrite")
        texts = [text for _, text in self.history.units]
        self.saved[path] = b"".join(texts)
        return {"units": len(texts), "bytes": len(self.saved[path])}

    def load_text(self, text):
        try:
            units = streams.cut(streams.split(text))
        except streams.Refused as refusal:
            raise refused(refusal) from None
        for index, nals in enumerate(units):
            try:
                syntax.Unit(nals)
            except streams.Refused as refusal:
                raise refused(refusal, {"index": index}) from None
        if len(self.session.stream) + len(units) > session.MOST_UNITS:
            raise Failed(17, "StreamFull")
        first, begin = self.session.ids + 1, len(self.session.stream)
        for nals in units:
            text, stream = streams.text_of(nals), self.session.stream
            self.made(("after", stream[-1][0], text) if stream else ("first", text))
        self.history.end()
        return {"units": len(units), "first": first, "last": self.session.ids, "changed": {"from": begin, "count": len(units)}}

    def changed(self):
        """Which places the last edit changed."""
        return dict(zip(("from", "count"), self.session.changed))

    def units(self, parameters):
        begin, count = parameters.number("from"), parameters.read("count", lambda value: is_number(value) and value <= MOST_TOLD)
        controls = parameters.flag("controls", False)
        told = [*doubts.told_in(self.session)]
        return [self.unit(at, controls, *told[at]) for at in range(len(self.session.stream))[begin:begin + count]]

    def unit(self, at, controls, follows, in_doubt):
        number, (outcome, position, _) = self.session.stream[at][0], self.session.rows[at]
        following = {} if follows is None else {"follows": follows}
        if isinstance(outcome, Empty):
            return {"unit": number, "no_picture": True} | following
        if not isinstance(outcome, Plan):
            return {"unit": number, "fault": {"number": outcome.number, "name": str(outcome)}} | following
        top, bottom = outcome.counts
        return {"unit": number, "position": position, "begins_period": outcome.begins_period,
                "counts": {"top": top, "bottom": bottom}} | following | ({"in_doubt": True} if in_doubt else {}) \
            | ({"altered": True} if self.session.altered(number) else {}) | ({"requests": ANY} if controls else {})

    def find(self, parameters):
        position = parameters.number("position")
        for at, row in enumerate(self.session.rows):
            if isinstance(row.outcome, Plan) and row.position == position:
                return {"id": self.session.stream[at][0], "place": at}
        return None

    def picture(self, number):
        """The picture of a unit that is there and valid, whether it is made or not."""
        at = self.session.place(number)
        key = None if at is None else self.session.rows[at].key
        return None if key is None else self.session.pictures[key].hex()

    def shown(self, number):
        """What is shown of a unit that is there. Its picture may be ready beside workers."""
        outcome, _, key = self.session.rows[self.session.place(number)]
        if isinstance(outcome, Empty):
            return {"state": "empty"}
        if not isinstance(outcome, Plan):
            return {"state": "fault", "number": outcome.number, "name": str(outcome)}
        ready = {"state": "ready", "picture": self.picture(number)}
        return ready if self.workers or key in self.session.held else {"state": "pending"}

    def show(self, parameters):
        number = parameters.number("id")
        if self.session.place(number) is None:
            raise Failed(16, "NoSuchUnit")
        shown = self.shown(number)
        return Either(shown, {"state": "pending"}) if self.workers and "picture" in shown else shown

    def want(self, parameters, is_answered):
        ids = parameters.read("ids", lambda value: isinstance(value, list) and all(map(is_number, value)))
        parameters.flag("rest", True)
        if len(ids) > MOST_WANTED:
            raise Failed(22, "TooManyWanted")
        shown = {number: self.state(number) for number in ids}
        ready = [{"id": number, "picture": it["picture"]} for number, it in shown.items() if it["state"] == "ready"]
        self.wanted = {number: Wanted(it.get("picture"), it) if is_answered else Wanted() for number, it in shown.items()}
        not_now = [number for number, it in shown.items() if it["state"] not in ("ready", "pending")]
        return {"ready": Some(*ready) if self.workers else ready, "not_now": not_now}

    def state(self, number):
        """What is shown of a unit, or that there is none."""
        return {"state": "none"} if self.session.place(number) is None else self.shown(number)

    def news(self):
        """The notifications that are due, which count as told."""
        told, has_edits = [], len(self.entries) != self.told_entries
        for number, unit in self.wanted.items():
            state = self.state(number)
            if state["state"] == "ready" and not self.workers and state["picture"] != unit.told:
                told.append({"jsonrpc": "2.0", "method": "ready", "params": {"id": number, "picture": state["picture"]}})
                unit.told = state["picture"]
            elif has_edits and state["state"] != "ready" and unit.seen not in (None, state):
                told.append({"jsonrpc": "2.0", "method": "changed", "params": {"id": number} | state})
                unit.told = None
            unit.seen = state
        self.told_entries = len(self.entries)
        return told

    def drop(self, parameters):
        if "id" not in parameters.values:
            self.session.clear()
            return "cleared"
        number = parameters.number("id")
        answer = self.session.drop(number)
        if answer == "none":
            raise Failed(16, "NoSuchUnit")
        return Either("dropped", "not held") if self.workers and self.picture(number) else answer

    def take(self, parameters):
        among = self.session.needed(parameters.number("id")) if "id" in parameters.values else None
        taken = self.session.take(among)
        if taken is None:
            return None
        return {"job": taken[0], "unit": taken[1], "requests": ANY, "references": self.references(taken[1])}

    def references(self, number):
        """The frames that the lists of a unit's requests name, each once, in the order of the decoded picture buffer."""
        rows = {each[0]: row for each, row in zip(self.session.stream, self.session.rows)}
        requests = rows[number].outcome.requests
        named = {f"{1000 * each}": each for request in requests for each in request.entries if each is not None}
        buffered = [entry.split(":")[0] for entry in requests[0].line.split(" ")[11].split(",")]
        return [{"timestamp": int(time), "picture": self.session.pictures[rows[named[time]].key].hex()}
                for time in buffered if time in named]

    def land(self, parameters):
        return self.session.land(parameters.number("job"))

    def give_back(self, parameters):
        return "back" if self.session.leave(parameters.number("job")) else "none"

    def stats(self, _):
        cached = sum(map(len, self.session.cached))
        open_counts = {"held": ANY, "cached": ANY, "jobs_out": ANY}
        counts = {"held": len(self.session.held), "cached": cached, "jobs_out": len(self.session.out)}
        return {"units": len(self.session.stream), "edits": self.session.edits, **(open_counts if self.workers else counts),
                "steps": ANY, "bytes": self.bytes}

    def shutdown(self, _):
        self.is_over = True


def told_edit(edit):
    """An accepted edit, as an object of a group has it."""
    if edit[0] == "delete":
        return {"delete": {"id": edit[1]}}
    text = base64.b64encode(edit[-1]).decode()
    return {"replace": {"id": edit[1], "bytes": text}} if edit[0] == "replace" \
        else {"insert": {"after": edit[1] if edit[0] == "after" else None, "bytes": text}}


def can_be_written(path):
    """Whether a file may stand there: a plain one or none, in a directory that is there."""
    return os.path.isdir(os.path.dirname(path) or ".") and (os.path.isfile(path) or not os.path.exists(path)) and bool(path)


def whole_file(path):
    try:
        with open(path.encode(), "rb") as file:
            return file.read()
    except (OSError, ValueError):
        raise Failed(23, "CannotRead") from None


def left_out(lines):
    """What lines of `mend` tell, as `load` tells it."""
    return [{"byte": int(byte), "bytes": int(count), "why": why} for byte, count, why in LEFT_OUT.findall(lines)]


def size_of(edit):
    return len(edit[-1]) if isinstance(edit[-1], bytes) else 0


def failed(number, fault):
    return {"jsonrpc": "2.0", "id": number, "error": fault.error}
