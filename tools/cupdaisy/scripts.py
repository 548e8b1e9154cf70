"""Scripts that run on a session (docs/OUTPUT.md): their commands, and the lines that answer them."""
import os
import re
from typing import NamedTuple

from cupdaisy import doubts, streams, syntax
from cupdaisy.fold import Empty, Plan
from cupdaisy.session import MOST_UNITS, GroupRefused, Session

EDITS = "first", "after", "replace", "delete"
# The commands that are none without workers, and those that are none beside them.
OF_WORKERS, OF_JOBS = ("want", "rest"), ("unit", "json", "take", "land", "give", "mark", "altered")
# What `altered` tells of a unit, or that there is none.
ALTERED_WORDS = {True: "yes", False: "no", None: "none"}


class Wrong(Exception):
    """A line is no command."""


class WrongLine(Exception):
    """The line of this number is the first that is no command."""


class Cannot(Exception):
    """A file can't be read."""


class Ran(NamedTuple):
    lines: str
    message: str
    status: int


def run(text, room, with_hex):
    """What a script without workers prints, what it says on standard error, and its status."""
    try:
        commands = commands_of(text, OF_WORKERS)
    except WrongLine as wrong:
        return Ran("", f"script fault at line {wrong}\n", 1)
    session, lines = Session(room), []
    for name, *operands in commands:
        try:
            lines += answer(session, with_hex, name, operands)
        except Cannot as fault:
            return Ran("".join(lines), f"cannot read {fault}\n", 1)
    return Ran("".join(lines), "", 0)


def commands_of(text, none):
    """The commands of a script in which those of some names are none."""
    lines = [(number, line) for number, line in enumerate(text.split(b"\n"), 1)
             if line and not line.startswith(b"#")]
    commands = []
    while lines:
        number, line = lines.pop(0)
        command = command_at(number, line)
        if command == ("group",):
            command = "group", group_of(number, lines)
        elif command == ("end",) or command[0] in none:
            raise WrongLine(number)
        commands.append(command)
    return commands


def command_at(number, line):
    try:
        return command_of(line)
    except Wrong:
        raise WrongLine(number) from None


def group_of(first, lines):
    """The edits of a group whose line `group` has this number; they go from the lines, with `end`."""
    edits = []
    while lines:
        number, line = lines.pop(0)
        command = command_at(number, line)
        if command == ("end",):
            return edits
        if command[0] not in EDITS:
            raise WrongLine(number)
        edits.append(command)
    raise WrongLine(first)


def number_of(word):
    if not re.fullmatch(r"[0-9]{1,10}", word):
        raise Wrong
    return int(word)


def bytes_of(words):
    if not all(re.fullmatch(r"([0-9A-Fa-f]{2})+", word) for word in words):
        raise Wrong
    return bytes.fromhex("".join(words))


def command_of(line):
    """The command of a line: its name and its operands."""
    try:
        words = [word for word in line.decode().split(" ") if word]
    except UnicodeDecodeError:
        raise Wrong from None
    match words:
        case ["insert", "first", *digits]:
            return "first", bytes_of(digits)
        case ["insert", "after", number, *digits]:
            return "after", number_of(number), bytes_of(digits)
        case ["replace", number, *digits]:
            return "replace", number_of(number), bytes_of(digits)
        case ["load", path]:
            return "load", path
        case [("delete" | "unit" | "json" | "show" | "land" | "give" | "take" | "settle" | "drop" | "altered") as name, number]:
            return name, number_of(number)
        case [("take" | "settle" | "clear" | "mark" | "group" | "end") as name]:
            return name,
        case ["want", *numbers]:
            return "want", [number_of(number) for number in numbers]
        case ["rest", ("on" | "off") as switch]:
            return "rest", switch
    raise Wrong


def answer(session, with_hex, name, operands):
    """The lines that answer a command."""
    if name in EDITS:
        return [edit_line(session, (name, *operands))]
    if name == "group":
        return [group_line(session, *operands)]
    if name == "load":
        return [loaded(session, *operands)]
    if name == "unit":
        return unit_lines(session, *operands)
    if name == "json":
        return [json_line(session, *operands)]
    if name == "show":
        return [shown(session, with_hex, *operands)]
    if name == "take":
        taken = session.take(among_of(session, operands))
        return ["job {} unit {}\n".format(*taken) if taken else "job none\n"]
    if name == "drop":
        return [f"drop {operands[0]} {session.drop(operands[0])}\n"]
    if name == "clear":
        session.clear()
        return ["cleared\n"]
    if name == "mark":
        session.mark()
        return ["marked\n"]
    if name == "altered":
        return [f"altered {operands[0]} {ALTERED_WORDS[session.altered(operands[0])]}\n"]
    if name == "land":
        return [f"land {operands[0]} {session.land(operands[0])}\n"]
    if name == "give":
        return [f"give {operands[0]} {'back' if session.leave(operands[0]) else 'none'}\n"]
    while taken := session.take(among_of(session, operands)):
        session.land(taken[0])
    return ["settled\n"]


def among_of(session, operands):
    """The ids of the units that one of an id needs, as `take` and `settle` go by them; none where no id is given."""
    return session.needed(*operands) if operands else None


def edit_line(session, edit):
    try:
        unit_id = session.edit(edit)
    except streams.Refused as refused:
        return f"refused {refused.number} {refused}\n"
    return f"edit {session.edits} id {unit_id}\n"


def group_line(session, edits):
    try:
        about = session.group(edits)
    except GroupRefused as refused:
        return f"group refused {refused}\n"
    return f"group {session.edits} ids {' '.join(map(str, about))}\n"


def loaded(session, path):
    """The units of a file inserted after the last one."""
    try:
        with open(os.fsencode(path), "rb") as file:
            text = file.read()
    except OSError:
        raise Cannot(path) from None
    try:
        units = streams.cut(streams.split(text))
    except streams.Refused as refused:
        return f"refused {refused.number} {refused}\n"
    for index, nals in enumerate(units):
        try:
            syntax.Unit(nals)
        except streams.Refused as refused:
            return f"unit {index} refused {refused.number} {refused}\n"
    if len(session.stream) + len(units) > MOST_UNITS:
        return "refused 17 StreamFull\n"
    for nals in units:
        text = streams.text_of(nals)
        session.edit(("after", session.stream[-1][0], text) if session.stream else ("first", text))
    return f"loaded {len(units)}\n"


def unit_lines(session, unit_id):
    at = session.place(unit_id)
    if at is None:
        return [f"unit {unit_id} none\n"]
    outcome, position, _ = session.rows[at]
    if isinstance(outcome, Empty):
        return [f"unit {unit_id} no picture\n"]
    if not isinstance(outcome, Plan):
        return [f"unit {unit_id} fault {outcome.number} {outcome}\n"]
    top, bottom = outcome.counts
    return [f"unit {unit_id} position {position} counts {top} {bottom} requests {len(outcome.requests)}\n",
            *(request.line + "\n" for request in outcome.requests)]


def json_line(session, unit_id):
    """The JSON of a unit that isn't valid or isn't there; that of a valid one isn't modelled."""
    at = session.place(unit_id)
    if at is None:
        return f'{{"unit":{unit_id},"none":true}}\n'
    outcome, _, _ = session.rows[at]
    follows = [*doubts.told_in(session)][at][0]
    following = "" if follows is None else f',"follows":{follows}'
    if isinstance(outcome, Empty):
        return f'{{"unit":{unit_id},"no_picture":true{following}}}\n'
    if isinstance(outcome, Plan):
        raise NotImplementedError(f"the JSON of a valid unit, {unit_id}")
    return f'{{"unit":{unit_id},"fault":{{"number":{outcome.number},"name":"{outcome}"}}{following}}}\n'


def shown(session, with_hex, unit_id):
    at = session.place(unit_id)
    if at is None:
        return f"show {unit_id} none\n"
    outcome, _, key = session.rows[at]
    if isinstance(outcome, Empty):
        return f"show {unit_id} empty\n"
    if not isinstance(outcome, Plan):
        return f"show {unit_id} fault {outcome.number} {outcome}\n"
    if key not in session.held:
        return f"show {unit_id} pending\n"
    return f"show {unit_id} ready" + (f" {session.pictures[key].hex()}\n" if with_hex else "\n")
