"""Which break each unit of a stream follows, and whether it is in doubt, by docs/OUTPUT.md: of the lines of `plan --json`, or of the
plain session of session.py."""
from typing import NamedTuple

from cupdaisy.fold import Empty, Plan
from cupdaisy.headers import IDR
from cupdaisy.streams import SLICES, type_of

P, B = 0, 1
GAP = 11


class Seen(NamedTuple):
    """What of a unit decides: its id, whether it is a valid IDR picture, whether it is a break, and the ids that the active entries of
    its lists name, None where one is missing."""
    unit: int
    is_idr: bool
    is_break: bool
    named: list


def is_break(fault, nals):
    """Whether a unit of these NAL units, with this fault or none, is a break."""
    first = next((nal for nal in nals if type_of(nal) in SLICES), b"\0")
    return fault is not None and (bool(first[0] & 96) or fault == GAP)


def requests_of(line):
    """The requests of a valid unit; none of another."""
    return line.get("requests", [])


def is_idr(line):
    return any("IDR_PIC" in request["v4l2_ctrl_h264_decode_params"]["flags"] for request in requests_of(line)[:1])


def named(line):
    """The ids that the active entries of a unit's lists name, None where one is missing."""
    for request in requests_of(line):
        params, dpb = request["v4l2_ctrl_h264_slice_params"], request["v4l2_ctrl_h264_decode_params"]["dpb"]
        for number, kinds in ((0, (P, B)), (1, (B,))):
            active = params[f"num_ref_idx_l{number}_active_minus1"] + 1 if params["slice_type"] in kinds else 0
            for entry in params[f"ref_pic_list{number}"][:active]:
                yield dpb[entry["index"]]["reference_ts"] // 1000 if entry["fields"] else None


def told(lines, units):
    """What is told of each unit, of its line and its NAL units."""
    return walked([Seen(line["unit"], is_idr(line), is_break(line.get("fault", {}).get("number"), nals), [*named(line)])
                   for line, nals in zip(lines, units)])


def told_in(session):
    """What is told of each unit of a session's stream."""
    return walked([seen(number, unit, row.outcome) for (number, unit), row in zip(session.stream, session.rows)])


def seen(number, unit, outcome):
    """What of a unit with this outcome decides."""
    if isinstance(outcome, Plan):
        entries = [entry for request in outcome.requests for entry in request.entries]
        return Seen(number, type_of(unit.slices[0]) == IDR, False, entries)
    return Seen(number, False, is_break(None if isinstance(outcome, Empty) else outcome.number, unit.slices), [])


def walked(units):
    """Of each unit the id of the break that it follows, if it does, and whether it is in doubt."""
    broken, doubted, begin = [], set(), 0
    for at, it in enumerate(units):
        if it.is_idr:
            broken, begin = [], at
        follows = units[broken[0]].unit if broken else None
        places = {units[place].unit: place for place in range(begin, at)}
        entries = [places.get(unit_id) for unit_id in it.named]
        if any(follows is not None if entry is None else entry in doubted or any(entry < place for place in broken)
               for entry in entries):
            doubted.add(at)
        yield follows, at in doubted
        if it.is_break:
            broken.append(at)
