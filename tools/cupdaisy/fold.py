"""The plain fold over access units by ITU-T H.264, as docs/OUTPUT.md has its lines and faults: each unit's outcome from
the state that those before it leave. Of stand_in.py it takes counts and lists, of forms.py the forms of controls.
"""
import hashlib
import struct
from typing import NamedTuple, Optional

from cupdaisy import forms, stand_in, streams, syntax
from cupdaisy.headers import B, IDR, P, Frame, marking, pic_num
from cupdaisy.syntax import Cut, Value

FAULTS = dict(enumerate((
    "MissingPps MissingSps HeaderCut HeaderValue Redundant SliceOrder SliceMismatch NoIdr SpsChange IdrFrameNum "
    "FrameNumGap FrameNumRepeat OrderRange OrderTie NoReference BadModification BadMarking "
    "TooManyReferences").split(), 1))
SAME = ("frame_num", "idr_pic_id", "pic_order_cnt_lsb", "delta_pic_order_cnt_bottom", "delta_pic_order_cnt[0]",
        "delta_pic_order_cnt[1]")


class Fault(Exception):
    """A unit is no valid picture, by the number of docs/OUTPUT.md."""

    def __init__(self, number):
        super().__init__(FAULTS[number])
        self.number = number


class Request(NamedTuple):
    """The request of a slice: what the lines say of it, its digest form, its text and the units of its entries."""
    line: str
    form: bytes
    text: bytes
    entries: list


class Plan(NamedTuple):
    counts: tuple
    order: int
    begins_period: bool
    requests: list


class Empty(NamedTuple):
    """A unit without a slice has no picture."""


class Fold(stand_in.Decoder):
    """The state after some units."""

    def __init__(self):
        super().__init__()
        self.active: Optional[list] = None
        self.prev_ref, self.greatest = 0, None

    def step(self, unit_id, unit):
        """What becomes of a unit: its Plan, its Fault, or that it is Empty."""
        for kind, read in unit.sets:
            if kind == streams.SPS:
                self.sps[read["seq_parameter_set_id"]] = read
            else:
                self.pps[read["pic_parameter_set_id"]] = read
        if not unit.slices:
            return Empty()
        try:
            return self.planned(unit_id, unit)
        except Fault as fault:
            return fault

    def planned(self, unit_id, unit):
        slices = self.headers(unit)
        header, sps = slices[0][0], slices[0][1]
        self.test_slices(slices)
        self.test_frame(header, sps)
        operations = marking(header)[0]
        resets = any(number == 5 for number, _ in operations)
        counts = self.counts(sps, slices[0][2], header)
        low = min(counts[:2]) if resets else 0
        if any(not -(1 << 31) <= count - taken < 1 << 31 for count in counts[:2] for taken in (0, low)):
            raise Fault(13)
        is_idr = header["nal_unit_type"] == IDR
        self.test_ties(slices, counts)
        if not self.frames and any(each["slice_type"] % 5 in (P, B) for each, _, _ in slices):
            raise Fault(15)
        dpb = [] if is_idr else self.frames
        lists = [self.entries(header, sps, pps, counts) for header, sps, pps in slices]
        frames, greatest = self.marked(unit_id, sps, header, counts, operations)
        if header["nal_ref_idc"] and len(frames) > max(sps["max_num_ref_frames"], 1):
            raise Fault(18)
        requests = [self.request(unit_id, place, len(slices), each, counts, dpb, found, text)
                    for place, (each, found, text) in enumerate(zip(slices, lists, unit.slices))]
        self.go_on(header, sps, counts, resets, frames, greatest)
        return Plan(counts[:2], min(counts[:2]) - low, is_idr or resets, requests)

    def headers(self, unit):
        """The slices' headers, each with the sets that it names."""
        found, faults = [], []
        for nal in unit.slices:
            try:
                first = syntax.peek(nal)
                if first["pic_parameter_set_id"] not in self.pps:
                    raise Fault(1)
                pps = self.pps[first["pic_parameter_set_id"]]
                if pps["seq_parameter_set_id"] not in self.sps:
                    raise Fault(2)
                sps = self.sps[pps["seq_parameter_set_id"]]
                found.append((syntax.read_slice(nal, sps, pps), sps, pps))
            except Fault as fault:
                faults.append(fault.number)
            except Cut:
                faults.append(3)
            except Value:
                faults.append(4)
        if faults:
            raise Fault(min(faults))
        return found

    def test_slices(self, slices):
        """What the slices show among themselves: faults 5 to 7."""
        headers = [header for header, _, _ in slices]
        if any(header["redundant_pic_cnt"] for header in headers):
            raise Fault(5)
        places = [header["first_mb_in_slice"] for header in headers]
        if places[0] or any(next <= place for place, next in zip(places, places[1:])):
            raise Fault(6)

        def shared(header, sps):
            flags = [header[name] for name in ("no_output_of_prior_pics_flag", "long_term_reference_flag",
                                               "adaptive_ref_pic_marking_mode_flag")]
            return [sps["seq_parameter_set_id"], *(header[name] for name in SAME), flags, marking(header)[0]]
        if any(shared(header, sps) != shared(*slices[0][:2]) for header, sps, _ in slices):
            raise Fault(7)

    def test_frame(self, header, sps):
        """What the picture shows after those before it: faults 8 to 12."""
        frame_num, most = header["frame_num"], 1 << sps["log2_max_frame_num_minus4"] + 4
        if header["nal_unit_type"] == IDR:
            if frame_num:
                raise Fault(10)
            return
        if self.active is None:
            raise Fault(8)
        if fields_of(sps) != self.active:
            raise Fault(9)
        if frame_num not in (self.prev_ref, (self.prev_ref + 1) % most):
            raise Fault(11)
        short = [frame.frame_num for frame in self.frames if frame.long_term is None]
        if header["nal_ref_idc"] and (frame_num == self.prev_ref or frame_num in short):
            raise Fault(12)

    def test_ties(self, slices, counts):
        if any(header["slice_type"] % 5 == B for header, _, _ in slices):
            orders = [frame.order() for frame in self.frames if frame.long_term is None]
            if len(set(orders)) < len(orders) or min(counts[:2]) in orders:
                raise Fault(14)

    def entries(self, header, sps, pps, counts):
        """The lists of a slice."""
        try:
            return self.lists(sps, pps, header, counts)
        except StopIteration:
            raise Fault(16) from None

    def marked(self, unit_id, sps, header, counts, operations):
        """The marked frames after a picture, and the greatest long-term index (8.2.5)."""
        frame = Frame(unit_id, header["frame_num"], *counts[:2], None)
        if not header["nal_ref_idc"]:
            return self.frames, self.greatest
        if header["nal_unit_type"] == IDR:
            return ([frame._replace(long_term=0)], 0) if header["long_term_reference_flag"] else ([frame], None)
        if not header["adaptive_ref_pic_marking_mode_flag"]:
            return self.window(sps, header) + [frame], self.greatest
        numbers = [number for number, _ in operations]
        if any(numbers.count(number) > 1 for number in (4, 5, 6)) or 5 in numbers and {1, 2, 3} & {*numbers}:
            raise Fault(17)
        frames, greatest, kept = self.frames, self.greatest, None
        for number, operands in operations:
            if number == 6:
                kept = operands[0]
            else:
                frames, greatest = operated(sps, header, frames, greatest, number, operands)
        if 5 in numbers:
            low = min(counts[:2])
            frame = frame._replace(frame_num=0, top=counts[0] - low, bottom=counts[1] - low)
        if kept is not None:
            if greatest is None or kept > greatest:
                raise Fault(17)
            frames = [other for other in frames if other.long_term != kept]
        return frames + [frame._replace(long_term=kept)], greatest

    def window(self, sps, header):
        """The sliding window (8.2.5.3)."""
        if len(self.frames) != max(sps["max_num_ref_frames"], 1):
            return self.frames
        short = [frame for frame in self.frames if frame.long_term is None]
        if not short:
            raise Fault(17)
        least = min(short, key=lambda frame: pic_num(sps, header, frame))
        return [frame for frame in self.frames if frame is not least]

    def request(self, unit_id, place, count, slice_read, counts, dpb, lists, nal):
        """The request of a slice."""
        header, sps, pps = slice_read
        form = forms.of_request(sps, pps, header, counts, dpb, lists)
        named = ",".join(f"{1000 * frame.unit}:{pic_num(sps, header, frame)}:{3 if frame.long_term is None else 7}"
                         for frame in dpb) or "-"
        texts = [",".join("x" if entry is None else str(entry) for entry in entries) or "-" for entries in lists]
        line = (f"request {unit_id}.{place} ts {1000 * unit_id} bits {header.end()} "
                f"type {header['slice_type'] % 5} frame {header['frame_num']} dpb {named} l0 {texts[0]} l1 {texts[1]} "
                f"hold {int(place + 1 < count)}")
        entries = [None if entry is None else dpb[entry].unit for entries in lists for entry in entries]
        return Request(line, form, streams.START + nal, entries)

    def go_on(self, header, sps, counts, resets, frames, greatest):
        """The state after a valid picture."""
        low = min(counts[:2]) if resets else 0
        self.frames, self.greatest = frames, greatest
        self.prev_frame_num, self.prev_offset = (0, 0) if resets else (header["frame_num"], counts[2])
        if header["nal_unit_type"] == IDR:
            self.active = fields_of(sps)
        if header["nal_ref_idc"]:
            self.prev_ref = 0 if resets else header["frame_num"]
            self.prev_msb, self.prev_lsb = (0, counts[0] - low) if resets else (counts[2], header["pic_order_cnt_lsb"])


def fields_of(sps):
    """What is compared of two sequence parameter sets: each field that is read."""
    return [(name, value) for name, value, _, _ in sps.fields if not name.startswith(("forbidden", "nal_"))]


def operated(sps, header, frames, greatest, number, operands):
    """The marked frames and the greatest index after one of operations 1 to 5 (8.2.5.4)."""
    def named(chosen):
        if not any(map(chosen, frames)):
            raise Fault(17)
        return chosen

    def is_short(frame):
        return frame.long_term is None and pic_num(sps, header, frame) == header["frame_num"] - (operands[0] + 1)
    if number == 1:
        gone = named(is_short)
        return [frame for frame in frames if not gone(frame)], greatest
    if number == 2:
        gone = named(lambda frame: frame.long_term == operands[0])
        return [frame for frame in frames if not gone(frame)], greatest
    if number == 3:
        moved = named(is_short)
        if greatest is None or operands[1] > greatest:
            raise Fault(17)
        return [frame._replace(long_term=operands[1]) if moved(frame) else frame
                for frame in frames if frame.long_term != operands[1]], greatest
    if number == 4:
        if operands[0] > sps["max_num_ref_frames"]:
            raise Fault(17)
        greatest = operands[0] - 1 if operands[0] else None
        return [frame for frame in frames if frame.long_term is None or frame.long_term < operands[0]], greatest
    return [], None


class Row(NamedTuple):
    """What becomes of a unit of a stream, its position and its key, which one that isn't valid hasn't."""
    outcome: object
    position: Optional[int]
    key: Optional[bytes]


def rows(stream, pictures):
    """A row for each unit of a stream, a list of ids and units. The picture of each key is added to `pictures`."""
    fold, outcomes, keys = Fold(), [], {}
    for unit_id, unit in stream:
        outcome = fold.step(unit_id, unit)
        outcomes.append(outcome)
        keys[unit_id] = key_of(outcome, keys, pictures) if isinstance(outcome, Plan) else None
    period, places = 0, []
    for at, outcome in enumerate(outcomes):
        if isinstance(outcome, Plan):
            period += outcome.begins_period
            places.append((period, outcome.order, at))
    return [Row(outcome, sum(other < place for other in places) if (place := next(
                (each for each in places if each[2] == at), None)) else None, keys[stream[at][0]])
            for at, outcome in enumerate(outcomes)]


def key_of(plan, keys, pictures):
    """The key of a plan, a hash of its whole tree; the keys of the units before it are known."""
    tree, records = hashlib.sha256(), hashlib.sha256()
    for request in plan.requests:
        named = [None if unit is None else keys[unit] for unit in request.entries]
        for part in (request.form, request.text):
            tree.update(struct.pack("<Q", len(part)) + part)
        tree.update(struct.pack("<Q", len(named)) + b"".join(b"\0" if key is None else b"\1" + key for key in named))
        records.update(request.form + struct.pack("<Q", len(request.text)) + request.text)
        records.update(b"".join(bytes(32) if key is None else pictures[key] for key in named))
    key = tree.digest()
    pictures[key] = records.digest()
    return key
