"""The stand-in pictures of a stream, computed anew: parameter sets and slice headers as ffmpeg's trace_headers prints
them, picture order counts, marking and reference lists by ITU-T H.264 (8.2.1, 8.2.4, 8.2.5), and hashlib.

The streams are those whose units are all valid: of frames, without gaps in frame_num.
"""
import hashlib
import struct

from cupdaisy import forms, traces
from cupdaisy.headers import B, IDR, P, Frame, active_counts, marking, modifications, pic_num
from cupdaisy.streams import SLICES, START, type_of


class Untraced(Exception):
    """ffmpeg reads other slices than the stream has."""


def slices_of(text):
    """The slices of a byte stream, each after a start code of three bytes."""
    units = [unit.rstrip(b"\0") for unit in text.split(START)[1:]]
    return [START + unit for unit in units if type_of(unit) in SLICES]


class Decoder:
    """What is known after some access units: parameter sets, anchors of counts, marked frames, and pictures."""

    def __init__(self):
        self.sps, self.pps, self.frames, self.pictures = {}, {}, [], {}
        self.prev_msb = self.prev_lsb = self.prev_offset = self.prev_frame_num = 0

    def picture(self, unit, traced_units, slices):
        """The picture of an access unit: of its trace, and of the slices that come next."""
        records, headers = b"", []
        for each in traced_units:
            if each.kind == "Sequence Parameter Set":
                self.sps[each["seq_parameter_set_id"]] = each
            elif each.kind == "Picture Parameter Set":
                self.pps[each["pic_parameter_set_id"]] = each
            elif each.kind == "Slice Header":
                headers.append(each)
        pps = self.pps[headers[0]["pic_parameter_set_id"]]
        sps = self.sps[pps["seq_parameter_set_id"]]
        counts = self.counts(sps, pps, headers[0])
        for header in headers:
            records += self.record(sps, self.pps[header["pic_parameter_set_id"]], header, counts, next(slices))
        self.pictures[unit] = hashlib.sha256(records).digest()
        self.mark(unit, sps, headers[0], counts)
        return self.pictures[unit]

    def counts(self, sps, pps, header):
        """The picture order counts (8.2.1), and the anchor's part of them."""
        frame_num, most = header["frame_num"], 1 << sps["log2_max_frame_num_minus4"] + 4
        is_idr, is_reference = header["nal_unit_type"] == IDR, header["nal_ref_idc"] != 0
        if sps["pic_order_cnt_type"] == 0:
            return self.counts_of_type_0(sps, header)
        offset = 0 if is_idr else self.prev_offset + (most if self.prev_frame_num > frame_num else 0)
        if sps["pic_order_cnt_type"] == 2:
            count = 0 if is_idr else 2 * (offset + frame_num) - (not is_reference)
            return count, count, offset
        cycle = sps["num_ref_frames_in_pic_order_cnt_cycle"]
        offsets = [sps[f"offset_for_ref_frame[{i}]"] for i in range(cycle)]
        absolute = offset + frame_num if cycle else 0
        absolute -= absolute > 0 and not is_reference
        expected = 0
        if absolute > 0:
            expected = (absolute - 1) // cycle * sum(offsets) + sum(offsets[:(absolute - 1) % cycle + 1])
        expected += 0 if is_reference else sps["offset_for_non_ref_pic"]
        top = expected + header["delta_pic_order_cnt[0]"]
        return top, top + sps["offset_for_top_to_bottom_field"] + header["delta_pic_order_cnt[1]"], offset

    def counts_of_type_0(self, sps, header):
        most, lsb = 1 << sps["log2_max_pic_order_cnt_lsb_minus4"] + 4, header["pic_order_cnt_lsb"]
        msb, last = (0, 0) if header["nal_unit_type"] == IDR else (self.prev_msb, self.prev_lsb)
        if lsb < last and last - lsb >= most // 2:
            msb += most
        elif lsb > last and lsb - last > most // 2:
            msb -= most
        return msb + lsb, msb + lsb + header["delta_pic_order_cnt_bottom"], msb

    def record(self, sps, pps, header, counts, text):
        """The record of a slice."""
        dpb = [] if header["nal_unit_type"] == IDR else self.frames
        lists = self.lists(sps, pps, header, counts)
        form = forms.of_request(sps, pps, header, counts, dpb, lists)
        pictures = b"".join(bytes(32) if place is None else self.pictures[dpb[place].unit]
                            for entries in lists for place in entries)
        return form + struct.pack("<Q", len(text)) + text + pictures

    def lists(self, sps, pps, header, counts):
        """Both reference lists: places among the marked frames, None for a missing entry (8.2.4)."""
        frames, slice_type = self.frames, header["slice_type"] % 5
        short = [i for i, frame in enumerate(frames) if frame.long_term is None]
        long = sorted((i for i, frame in enumerate(frames) if frame.long_term is not None),
                      key=lambda i: frames[i].long_term)
        initial = [[], []]
        if slice_type == P:
            initial[0] = sorted(short, key=lambda i: -pic_num(sps, header, frames[i])) + long
        elif slice_type == B:
            current = min(counts[:2])
            before = sorted((i for i in short if frames[i].order() < current), key=lambda i: -frames[i].order())
            after = sorted((i for i in short if frames[i].order() > current), key=lambda i: frames[i].order())
            initial = [before + after + long, after + before + long]
            if len(initial[1]) > 1 and initial[0] == initial[1]:
                initial[1][:2] = initial[1][1], initial[1][0]
        active = active_counts(pps, header)
        return [self.modified(sps, header, (entries + [None] * count)[:count], commands)
                for entries, count, commands in zip(initial, active, modifications(header))]

    def modified(self, sps, header, entries, commands):
        """A list after its commands (8.2.4.3)."""
        most = 1 << sps["log2_max_frame_num_minus4"] + 4
        current = predicted = header["frame_num"]
        for place, (number, (operand,)) in enumerate(commands):
            if number == 2:
                named = next(i for i, frame in enumerate(self.frames) if frame.long_term == operand)
            else:
                step = operand + 1
                predicted = (predicted - step if number == 0 else predicted + step) % most
                wanted = predicted - most if predicted > current else predicted
                named = next(i for i, frame in enumerate(self.frames)
                             if frame.long_term is None and pic_num(sps, header, frame) == wanted)
            rest = [entry for entry in entries[place:] if entry != named]
            entries = (entries[:place] + [named] + rest)[:len(entries)]
        return entries

    def mark(self, unit, sps, header, counts):
        """The frames and anchors after the picture (8.2.5)."""
        operations = marking(header)[0]
        resets = any(number == 5 for number, _ in operations)
        top, bottom, part = counts
        low = min(top, bottom) if resets else 0
        frame = Frame(unit, 0 if resets else header["frame_num"], top - low, bottom - low, None)
        self.prev_frame_num, self.prev_offset = (0, 0) if resets else (header["frame_num"], part)
        if not header["nal_ref_idc"]:
            return
        self.prev_msb, self.prev_lsb = (0, frame.top) if resets else (part, header["pic_order_cnt_lsb"])
        if header["nal_unit_type"] == IDR:
            self.frames = [frame._replace(long_term=0 if header["long_term_reference_flag"] else None)]
            return
        if header["adaptive_ref_pic_marking_mode_flag"]:
            for operation in operations:
                self.operate(sps, header, operation)
            kept = next((operands[0] for number, operands in operations if number == 6), None)
            if kept is not None:
                self.frames = [other for other in self.frames if other.long_term != kept]
            frame = frame._replace(long_term=kept)
        elif len(self.frames) == max(sps["max_num_ref_frames"], 1):
            short = [other for other in self.frames if other.long_term is None]
            self.frames.remove(min(short, key=lambda other: pic_num(sps, header, other)))
        self.frames.append(frame)

    def operate(self, sps, header, operation):
        """Operations 1 to 5 (8.2.5.4)."""
        number, operands = operation

        def is_named(frame):
            return frame.long_term is None and pic_num(sps, header, frame) == header["frame_num"] - (operands[0] + 1)
        if number == 1:
            self.frames = [frame for frame in self.frames if not is_named(frame)]
        elif number == 2:
            self.frames = [frame for frame in self.frames if frame.long_term != operands[0]]
        elif number == 3:
            held = [frame for frame in self.frames if frame.long_term != operands[1]]
            self.frames = [frame._replace(long_term=operands[1]) if is_named(frame) else frame for frame in held]
        elif number == 4:
            self.frames = [frame for frame in self.frames if frame.long_term is None or frame.long_term < operands[0]]
        elif number == 5:
            self.frames = []


def pictures(file):
    """The pictures of a stream's access units, in order."""
    with open(file, "rb") as stream:
        slices = slices_of(stream.read())
    packets = traces.traced(file)
    headers = sum(unit.kind == "Slice Header" for packet in packets for unit in packet)
    if headers != len(slices):
        raise Untraced(f"{len(slices)} slices, {headers} by ffmpeg")
    decoder, rest = Decoder(), iter(slices)
    return [decoder.picture(unit, packet, rest) for unit, packet in enumerate(packets, 1)]
