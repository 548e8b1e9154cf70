"""Texts of access units read by ITU-T H.264 as README.md limits it: parameter sets and slice headers (7.3), and what is
refused of a unit. Plain and slow: a bit at a time, each field by its name.

What is read is a traces.Traced, with the names of ffmpeg's trace_headers, so that the forms of forms.py are made of it.
"""
import re

from cupdaisy.headers import B, I, IDR, P, active_counts
from cupdaisy.streams import BEFORE_SLICES, PPS, REFUSED_TYPES, SLICES, SPS, Refused, begins_picture, split, text_of, type_of
from cupdaisy.traces import Traced

PROFILES, HIGH_PROFILES = (66, 77, 100, 110, 122), (100, 110, 122)
MOST_BYTES, MOST_SLICES, MOST_OPERATIONS = 4194304, 256, 64


class Cut(Exception):
    """A code runs past the payload."""


class Value(Exception):
    """A field is out of its range, or its code has more than 31 zeros."""


class Reader:
    """The fields of a NAL unit, read from its payload one after the other."""

    def __init__(self, nal):
        payload = re.sub(rb"\x00\x00\x03", b"\0\0", nal)
        self.bits, self.place = "".join(f"{byte:08b}" for byte in payload), 0
        self.unit = Traced(None)
        if not payload:
            raise Cut
        self.fixed("forbidden_zero_bit", 1)
        self.fixed("nal_ref_idc", 2)
        self.fixed("nal_unit_type", 5)

    def add(self, name, place, value, least=None, most=None):
        if least is not None and value < least or most is not None and value > most:
            raise Value
        self.unit.add(place, name, self.place - place, value)
        return value

    def take(self, count):
        if self.place + count > len(self.bits):
            raise Cut
        self.place += count
        return self.bits[self.place - count:self.place]

    def fixed(self, name, count, least=None, most=None):
        place = self.place
        return self.add(name, place, int(self.take(count), 2), least, most)

    def flag(self, name):
        return self.fixed(name, 1)

    def code(self):
        """An Exp-Golomb code (9.1)."""
        zeros = 0
        while self.take(1) == "0":
            zeros += 1
            if zeros > 31:
                raise Value
        return (1 << zeros) - 1 + int("0" + self.take(zeros), 2)

    def ue(self, name, most=None):
        place = self.place
        return self.add(name, place, self.code(), 0, most)

    def se(self, name, least=None, most=None):
        place, code = self.place, self.code()
        return self.add(name, place, (code + 1) // 2 if code % 2 else -(code // 2), least, most)

    def more_data(self):
        return "1" in self.bits[self.place + 1:]


def read_lists(reader, prefix, count):
    for index in range(count):
        if not reader.flag(f"{prefix}_scaling_list_present_flag[{index}]"):
            continue
        last = following = 8
        for place in range(16 if index < 6 else 64):
            if following == 0:
                break
            following = (last + reader.se(f"delta_scale[{place}]", -128, 127) + 256) % 256
            last = following or last


def read_sps(nal):
    """A sequence parameter set (7.3.2.1.1), up to direct_8x8_inference_flag."""
    reader = Reader(nal)
    profile = reader.fixed("profile_idc", 8)
    if profile not in PROFILES:
        raise Value
    for index in range(6):
        reader.flag(f"constraint_set{index}_flag")
    reader.take(2)
    reader.fixed("level_idc", 8)
    reader.ue("seq_parameter_set_id", 31)
    if profile in HIGH_PROFILES:
        reader.ue("chroma_format_idc", 2)
        reader.ue("bit_depth_luma_minus8", 6)
        reader.ue("bit_depth_chroma_minus8", 6)
        reader.flag("qpprime_y_zero_transform_bypass_flag")
        if reader.flag("seq_scaling_matrix_present_flag"):
            read_lists(reader, "seq", 8)
    reader.ue("log2_max_frame_num_minus4", 12)
    count_type = reader.ue("pic_order_cnt_type", 2)
    if count_type == 0:
        reader.ue("log2_max_pic_order_cnt_lsb_minus4", 12)
    elif count_type == 1:
        reader.flag("delta_pic_order_always_zero_flag")
        reader.se("offset_for_non_ref_pic")
        reader.se("offset_for_top_to_bottom_field")
        for index in range(reader.ue("num_ref_frames_in_pic_order_cnt_cycle", 255)):
            reader.se(f"offset_for_ref_frame[{index}]")
    reader.ue("max_num_ref_frames", 16)
    reader.flag("gaps_in_frame_num_allowed_flag")
    reader.ue("pic_width_in_mbs_minus1", 65535)
    reader.ue("pic_height_in_map_units_minus1", 65535)
    reader.fixed("frame_mbs_only_flag", 1, 1)
    reader.flag("direct_8x8_inference_flag")
    return reader.unit


def read_pps(nal):
    """A picture parameter set (7.3.2.2)."""
    reader = Reader(nal)
    reader.ue("pic_parameter_set_id", 255)
    reader.ue("seq_parameter_set_id", 31)
    reader.flag("entropy_coding_mode_flag")
    reader.flag("bottom_field_pic_order_in_frame_present_flag")
    reader.ue("num_slice_groups_minus1", 0)
    reader.ue("num_ref_idx_l0_default_active_minus1", 31)
    reader.ue("num_ref_idx_l1_default_active_minus1", 31)
    reader.flag("weighted_pred_flag")
    reader.fixed("weighted_bipred_idc", 2, 0, 2)
    reader.se("pic_init_qp_minus26", -62, 25)
    reader.se("pic_init_qs_minus26", -26, 25)
    reader.se("chroma_qp_index_offset", -12, 12)
    reader.flag("deblocking_filter_control_present_flag")
    reader.flag("constrained_intra_pred_flag")
    reader.flag("redundant_pic_cnt_present_flag")
    if reader.more_data():
        large = reader.flag("transform_8x8_mode_flag")
        if reader.flag("pic_scaling_matrix_present_flag"):
            read_lists(reader, "pic", 8 if large else 6)
        reader.se("second_chroma_qp_index_offset", -12, 12)
    return reader.unit


def peek(nal):
    """The first fields of a slice header."""
    reader = Reader(nal)
    reader.ue("first_mb_in_slice")
    reader.ue("slice_type", 9)
    reader.ue("pic_parameter_set_id", 255)
    return reader.unit


def read_slice(nal, sps, pps):
    """A slice header (7.3.3)."""
    reader = Reader(nal)
    header = reader.unit
    size = (sps["pic_width_in_mbs_minus1"] + 1) * (sps["pic_height_in_map_units_minus1"] + 1)
    reader.ue("first_mb_in_slice", size - 1)
    slice_type = reader.ue("slice_type", 9) % 5
    reader.ue("pic_parameter_set_id", 255)
    reader.fixed("frame_num", sps["log2_max_frame_num_minus4"] + 4)
    if type_of(nal) == IDR:
        reader.ue("idr_pic_id", 65535)
    read_counts(reader, sps, pps)
    if pps["redundant_pic_cnt_present_flag"]:
        reader.ue("redundant_pic_cnt", 127)
    if slice_type == B:
        reader.flag("direct_spatial_mv_pred_flag")
    if slice_type in (P, B) and reader.flag("num_ref_idx_active_override_flag"):
        for x in range(1 + (slice_type == B)):
            reader.ue(f"num_ref_idx_l{x}_active_minus1", 31)
    active = active_counts(pps, header)
    for x in range({P: 1, B: 2}.get(slice_type, 0)):
        if reader.flag(f"ref_pic_list_modification_flag_l{x}"):
            read_commands(reader, active[x], 1 << sps["log2_max_frame_num_minus4"] + 4)
    if slice_type == P and pps["weighted_pred_flag"] or slice_type == B and pps["weighted_bipred_idc"] == 1:
        read_weights(reader, sps.get("chroma_format_idc", 1) != 0, active)
    if header["nal_ref_idc"]:
        read_marking(reader, type_of(nal))
    if pps["entropy_coding_mode_flag"] and slice_type != I:
        reader.ue("cabac_init_idc", 2)
    reader.se("slice_qp_delta", -87, 87)
    if pps["deblocking_filter_control_present_flag"] and reader.ue("disable_deblocking_filter_idc", 2) != 1:
        reader.se("slice_alpha_c0_offset_div2", -6, 6)
        reader.se("slice_beta_offset_div2", -6, 6)
    return header


def read_counts(reader, sps, pps):
    has_bottom = pps["bottom_field_pic_order_in_frame_present_flag"]
    if sps["pic_order_cnt_type"] == 0:
        reader.fixed("pic_order_cnt_lsb", sps["log2_max_pic_order_cnt_lsb_minus4"] + 4)
        if has_bottom:
            reader.se("delta_pic_order_cnt_bottom")
    elif sps["pic_order_cnt_type"] == 1 and not sps["delta_pic_order_always_zero_flag"]:
        reader.se("delta_pic_order_cnt[0]")
        if has_bottom:
            reader.se("delta_pic_order_cnt[1]")


def read_commands(reader, active, most):
    count = 0
    while (command := reader.ue("modification_of_pic_nums_idc", 3)) != 3:
        count += 1
        if count > active:
            raise Value
        if command == 2:
            reader.ue("long_term_pic_num")
        else:
            reader.ue("abs_diff_pic_num_minus1", most - 1)


def read_weights(reader, has_chroma, active):
    reader.ue("luma_log2_weight_denom", 7)
    if has_chroma:
        reader.ue("chroma_log2_weight_denom", 7)
    for x, count in enumerate(active):
        for i in range(count):
            if reader.flag(f"luma_weight_l{x}_flag[{i}]"):
                reader.se(f"luma_weight_l{x}[{i}]", -128, 127)
                reader.se(f"luma_offset_l{x}[{i}]", -128, 127)
            if has_chroma and reader.flag(f"chroma_weight_l{x}_flag[{i}]"):
                for plane in range(2):
                    reader.se(f"chroma_weight_l{x}[{i}][{plane}]", -128, 127)
                    reader.se(f"chroma_offset_l{x}[{i}][{plane}]", -128, 127)


def read_marking(reader, kind):
    if kind == IDR:
        reader.flag("no_output_of_prior_pics_flag")
        reader.flag("long_term_reference_flag")
        return
    if not reader.flag("adaptive_ref_pic_marking_mode_flag"):
        return
    count = 0
    while operation := reader.ue("memory_management_control_operation", 6):
        count += 1
        if count > MOST_OPERATIONS:
            raise Value
        if operation in (1, 3):
            reader.ue("difference_of_pic_nums_minus1")
        if operation == 2:
            reader.ue("long_term_pic_num")
        if operation in (3, 6):
            reader.ue("long_term_frame_idx")
        if operation == 4:
            reader.ue("max_long_term_frame_idx_plus1")


class Unit:
    """An access unit: its NAL units, and the parameter sets among them as they are read."""

    def __init__(self, nals):
        self.slices, self.sets = [], []
        if len(text_of(nals)) > MOST_BYTES:
            raise Refused(14)
        for nal in nals:
            shown = list(self.refusals(nal))
            if shown:
                raise Refused(min(shown))
            if type_of(nal) in SLICES:
                self.slices.append(nal)

    def refusals(self, nal):
        """The numbers that a NAL unit shows after those before it; a set that is read is kept."""
        kind = type_of(nal)
        if kind in REFUSED_TYPES:
            yield 2
        if nal[0] & 128:
            yield 3
        for number, wanted, read in ((4, SPS, read_sps), (5, PPS, read_pps)):
            if kind == wanted:
                try:
                    self.sets.append((kind, read(nal)))
                except (Cut, Value):
                    yield number
        if kind in BEFORE_SLICES and self.slices:
            yield 11
        if kind in SLICES:
            yield from self.slice_refusals(nal)

    def slice_refusals(self, nal):
        is_idr, is_reference = type_of(nal) == IDR, nal[0] & 96 != 0
        slice_type = type_of_slice(nal)
        if slice_type in (3, 4, 8, 9):
            yield 6
        if is_idr and slice_type in (0, 1, 5, 6):
            yield 8
        if is_idr and not is_reference:
            yield 9
        if self.slices:
            first = self.slices[0]
            if type_of(first) != type_of(nal):
                yield 7
            if (first[0] & 96 != 0) != is_reference:
                yield 10
            if begins_picture(nal):
                yield 13
            if len(self.slices) >= MOST_SLICES:
                yield 14


def type_of_slice(nal):
    """slice_type where it can be read, else None."""
    try:
        reader = Reader(nal)
        reader.ue("first_mb_in_slice")
        return reader.ue("slice_type")
    except (Cut, Value):
        return None


def read_unit(text):
    """The access unit of a text."""
    if len(text) > MOST_BYTES:
        raise Refused(14)
    return Unit(split(text))
