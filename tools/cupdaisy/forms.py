"""The digest forms of a request's controls, of parameter sets and a slice header as they are traced or read."""
import re
import struct

from cupdaisy.headers import IDR, active_counts, marking, pic_num

ZIG_ZAG = [0, 1, 4, 8, 5, 2, 3, 6, 9, 12, 13, 10, 7, 11, 14, 15]
ZIG_ZAG_8X8 = [0, 1, 8, 16, 9, 2, 3, 10, 17, 24, 32, 25, 18, 11, 4, 5, 12, 19, 26, 33, 40, 48, 41, 34, 27, 20, 13, 6, 7,
               14, 21, 28, 35, 42, 49, 56, 57, 50, 43, 36, 29, 22, 15, 23, 30, 37, 44, 51, 58, 59, 52, 45, 38, 31, 39,
               46, 53, 60, 61, 54, 47, 55, 62, 63]


def runs(*pairs):
    """A list of values, each so many times."""
    return [value for value, times in pairs for _ in range(times)]


# Tables 7-3 and 7-4, in zig-zag order.
INTRA = runs((6, 1), (13, 2), (20, 3), (28, 4), (32, 3), (37, 2), (42, 1))
INTER = runs((10, 1), (14, 2), (20, 3), (24, 4), (27, 3), (30, 2), (34, 1))
INTRA_8X8 = runs((6, 1), (10, 2), (13, 1), (11, 1), (13, 1), (16, 4), (18, 5), (23, 6), (25, 7), (27, 8), (29, 7),
                 (31, 6), (33, 5), (36, 4), (38, 3), (40, 2), (42, 1))
INTER_8X8 = runs((9, 1), (13, 2), (15, 1), (13, 1), (15, 1), (17, 4), (19, 5), (21, 6), (22, 7), (24, 8), (25, 7),
                 (27, 6), (28, 5), (30, 4), (32, 3), (33, 2), (35, 1))
DEFAULTS = [INTRA] * 3 + [INTER] * 3 + [INTRA_8X8, INTER_8X8]
FLAT = [[16] * 16] * 6 + [[16] * 64] * 2


def scaling_list(deltas, size):
    """A list from its deltas, or None for the default one (7.3.2.1.1.1)."""
    entries, last, following, left = [], 8, 8, iter(deltas)
    for place in range(size):
        if following != 0:
            following = (last + next(left) + 256) % 256
            if place == 0 and following == 0:
                return None
        last = last if following == 0 else following
        entries.append(last)
    return entries


def scaling_lists(traced_set, after):
    """The eight lists of a set that has some; those after it take the place of what falls back."""
    sent, deltas = {}, None
    for name, value, _, _ in traced_set.fields:
        flag = re.match(r"(?:seq|pic)_scaling_list_present_flag\[(\d+)\]", name)
        if flag:
            deltas = [] if value else None
            sent[int(flag[1])] = deltas
        elif name.startswith("delta_scale") and deltas is not None:
            deltas.append(value)
    lists = []
    for index in range(8):
        if sent.get(index) is not None:
            lists.append(scaling_list(sent[index], 16 if index < 6 else 64) or DEFAULTS[index])
        elif index in (1, 2, 4, 5):
            lists.append(lists[-1])
        else:
            lists.append(after[index])
    return lists, sent


def matrix(sps, pps):
    """The lists of a picture, in zig-zag order."""
    in_sps = bool(sps["seq_scaling_matrix_present_flag"])
    of_sps = scaling_lists(sps, DEFAULTS)[0] if in_sps else FLAT
    if not pps["pic_scaling_matrix_present_flag"]:
        return of_sps
    lists, sent = scaling_lists(pps, of_sps if in_sps else DEFAULTS)
    return lists[:6] + [lists[index] if index in sent else of_sps[index] for index in (6, 7)]


def in_raster(entries, order):
    raster = [0] * len(entries)
    for place, entry in zip(order, entries):
        raster[place] = entry
    return bytes(raster)


def flags(*numbers):
    return sum(number for number, is_set in numbers if is_set)


def sps_form(sps):
    offsets = [sps[f"offset_for_ref_frame[{i}]"] for i in range(sps["num_ref_frames_in_pic_order_cnt_cycle"])]
    front = bytes([
        sps["profile_idc"], flags(*((1 << i, sps[f"constraint_set{i}_flag"]) for i in range(6))), sps["level_idc"],
        sps["seq_parameter_set_id"], sps.get("chroma_format_idc", 1), sps["bit_depth_luma_minus8"],
        sps["bit_depth_chroma_minus8"], sps["log2_max_frame_num_minus4"], sps["pic_order_cnt_type"],
        sps["log2_max_pic_order_cnt_lsb_minus4"], sps["max_num_ref_frames"],
        sps["num_ref_frames_in_pic_order_cnt_cycle"]])
    offsets += [0] * (255 - len(offsets)) + [sps["offset_for_non_ref_pic"], sps["offset_for_top_to_bottom_field"]]
    set_flags = flags((2, sps["qpprime_y_zero_transform_bypass_flag"]), (4, sps["delta_pic_order_always_zero_flag"]),
                      (8, sps["gaps_in_frame_num_allowed_flag"]), (16, True), (64, sps["direct_8x8_inference_flag"]))
    return front + struct.pack("<257i2HI", *offsets, sps["pic_width_in_mbs_minus1"],
                               sps["pic_height_in_map_units_minus1"], set_flags)


def pps_form(sps, pps):
    has_lists = sps["seq_scaling_matrix_present_flag"] or pps["pic_scaling_matrix_present_flag"]
    set_flags = flags(
        (1, pps["entropy_coding_mode_flag"]), (2, pps["bottom_field_pic_order_in_frame_present_flag"]),
        (4, pps["weighted_pred_flag"]), (8, pps["deblocking_filter_control_present_flag"]),
        (16, pps["constrained_intra_pred_flag"]), (32, pps["redundant_pic_cnt_present_flag"]),
        (64, pps["transform_8x8_mode_flag"]), (128, has_lists))
    offset = pps["chroma_qp_index_offset"]
    return struct.pack(
        "<6B4bH", pps["pic_parameter_set_id"], pps["seq_parameter_set_id"], pps["num_slice_groups_minus1"],
        pps["num_ref_idx_l0_default_active_minus1"], pps["num_ref_idx_l1_default_active_minus1"],
        pps["weighted_bipred_idc"], pps["pic_init_qp_minus26"], pps["pic_init_qs_minus26"], offset,
        pps.get("second_chroma_qp_index_offset", offset), set_flags)


def matrix_form(sps, pps):
    lists = matrix(sps, pps)
    return (b"".join(in_raster(entries, ZIG_ZAG) for entries in lists[:6])
            + b"".join(in_raster(entries, ZIG_ZAG_8X8) for entries in lists[6:]) + bytes([16]) * 256)


def weights_form(sps, pps, header):
    if "luma_log2_weight_denom" not in header:
        return b"\0"
    luma, chroma = header["luma_log2_weight_denom"], header["chroma_log2_weight_denom"]
    has_chroma = sps.get("chroma_format_idc", 1) != 0
    form = b"\1" + struct.pack("<2H", luma, chroma)
    for x, active in enumerate(active_counts(pps, header)):
        def rows(name, absent, planes):
            return [header.get(f"{name}_l{x}[{i}]" + (f"[{plane}]" if planes > 1 else ""), absent)
                    if i < active and (planes == 1 or has_chroma) else 0 for i in range(32) for plane in range(planes)]
        form += struct.pack("<192h", *rows("luma_weight", 1 << luma, 1), *rows("luma_offset", 0, 1),
                            *rows("chroma_weight", 1 << chroma, 2), *rows("chroma_offset", 0, 2))
    return form


def slice_form(pps, header, lists):
    counts = [max(active - 1, 0) for active in active_counts(pps, header)]
    entries = [(0, 0) if place is None else (3, place)
               for entries in lists for place in entries + [None] * (32 - len(entries))]
    return struct.pack(
        "<2I4B2bB2b2B128BI", header.end(), header["first_mb_in_slice"], header["slice_type"] % 5, 0, 0,
        header["cabac_init_idc"], header["slice_qp_delta"], 0, header["disable_deblocking_filter_idc"],
        header["slice_alpha_c0_offset_div2"], header["slice_beta_offset_div2"], *counts,
        *(number for entry in entries for number in entry), header["direct_spatial_mv_pred_flag"])


def decode_form(sps, header, counts, dpb):
    form = b""
    for frame in dpb:
        is_long = frame.long_term is not None
        form += struct.pack("<IHB2iI", pic_num(sps, header, frame) & 0xFFFFFFFF,
                            frame.long_term if is_long else frame.frame_num, 3, frame.top, frame.bottom,
                            7 if is_long else 3)
    count_bits = sum(bits for name, _, bits, _ in header.fields
                     if name.startswith(("pic_order_cnt_lsb", "delta_pic_order_cnt")))
    return form.ljust(304, b"\0") + struct.pack(
        "<2H2i2H3i4I", header["nal_ref_idc"], header["frame_num"], *counts[:2], header["idr_pic_id"],
        header["pic_order_cnt_lsb"], header["delta_pic_order_cnt_bottom"], header["delta_pic_order_cnt[0]"],
        header["delta_pic_order_cnt[1]"], marking(header)[1], count_bits, 0, header["nal_unit_type"] == IDR)


def of_request(sps, pps, header, counts, dpb, lists):
    """The digest form of a request: of its six controls in order."""
    return (sps_form(sps) + pps_form(sps, pps) + matrix_form(sps, pps) + weights_form(sps, pps, header)
            + slice_form(pps, header, lists) + decode_form(sps, header, counts, dpb))
