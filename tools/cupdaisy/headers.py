"""What slice headers say of marking, lists and frames by ITU-T H.264 (7.4.3, 8.2.4, 8.2.5), of headers as they are traced or read."""
from typing import NamedTuple, Optional

# Types of slices, and of the NAL unit of a slice of an IDR picture.
P, B, I = 0, 1, 2
IDR = 5


def active_counts(pps, header):
    """How many entries each list has."""
    slice_type = header["slice_type"] % 5
    return [header.get(f"num_ref_idx_l{x}_active_minus1", pps[f"num_ref_idx_l{x}_default_active_minus1"]) + 1
            if slice_type in types else 0 for x, types in ((0, (P, B)), (1, (B,)))]


class Frame(NamedTuple):
    """A frame that is marked as used for reference."""
    unit: int
    frame_num: int
    top: int
    bottom: int
    long_term: Optional[int]

    def order(self):
        return min(self.top, self.bottom)


class Operation(NamedTuple):
    """An operation of dec_ref_pic_marking or a command of ref_pic_list_modification, with its operands."""
    number: int
    operands: list


MARKING = ("difference_of_pic_nums_minus1", "long_term_pic_num", "long_term_frame_idx", "max_long_term_frame_idx_plus1")
MARKING_BEGINS = ("no_output_of_prior_pics_flag", "adaptive_ref_pic_marking_mode_flag")
MARKING_ALL = MARKING + MARKING_BEGINS + ("long_term_reference_flag", "memory_management_control_operation")


def marking(header):
    """The operations of the slice's marking, and the size of its syntax in bits."""
    operations, size, begun = [], 0, False
    for name, value, bits, _ in header.fields:
        name = name.partition("[")[0]
        begun = begun or name in MARKING_BEGINS
        if not begun or name not in MARKING_ALL:
            continue
        size += bits
        if name == "memory_management_control_operation" and value:
            operations.append(Operation(value, []))
        elif name in MARKING:
            operations[-1].operands.append(value)
    return operations, size


def modifications(header):
    """The commands for each list."""
    lists, current = ([], []), None
    for name, value, _, _ in header.fields:
        if name.startswith("ref_pic_list_modification_flag_l"):
            current = lists[int(name[-1])]
        elif name in MARKING_BEGINS:
            break
        elif name == "modification_of_pic_nums_idc" and value != 3:
            current.append(Operation(value, []))
        elif name in ("abs_diff_pic_num_minus1", "long_term_pic_num"):
            current[-1].operands.append(value)
    return lists


def pic_num(sps, header, frame):
    """PicNum of a short-term frame, LongTermPicNum of a long-term one (8.2.4.1)."""
    if frame.long_term is not None:
        return frame.long_term
    most = 1 << sps["log2_max_frame_num_minus4"] + 4
    return frame.frame_num - most if frame.frame_num > header["frame_num"] else frame.frame_num
