"""The structs of <linux/v4l2-controls.h> for H.264, with the kernel's members; an ioctl takes them as they lie in memory."""
from ctypes import Array, Structure, c_int8, c_int16, c_int32, c_uint8, c_uint16, c_uint32, c_uint64
from typing import Any

NUM_DPB_ENTRIES = 16
REF_LIST_LEN = 2 * NUM_DPB_ENTRIES


class Record(Structure):
    """A struct, with its members in its text; equal to another one of equal members."""

    def __repr__(self) -> str:
        members = ", ".join(f"{name}={plain(getattr(self, name))!r}" for name in self.names())
        return f"{type(self).__name__}({members})"

    def __eq__(self, other: object) -> bool:
        return type(self) is type(other) and self.as_dict() == other.as_dict()    # type: ignore[attr-defined]

    __hash__ = None    # type: ignore[assignment]

    @classmethod
    def names(cls) -> list[str]:
        """The names of the members."""
        return [field[0] for field in cls._fields_]

    def as_dict(self) -> dict[str, Any]:
        """The members by their names, down to numbers and lists."""
        return {name: plain(getattr(self, name)) for name in self.names()}


def plain(value: Any) -> Any:
    """A member as numbers, lists and dictionaries."""
    if isinstance(value, Record):
        return value.as_dict()
    return [plain(each) for each in value] if isinstance(value, Array) else value


class Sps(Record):
    """struct v4l2_ctrl_h264_sps."""
    _fields_ = [
        ("profile_idc", c_uint8), ("constraint_set_flags", c_uint8), ("level_idc", c_uint8), ("seq_parameter_set_id", c_uint8),
        ("chroma_format_idc", c_uint8), ("bit_depth_luma_minus8", c_uint8), ("bit_depth_chroma_minus8", c_uint8),
        ("log2_max_frame_num_minus4", c_uint8), ("pic_order_cnt_type", c_uint8),
        ("log2_max_pic_order_cnt_lsb_minus4", c_uint8), ("max_num_ref_frames", c_uint8),
        ("num_ref_frames_in_pic_order_cnt_cycle", c_uint8), ("offset_for_ref_frame", c_int32 * 255),
        ("offset_for_non_ref_pic", c_int32), ("offset_for_top_to_bottom_field", c_int32), ("pic_width_in_mbs_minus1", c_uint16),
        ("pic_height_in_map_units_minus1", c_uint16), ("flags", c_uint32)]


class Pps(Record):
    """struct v4l2_ctrl_h264_pps."""
    _fields_ = [
        ("pic_parameter_set_id", c_uint8), ("seq_parameter_set_id", c_uint8), ("num_slice_groups_minus1", c_uint8),
        ("num_ref_idx_l0_default_active_minus1", c_uint8), ("num_ref_idx_l1_default_active_minus1", c_uint8),
        ("weighted_bipred_idc", c_uint8), ("pic_init_qp_minus26", c_int8), ("pic_init_qs_minus26", c_int8),
        ("chroma_qp_index_offset", c_int8), ("second_chroma_qp_index_offset", c_int8), ("flags", c_uint16)]


class ScalingMatrix(Record):
    """struct v4l2_ctrl_h264_scaling_matrix."""
    _fields_ = [("scaling_list_4x4", c_uint8 * 16 * 6), ("scaling_list_8x8", c_uint8 * 64 * 6)]


class WeightFactors(Record):
    """struct v4l2_h264_weight_factors."""
    _fields_ = [("luma_weight", c_int16 * 32), ("luma_offset", c_int16 * 32), ("chroma_weight", c_int16 * 2 * 32),
                ("chroma_offset", c_int16 * 2 * 32)]


class PredWeights(Record):
    """struct v4l2_ctrl_h264_pred_weights."""
    _fields_ = [("luma_log2_weight_denom", c_uint16), ("chroma_log2_weight_denom", c_uint16),
                ("weight_factors", WeightFactors * 2)]


class Reference(Record):
    """struct v4l2_h264_reference: an entry of a list. One whose `fields` are 0 is missing."""
    _fields_ = [("fields", c_uint8), ("index", c_uint8)]


class SliceParams(Record):
    """struct v4l2_ctrl_h264_slice_params."""
    _fields_ = [
        ("header_bit_size", c_uint32), ("first_mb_in_slice", c_uint32), ("slice_type", c_uint8), ("colour_plane_id", c_uint8),
        ("redundant_pic_cnt", c_uint8), ("cabac_init_idc", c_uint8), ("slice_qp_delta", c_int8), ("slice_qs_delta", c_int8),
        ("disable_deblocking_filter_idc", c_uint8), ("slice_alpha_c0_offset_div2", c_int8), ("slice_beta_offset_div2", c_int8),
        ("num_ref_idx_l0_active_minus1", c_uint8), ("num_ref_idx_l1_active_minus1", c_uint8), ("reserved", c_uint8),
        ("ref_pic_list0", Reference * REF_LIST_LEN), ("ref_pic_list1", Reference * REF_LIST_LEN), ("flags", c_uint32)]


class DpbEntry(Record):
    """struct v4l2_h264_dpb_entry."""
    _fields_ = [("reference_ts", c_uint64), ("pic_num", c_uint32), ("frame_num", c_uint16), ("fields", c_uint8),
                ("reserved", c_uint8 * 5), ("top_field_order_cnt", c_int32), ("bottom_field_order_cnt", c_int32),
                ("flags", c_uint32)]


class DecodeParams(Record):
    """struct v4l2_ctrl_h264_decode_params."""
    _fields_ = [
        ("dpb", DpbEntry * NUM_DPB_ENTRIES), ("nal_ref_idc", c_uint16), ("frame_num", c_uint16), ("top_field_order_cnt", c_int32),
        ("bottom_field_order_cnt", c_int32), ("idr_pic_id", c_uint16), ("pic_order_cnt_lsb", c_uint16),
        ("delta_pic_order_cnt_bottom", c_int32), ("delta_pic_order_cnt0", c_int32), ("delta_pic_order_cnt1", c_int32),
        ("dec_ref_pic_marking_bit_size", c_uint32), ("pic_order_cnt_bit_size", c_uint32),
        ("slice_group_change_cycle", c_uint32), ("reserved", c_uint32), ("flags", c_uint32)]
