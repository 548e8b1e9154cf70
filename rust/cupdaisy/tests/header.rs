//! Holds `cupdaisy::sys` to C's headers: the compiler `cc` looks at sizes, members, constants and prototypes. Where it isn't there,
//! nothing is looked at. CUPDAISY_INCLUDE_DIR names the folder of cupdaisy.h; that of the repository is taken otherwise.
#![cfg(target_os = "linux")]

mod common;

use std::fmt::Write as _;
use std::io::Write as _;
use std::mem::{align_of, offset_of, size_of};
use std::path::PathBuf;
use std::process::{Command, Stdio};

use cupdaisy::sys::v4l2::*;
use cupdaisy::sys::*;

fn size_of_member<T, M>(_: fn(&T) -> &M) -> usize {
    size_of::<M>()
}

/// Assertions that C's struct is this one: its size and alignment, and where each member lies, and its size.
macro_rules! same {
    ($to:ident, $c:literal $kind:ident: $($member:ident)*) => {
        assert_that(&mut $to, format!("sizeof({}) == {}", $c, size_of::<$kind>()));
        assert_that(&mut $to, format!("_Alignof({}) == {}", $c, align_of::<$kind>()));
        let mut whole = 0;
        $(
            let size = size_of_member(|value: &$kind| &value.$member);
            let name = stringify!($member);
            assert_that(&mut $to, format!("offsetof({}, {name}) == {}", $c, offset_of!($kind, $member)));
            assert_that(&mut $to, format!("sizeof((({} *)0)->{name}) == {size}", $c));
            whole += size;
        )*
        // No member is left out: what isn't of one is less than an alignment at each gap.
        assert!(whole + 2 * align_of::<$kind>() > size_of::<$kind>(), "{}", $c);
    };
}

fn assert_that(to: &mut String, what: String) {
    writeln!(to, "_Static_assert({what}, {what:?});").unwrap();
}

fn structs() -> String {
    let mut to = String::new();
    same!(to, "cupdaisy_session" cupdaisy_session: at full);
    same!(to, "cupdaisy_receipt" cupdaisy_receipt: number steps hashed changed_from changed_count id);
    same!(to, "cupdaisy_outcome" cupdaisy_outcome: kind fault top bottom order begins_period slices);
    same!(to, "cupdaisy_doubt" cupdaisy_doubt: follows in_doubt);
    same!(to, "cupdaisy_left_out" cupdaisy_left_out: byte bytes why unit_type);
    same!(to, "cupdaisy_job" cupdaisy_job: number unit);
    same!(to, "cupdaisy_job_input" cupdaisy_job_input: unit slices references);
    same!(to, "cupdaisy_reference" cupdaisy_reference: timestamp surface);
    same!(to, "cupdaisy_edit" cupdaisy_edit: kind id from count);
    same!(to, "cupdaisy_group_receipt" cupdaisy_group_receipt: number steps hashed changed_from changed_count index);
    same!(to, "cupdaisy_load_receipt" cupdaisy_load_receipt: number steps hashed units changed_from changed_count index first);
    same!(to, "cupdaisy_journal_edit" cupdaisy_journal_edit: kind id bytes);
    same!(to, "cupdaisy_request" cupdaisy_request: timestamp bytes unit_begins hold has_weights pps sps scaling_matrix
        slice_params decode_params);
    same!(to, "cupdaisy_frame" cupdaisy_frame: timestamp bytes slices sps pps scaling_matrix decode_params);
    same!(to, "struct v4l2_ctrl_h264_sps" v4l2_ctrl_h264_sps: profile_idc constraint_set_flags level_idc
        seq_parameter_set_id chroma_format_idc bit_depth_luma_minus8 bit_depth_chroma_minus8 log2_max_frame_num_minus4
        pic_order_cnt_type log2_max_pic_order_cnt_lsb_minus4 max_num_ref_frames num_ref_frames_in_pic_order_cnt_cycle
        offset_for_ref_frame offset_for_non_ref_pic offset_for_top_to_bottom_field pic_width_in_mbs_minus1
        pic_height_in_map_units_minus1 flags);
    same!(to, "struct v4l2_ctrl_h264_pps" v4l2_ctrl_h264_pps: pic_parameter_set_id seq_parameter_set_id
        num_slice_groups_minus1 num_ref_idx_l0_default_active_minus1 num_ref_idx_l1_default_active_minus1
        weighted_bipred_idc pic_init_qp_minus26 pic_init_qs_minus26 chroma_qp_index_offset
        second_chroma_qp_index_offset flags);
    same!(to, "struct v4l2_ctrl_h264_scaling_matrix" v4l2_ctrl_h264_scaling_matrix: scaling_list_4x4 scaling_list_8x8);
    same!(to, "struct v4l2_h264_weight_factors" v4l2_h264_weight_factors: luma_weight luma_offset chroma_weight
        chroma_offset);
    same!(to, "struct v4l2_ctrl_h264_pred_weights" v4l2_ctrl_h264_pred_weights: luma_log2_weight_denom
        chroma_log2_weight_denom weight_factors);
    same!(to, "struct v4l2_h264_reference" v4l2_h264_reference: fields index);
    same!(to, "struct v4l2_ctrl_h264_slice_params" v4l2_ctrl_h264_slice_params: header_bit_size first_mb_in_slice
        slice_type colour_plane_id redundant_pic_cnt cabac_init_idc slice_qp_delta slice_qs_delta
        disable_deblocking_filter_idc slice_alpha_c0_offset_div2 slice_beta_offset_div2 num_ref_idx_l0_active_minus1
        num_ref_idx_l1_active_minus1 reserved ref_pic_list0 ref_pic_list1 flags);
    same!(to, "struct v4l2_h264_dpb_entry" v4l2_h264_dpb_entry: reference_ts pic_num frame_num fields reserved
        top_field_order_cnt bottom_field_order_cnt flags);
    same!(to, "struct v4l2_ctrl_h264_decode_params" v4l2_ctrl_h264_decode_params: dpb nal_ref_idc frame_num
        top_field_order_cnt bottom_field_order_cnt idr_pic_id pic_order_cnt_lsb delta_pic_order_cnt_bottom
        delta_pic_order_cnt0 delta_pic_order_cnt1 dec_ref_pic_marking_bit_size pic_order_cnt_bit_size
        slice_group_change_cycle reserved flags);
    to
}

fn constants() -> String {
    let mut to = String::new();
    macro_rules! same {
        ($($name:ident)*) => { $(assert_that(&mut to, format!("{} == {}", stringify!($name), $name));)* };
    }
    same!(CUPDAISY_DONE CUPDAISY_MEMORY CUPDAISY_NO_SUCH_UNIT CUPDAISY_NO_SESSION CUPDAISY_IS_OPEN CUPDAISY_CACHE_RANGE
        CUPDAISY_TOO_SMALL CUPDAISY_NO_SUCH_PLACE CUPDAISY_NO_SUCH_JOB CUPDAISY_NO_SUCH_SLICE CUPDAISY_NOT_VALID
        CUPDAISY_NOTHING_DUE CUPDAISY_JOBS_SPENT CUPDAISY_STALE CUPDAISY_NOT_HELD CUPDAISY_PENDING CUPDAISY_HAS_FAULT
        CUPDAISY_NO_PICTURE CUPDAISY_NOT_AN_EDIT CUPDAISY_NO_WEIGHTS CUPDAISY_NO_SUCH_NAME CUPDAISY_SEVERAL_SLICES CUPDAISY_PLAN
        CUPDAISY_FAULT CUPDAISY_EMPTY CUPDAISY_INSERT_FIRST CUPDAISY_INSERT_AFTER CUPDAISY_DELETE CUPDAISY_REPLACE
        CUPDAISY_WHY_NOT_NAL_UNIT CUPDAISY_WHY_EMPTY CUPDAISY_WHY_FORBIDDEN_BYTES CUPDAISY_WHY_FORBIDDEN_BIT
        CUPDAISY_WHY_UNIT_TYPE CUPDAISY_WHY_UNREAD_SPS CUPDAISY_WHY_UNREAD_PPS CUPDAISY_WHY_SWITCHING
        CUPDAISY_WHY_IDR_NOT_INTRA CUPDAISY_WHY_IDR_NOT_REFERENCE CUPDAISY_WHY_TOO_LARGE
        V4L2_H264_NUM_DPB_ENTRIES V4L2_H264_REF_LIST_LEN);
    to
}

/// C's type for one of a declaration of `sys`.
fn c_type(rust: &str) -> String {
    let number = |kind: &str| match kind {
        "u8" => "uint8_t".into(),
        "u16" => "uint16_t".into(),
        "u32" | "Status" => "uint32_t".into(),
        "u64" => "uint64_t".into(),
        "usize" => "size_t".into(),
        "Handle" => "cupdaisy_session *".into(),
        name if name.starts_with("v4l2_") => format!("struct {name}"),
        name => name.into(),
    };
    match (rust.strip_prefix("*const "), rust.strip_prefix("*mut ")) {
        (Some(kind), _) => format!("const {} *", number(kind)),
        (_, Some(kind)) => format!("{} *", number(kind)),
        _ => number(rust),
    }
}

/// The declarations of `sys`, as prototypes of C: a compiler refuses one that differs from the header's.
fn prototypes() -> String {
    let text = include_str!("../src/sys/mod.rs");
    let declared = &text[text.find("extern \"C\" {").unwrap()..];
    let mut to = String::new();
    for each in declared.split("pub fn ").skip(1) {
        let (name, rest) = each.split_once('(').unwrap();
        let (inside, rest) = rest.split_once(')').unwrap();
        let operands: Vec<_> = inside.split(',').filter_map(|each| each.split_once(':')).collect();
        let kinds: Vec<_> = operands.iter().map(|(_, kind)| c_type(kind.trim())).collect();
        let result = rest.trim_start().trim_start_matches("-> ").split(';').next().unwrap();
        let inside = if kinds.is_empty() { String::from("void") } else { kinds.join(", ") };
        writeln!(to, "{} {name}({inside});", c_type(result)).unwrap();
    }
    assert!(to.lines().count() > 40);
    to
}

fn include() -> PathBuf {
    std::env::var_os("CUPDAISY_INCLUDE_DIR").map_or_else(|| common::repository("include"), PathBuf::from)
}

/// What the compiler says of these lines after the header; nothing where there is no compiler.
fn compiled(lines: &str) -> Option<String> {
    let mut child = Command::new("cc")
        .args(["-std=c11", "-fsyntax-only", "-x", "c", "-I"])
        .arg(include())
        .arg("-")
        .stdin(Stdio::piped())
        .stderr(Stdio::piped())
        .spawn()
        .ok()?;
    let text = format!("#include \"cupdaisy.h\"\n{lines}");
    child.stdin.take().unwrap().write_all(text.as_bytes()).unwrap();
    let ended = child.wait_with_output().unwrap();
    Some(String::from_utf8_lossy(&ended.stderr).into_owned())
}

#[test]
fn the_header_says_the_same() {
    for lines in [structs(), constants(), prototypes()] {
        assert_eq!(compiled(&lines).unwrap_or_default(), "");
    }
}

#[test]
fn another_header_is_told() {
    let Some(told) = compiled("_Static_assert(sizeof(cupdaisy_receipt) == 31, \"another size\");\n") else { return };
    assert!(told.contains("another size"), "{told}");
    let told = compiled("uint32_t cupdaisy_units(cupdaisy_session *session, uint32_t *units);\n").unwrap();
    assert!(told.contains("conflicting types"), "{told}");
}

/// Each call of the header has its declaration here.
#[test]
fn no_call_is_left_out() {
    let header = std::fs::read_to_string(include().join("cupdaisy.h")).unwrap();
    let own = prototypes();
    for line in header.lines().filter(|line| line.starts_with("uint32_t cupdaisy_")) {
        let name = line["uint32_t ".len()..].split('(').next().unwrap();
        assert!(own.contains(&format!(" {name}(")), "{name}");
    }
}
