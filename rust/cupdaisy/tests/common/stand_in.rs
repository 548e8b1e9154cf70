//! The stand-in for a decoder: a picture is the SHA-256 of its requests' controls, of their bytes, and of the pictures that their
//! lists name. The members of the kernel's structs are read one by one, so that each has to lie where the library puts it.

use std::collections::HashMap;

use cupdaisy::sys::v4l2::{
    v4l2_ctrl_h264_decode_params, v4l2_ctrl_h264_pps, v4l2_ctrl_h264_scaling_matrix, v4l2_ctrl_h264_slice_params,
    v4l2_ctrl_h264_sps, v4l2_h264_reference,
};
use cupdaisy::{Error, Job, PredWeights, Request, Session};

use super::sha256::sha256;

pub type Digest = [u8; 32];

const P: u8 = 0;
const B: u8 = 1;

/// Members one after the other, little-endian.
#[derive(Default)]
struct Form(Vec<u8>);

macro_rules! members {
    ($form:ident, $of:ident, $($member:ident)*) => {
        $($form.0.extend($of.$member.to_le_bytes());)*
    };
}

impl Form {
    fn all<const SIZE: usize>(&mut self, numbers: impl IntoIterator<Item = [u8; SIZE]>) {
        self.0.extend(numbers.into_iter().flatten());
    }

    fn sps(&mut self, sps: &v4l2_ctrl_h264_sps) {
        members!(self, sps, profile_idc constraint_set_flags level_idc seq_parameter_set_id chroma_format_idc
            bit_depth_luma_minus8 bit_depth_chroma_minus8 log2_max_frame_num_minus4 pic_order_cnt_type
            log2_max_pic_order_cnt_lsb_minus4 max_num_ref_frames num_ref_frames_in_pic_order_cnt_cycle);
        self.all(sps.offset_for_ref_frame.map(i32::to_le_bytes));
        members!(self, sps, offset_for_non_ref_pic offset_for_top_to_bottom_field pic_width_in_mbs_minus1
            pic_height_in_map_units_minus1 flags);
    }

    fn pps(&mut self, pps: &v4l2_ctrl_h264_pps) {
        members!(self, pps, pic_parameter_set_id seq_parameter_set_id num_slice_groups_minus1
            num_ref_idx_l0_default_active_minus1 num_ref_idx_l1_default_active_minus1 weighted_bipred_idc
            pic_init_qp_minus26 pic_init_qs_minus26 chroma_qp_index_offset second_chroma_qp_index_offset flags);
    }

    fn scaling_matrix(&mut self, matrix: &v4l2_ctrl_h264_scaling_matrix) {
        self.all(matrix.scaling_list_4x4);
        self.all(matrix.scaling_list_8x8);
    }

    fn pred_weights(&mut self, weights: Option<&PredWeights>) {
        self.0.push(u8::from(weights.is_some()));
        let Some(weights) = weights else { return };
        members!(self, weights, luma_log2_weight_denom chroma_log2_weight_denom);
        for factors in &weights.weight_factors {
            self.all(factors.luma_weight.map(i16::to_le_bytes));
            self.all(factors.luma_offset.map(i16::to_le_bytes));
            self.all(factors.chroma_weight.into_iter().flatten().map(i16::to_le_bytes));
            self.all(factors.chroma_offset.into_iter().flatten().map(i16::to_le_bytes));
        }
    }

    fn list(&mut self, list: &[v4l2_h264_reference]) {
        self.all(list.iter().map(|entry| [entry.fields, entry.index]));
    }

    fn slice_params(&mut self, params: &v4l2_ctrl_h264_slice_params) {
        members!(self, params, header_bit_size first_mb_in_slice slice_type colour_plane_id redundant_pic_cnt
            cabac_init_idc slice_qp_delta slice_qs_delta disable_deblocking_filter_idc slice_alpha_c0_offset_div2
            slice_beta_offset_div2 num_ref_idx_l0_active_minus1 num_ref_idx_l1_active_minus1);
        self.list(&params.ref_pic_list0);
        self.list(&params.ref_pic_list1);
        members!(self, params, flags);
    }

    fn decode_params(&mut self, params: &v4l2_ctrl_h264_decode_params) {
        for entry in &params.dpb {
            members!(self, entry, pic_num frame_num fields top_field_order_cnt bottom_field_order_cnt flags);
        }
        members!(self, params, nal_ref_idc frame_num top_field_order_cnt bottom_field_order_cnt idr_pic_id
            pic_order_cnt_lsb delta_pic_order_cnt_bottom delta_pic_order_cnt0 delta_pic_order_cnt1
            dec_ref_pic_marking_bit_size pic_order_cnt_bit_size slice_group_change_cycle flags);
    }

    /// The pictures that a list names; zeros for one that is missing.
    fn named(
        &mut self,
        request: &Request,
        list: &[v4l2_h264_reference],
        active: usize,
        pictures: &HashMap<u64, Digest>,
    ) {
        for entry in &list[..active] {
            let frame = &request.decode_params.dpb[usize::from(entry.index)];
            self.0.extend(if entry.fields == 0 { [0; 32] } else { pictures[&frame.reference_ts] });
        }
    }

    fn request(
        &mut self,
        request: &Request,
        weights: Option<&PredWeights>,
        text: &[u8],
        pictures: &HashMap<u64, Digest>,
    ) {
        let params = &request.slice_params;
        assert_eq!(request.has_weights, u32::from(weights.is_some()));
        assert_eq!(request.bytes, text.len() as u64);
        assert_eq!(text[..request.unit_begins as usize], [0, 0, 1]);
        self.sps(&request.sps);
        self.pps(&request.pps);
        self.scaling_matrix(&request.scaling_matrix);
        self.pred_weights(weights);
        self.slice_params(params);
        self.decode_params(&request.decode_params);
        self.0.extend((text.len() as u64).to_le_bytes());
        self.0.extend(text);
        if params.slice_type == P || params.slice_type == B {
            let active = usize::from(params.num_ref_idx_l0_active_minus1) + 1;
            self.named(request, &params.ref_pic_list0, active, pictures);
        }
        if params.slice_type == B {
            let active = usize::from(params.num_ref_idx_l1_active_minus1) + 1;
            self.named(request, &params.ref_pic_list1, active, pictures);
        }
    }
}

/// The picture of a job, whose references are surfaces that have digests; none where one of them is the host's again.
pub fn picture<T>(session: &Session<T>, job: &Job, digest: impl Fn(&T) -> Digest) -> Option<Digest> {
    let mut pictures = HashMap::new();
    for reference in session.references(job).unwrap() {
        pictures.insert(reference.timestamp, digest(reference.surface?));
    }
    let mut form = Form::default();
    let slices = session.job_input(job).unwrap().slices as usize;
    for slice in 0..slices {
        let request = session.job_request(job, slice).unwrap();
        assert_eq!(request.hold, u32::from(slice + 1 < slices));
        let weights = session.job_weights(job, slice).unwrap();
        form.request(&request, weights.as_ref(), &session.job_bytes(job, slice).unwrap(), &pictures);
    }
    check_frame(session, job, slices);
    Some(sha256(&form.0))
}

/// The request of a job's whole picture is that of its first slice but for its flags, and its bytes those of all slices.
fn check_frame<T>(session: &Session<T>, job: &Job, slices: usize) {
    const PFRAME_BFRAME: u32 = 8 | 16;
    let (frame, first) = (session.job_frame(job).unwrap(), session.job_request(job, 0).unwrap());
    let texts: Vec<_> = (0..slices).map(|slice| session.job_bytes(job, slice).unwrap()).collect();
    let types: Vec<_> =
        (0..slices).map(|slice| session.job_request(job, slice).unwrap().slice_params.slice_type).collect();
    assert_eq!((frame.timestamp, frame.slices), (first.timestamp, slices as u64));
    assert_eq!((frame.sps, frame.pps, frame.scaling_matrix), (first.sps, first.pps, first.scaling_matrix));
    let flag = if types.contains(&B) {
        16
    } else if types.contains(&P) {
        8
    } else {
        0
    };
    assert_eq!(frame.decode_params.flags & PFRAME_BFRAME, flag);
    let mut params = frame.decode_params;
    params.flags = params.flags & !PFRAME_BFRAME | first.decode_params.flags & PFRAME_BFRAME;
    assert_eq!(params, first.decode_params);
    assert_eq!(frame.bytes, texts.iter().map(Vec::len).sum::<usize>() as u64);
    assert_eq!(session.job_frame_bytes(job, true), Ok(texts.concat()));
    let alone = if slices == 1 { Ok(texts[0][3..].to_vec()) } else { Err(Error::SeveralSlices) };
    assert_eq!(session.job_frame_bytes(job, false), alone);
}
