//! The calls of the C interface as they are. include/cupdaisy.h says what each does, and what its caller owes.
//!
//! [`crate::Session`] pays that debt; whoever calls these has to pay it. tests/header.rs holds them to the header.
#![allow(non_camel_case_types, missing_docs)]

use std::ffi::c_void;

pub(crate) mod handle;
pub mod v4l2;

use v4l2::*;

pub const CUPDAISY_DONE: u32 = 0;
pub const CUPDAISY_MEMORY: u32 = 15;
pub const CUPDAISY_NO_SUCH_UNIT: u32 = 16;
pub const CUPDAISY_NO_SESSION: u32 = 100;
pub const CUPDAISY_IS_OPEN: u32 = 101;
pub const CUPDAISY_CACHE_RANGE: u32 = 102;
pub const CUPDAISY_TOO_SMALL: u32 = 103;
pub const CUPDAISY_NO_SUCH_PLACE: u32 = 104;
pub const CUPDAISY_NO_SUCH_JOB: u32 = 105;
pub const CUPDAISY_NO_SUCH_SLICE: u32 = 106;
pub const CUPDAISY_NOT_VALID: u32 = 107;
pub const CUPDAISY_NOTHING_DUE: u32 = 108;
pub const CUPDAISY_JOBS_SPENT: u32 = 109;
pub const CUPDAISY_STALE: u32 = 110;
pub const CUPDAISY_NOT_HELD: u32 = 111;
pub const CUPDAISY_PENDING: u32 = 112;
pub const CUPDAISY_HAS_FAULT: u32 = 113;
pub const CUPDAISY_NO_PICTURE: u32 = 114;
pub const CUPDAISY_NOT_AN_EDIT: u32 = 115;
pub const CUPDAISY_NO_WEIGHTS: u32 = 116;
pub const CUPDAISY_NO_SUCH_NAME: u32 = 117;
pub const CUPDAISY_SEVERAL_SLICES: u32 = 118;

pub const CUPDAISY_PLAN: u32 = 0;
pub const CUPDAISY_FAULT: u32 = 1;
pub const CUPDAISY_EMPTY: u32 = 2;

pub const CUPDAISY_WHY_NOT_NAL_UNIT: u32 = 1;
pub const CUPDAISY_WHY_EMPTY: u32 = 2;
pub const CUPDAISY_WHY_FORBIDDEN_BYTES: u32 = 3;
pub const CUPDAISY_WHY_FORBIDDEN_BIT: u32 = 4;
pub const CUPDAISY_WHY_UNIT_TYPE: u32 = 5;
pub const CUPDAISY_WHY_UNREAD_SPS: u32 = 6;
pub const CUPDAISY_WHY_UNREAD_PPS: u32 = 7;
pub const CUPDAISY_WHY_SWITCHING: u32 = 8;
pub const CUPDAISY_WHY_IDR_NOT_INTRA: u32 = 9;
pub const CUPDAISY_WHY_IDR_NOT_REFERENCE: u32 = 10;
pub const CUPDAISY_WHY_TOO_LARGE: u32 = 11;

pub const CUPDAISY_INSERT_FIRST: u32 = 0;
pub const CUPDAISY_INSERT_AFTER: u32 = 1;
pub const CUPDAISY_DELETE: u32 = 2;
pub const CUPDAISY_REPLACE: u32 = 3;

#[repr(C)]
#[derive(Debug)]
pub struct cupdaisy_session {
    pub at: *mut c_void,
    pub full: bool,
}

#[repr(C)]
#[derive(Clone, Copy, Debug, PartialEq, Eq)]
pub struct cupdaisy_receipt {
    pub number: u64,
    pub steps: u64,
    pub hashed: u64,
    pub changed_from: u64,
    pub changed_count: u64,
    pub id: u32,
}

#[repr(C)]
#[derive(Clone, Copy, Debug, PartialEq, Eq)]
pub struct cupdaisy_outcome {
    pub kind: u32,
    pub fault: u32,
    pub top: i32,
    pub bottom: i32,
    pub order: i32,
    pub begins_period: u32,
    pub slices: u64,
}

#[repr(C)]
#[derive(Clone, Copy, Debug, PartialEq, Eq)]
pub struct cupdaisy_doubt {
    pub follows: u32,
    pub in_doubt: u32,
}

#[repr(C)]
#[derive(Clone, Copy, Debug, PartialEq, Eq)]
pub struct cupdaisy_left_out {
    pub byte: u64,
    pub bytes: u64,
    pub why: u32,
    pub unit_type: u32,
}

#[repr(C)]
#[derive(Clone, Copy, Debug, PartialEq, Eq)]
pub struct cupdaisy_job {
    pub number: u64,
    pub unit: u32,
}

#[repr(C)]
#[derive(Clone, Copy, Debug, PartialEq, Eq)]
pub struct cupdaisy_job_input {
    pub unit: u64,
    pub slices: u64,
    pub references: u64,
}

#[repr(C)]
#[derive(Clone, Copy, Debug, PartialEq, Eq)]
pub struct cupdaisy_reference {
    pub timestamp: u64,
    pub surface: u64,
}

#[repr(C)]
#[derive(Clone, Copy, Debug, PartialEq, Eq)]
pub struct cupdaisy_edit {
    pub kind: u32,
    pub id: u32,
    pub from: usize,
    pub count: usize,
}

#[repr(C)]
#[derive(Clone, Copy, Debug, PartialEq, Eq)]
pub struct cupdaisy_group_receipt {
    pub number: u64,
    pub steps: u64,
    pub hashed: u64,
    pub changed_from: u64,
    pub changed_count: u64,
    pub index: u64,
}

#[repr(C)]
#[derive(Clone, Copy, Debug, PartialEq, Eq)]
pub struct cupdaisy_load_receipt {
    pub number: u64,
    pub steps: u64,
    pub hashed: u64,
    pub units: u64,
    pub changed_from: u64,
    pub changed_count: u64,
    pub index: u64,
    pub first: u32,
}

#[repr(C)]
#[derive(Clone, Copy, Debug, PartialEq, Eq)]
pub struct cupdaisy_journal_edit {
    pub kind: u32,
    pub id: u32,
    pub bytes: u64,
}

/// The request of a slice: the controls of the kernel's stateless decoder interface but the weights.
#[repr(C)]
#[derive(Clone, Copy, Debug, PartialEq, Eq)]
pub struct cupdaisy_request {
    /// Of the unit, in nanoseconds.
    pub timestamp: u64,
    /// How many bytes the slice has, with a start code of three bytes.
    pub bytes: u64,
    /// Where the NAL unit begins among them.
    pub unit_begins: u32,
    /// 1 where the capture buffer is held, as more slices of the picture follow; else 0.
    pub hold: u32,
    /// 1 where the slice has a weight table, else 0.
    pub has_weights: u32,
    pub pps: v4l2_ctrl_h264_pps,
    pub sps: v4l2_ctrl_h264_sps,
    pub scaling_matrix: v4l2_ctrl_h264_scaling_matrix,
    pub slice_params: v4l2_ctrl_h264_slice_params,
    pub decode_params: v4l2_ctrl_h264_decode_params,
}

/// The request of a whole picture.
#[repr(C)]
#[derive(Clone, Copy, Debug, PartialEq, Eq)]
pub struct cupdaisy_frame {
    /// Of the unit, in nanoseconds.
    pub timestamp: u64,
    /// How many bytes the slices have together, each with a start code of three bytes.
    pub bytes: u64,
    /// How many slices the picture has.
    pub slices: u64,
    pub sps: v4l2_ctrl_h264_sps,
    pub pps: v4l2_ctrl_h264_pps,
    pub scaling_matrix: v4l2_ctrl_h264_scaling_matrix,
    pub decode_params: v4l2_ctrl_h264_decode_params,
}

type Status = u32;
type Handle = *mut cupdaisy_session;

extern "C" {
    pub fn cupdaisy_open(session: Handle, cache: u16) -> Status;
    pub fn cupdaisy_close(session: Handle) -> Status;
    pub fn cupdaisy_insert_first(
        session: Handle,
        text: *const u8,
        length: usize,
        receipt: *mut cupdaisy_receipt,
    ) -> Status;
    pub fn cupdaisy_insert_after(
        session: Handle,
        id: u32,
        text: *const u8,
        length: usize,
        receipt: *mut cupdaisy_receipt,
    ) -> Status;
    pub fn cupdaisy_insert_last(
        session: Handle,
        text: *const u8,
        length: usize,
        receipt: *mut cupdaisy_receipt,
    ) -> Status;
    pub fn cupdaisy_delete(session: Handle, id: u32, receipt: *mut cupdaisy_receipt) -> Status;
    pub fn cupdaisy_replace(
        session: Handle,
        id: u32,
        text: *const u8,
        length: usize,
        receipt: *mut cupdaisy_receipt,
    ) -> Status;
    pub fn cupdaisy_group(
        session: Handle,
        edits: *const cupdaisy_edit,
        edits_length: usize,
        texts: *const u8,
        texts_length: usize,
        ids: *mut u32,
        ids_length: usize,
        receipt: *mut cupdaisy_group_receipt,
    ) -> Status;
    pub fn cupdaisy_load(
        session: Handle,
        text: *const u8,
        length: usize,
        receipt: *mut cupdaisy_load_receipt,
    ) -> Status;
    pub fn cupdaisy_mend(
        text: *const u8,
        text_length: usize,
        bytes: *mut u8,
        bytes_length: usize,
        needed: *mut usize,
        left_out: *mut cupdaisy_left_out,
        left_out_length: usize,
        count: *mut usize,
    ) -> Status;
    pub fn cupdaisy_units(session: Handle, units: *mut usize) -> Status;
    pub fn cupdaisy_id_at(session: Handle, place: usize, id: *mut u32) -> Status;
    pub fn cupdaisy_place(session: Handle, id: u32, place: *mut usize) -> Status;
    pub fn cupdaisy_position(session: Handle, id: u32, position: *mut usize) -> Status;
    pub fn cupdaisy_unit_at(session: Handle, position: usize, id: *mut u32) -> Status;
    pub fn cupdaisy_outcome_of(session: Handle, id: u32, outcome: *mut cupdaisy_outcome) -> Status;
    pub fn cupdaisy_doubts(
        session: Handle,
        from: usize,
        doubts: *mut cupdaisy_doubt,
        doubts_length: usize,
        count: *mut usize,
    ) -> Status;
    pub fn cupdaisy_key(session: Handle, id: u32, key: *mut u64) -> Status;
    pub fn cupdaisy_in_use(session: Handle, key: u64, in_use: *mut u32) -> Status;
    pub fn cupdaisy_mark(session: Handle) -> Status;
    pub fn cupdaisy_is_altered(session: Handle, id: u32, altered: *mut u32) -> Status;
    pub fn cupdaisy_show(session: Handle, id: u32, surface: *mut u64) -> Status;
    pub fn cupdaisy_take(session: Handle, job: *mut cupdaisy_job) -> Status;
    pub fn cupdaisy_take_for(session: Handle, id: u32, job: *mut cupdaisy_job) -> Status;
    pub fn cupdaisy_land(session: Handle, job: u64, surface: u64) -> Status;
    pub fn cupdaisy_give_back(session: Handle, job: u64) -> Status;
    pub fn cupdaisy_drop_picture(session: Handle, id: u32, surface: *mut u64) -> Status;
    pub fn cupdaisy_uncache(session: Handle, surface: *mut u64) -> Status;
    pub fn cupdaisy_released(session: Handle, surfaces: *mut u64, surfaces_length: usize, count: *mut usize) -> Status;
    pub fn cupdaisy_job_input_of(session: Handle, job: u64, input: *mut cupdaisy_job_input) -> Status;
    pub fn cupdaisy_job_reference(
        session: Handle,
        job: u64,
        index: usize,
        reference: *mut cupdaisy_reference,
    ) -> Status;
    pub fn cupdaisy_unit_request(session: Handle, id: u32, slice: usize, request: *mut cupdaisy_request) -> Status;
    pub fn cupdaisy_unit_weights(
        session: Handle,
        id: u32,
        slice: usize,
        weights: *mut v4l2_ctrl_h264_pred_weights,
    ) -> Status;
    pub fn cupdaisy_job_request(session: Handle, job: u64, slice: usize, request: *mut cupdaisy_request) -> Status;
    pub fn cupdaisy_job_weights(
        session: Handle,
        job: u64,
        slice: usize,
        weights: *mut v4l2_ctrl_h264_pred_weights,
    ) -> Status;
    pub fn cupdaisy_unit_bytes(
        session: Handle,
        id: u32,
        slice: usize,
        bytes: *mut u8,
        bytes_length: usize,
        needed: *mut usize,
    ) -> Status;
    pub fn cupdaisy_job_bytes(
        session: Handle,
        job: u64,
        slice: usize,
        bytes: *mut u8,
        bytes_length: usize,
        needed: *mut usize,
    ) -> Status;
    pub fn cupdaisy_unit_frame(session: Handle, id: u32, frame: *mut cupdaisy_frame) -> Status;
    pub fn cupdaisy_job_frame(session: Handle, job: u64, frame: *mut cupdaisy_frame) -> Status;
    pub fn cupdaisy_unit_frame_bytes(
        session: Handle,
        id: u32,
        start_codes: bool,
        bytes: *mut u8,
        bytes_length: usize,
        needed: *mut usize,
    ) -> Status;
    pub fn cupdaisy_job_frame_bytes(
        session: Handle,
        job: u64,
        start_codes: bool,
        bytes: *mut u8,
        bytes_length: usize,
        needed: *mut usize,
    ) -> Status;
    pub fn cupdaisy_journal(session: Handle, entries: *mut usize) -> Status;
    pub fn cupdaisy_journal_entry(session: Handle, entry: usize, edits: *mut usize) -> Status;
    pub fn cupdaisy_journal_edit_at(
        session: Handle,
        entry: usize,
        index: usize,
        edit: *mut cupdaisy_journal_edit,
    ) -> Status;
    pub fn cupdaisy_journal_text(
        session: Handle,
        entry: usize,
        index: usize,
        text: *mut u8,
        text_length: usize,
        needed: *mut usize,
    ) -> Status;
    pub fn cupdaisy_status_name(status: u32, name: *mut u8, name_length: usize, needed: *mut usize) -> Status;
    pub fn cupdaisy_fault_name(fault: u32, name: *mut u8, name_length: usize, needed: *mut usize) -> Status;
    pub fn cupdaisy_why_name(why: u32, name: *mut u8, name_length: usize, needed: *mut usize) -> Status;
    pub fn cupdaisy_version() -> u32;
    pub fn cupdaisy_version_text(text: *mut u8, text_length: usize, needed: *mut usize) -> Status;
}
