//! A session behind its handle, by calls that anyone may make.
//!
//! What C owes is paid here: the handle stays where it was opened and is never copied, it is closed once, pointers are of the
//! slices and places that are lent for the call, and no two calls have it at one time, as a [`Raw`] is `Send` and not `Sync`.

use std::cell::UnsafeCell;
use std::mem::MaybeUninit;
use std::ptr;

use super::*;

/// A session of the library.
pub(crate) struct Raw {
    handle: Box<UnsafeCell<cupdaisy_session>>,
}

// SAFETY: a session keeps nothing of the thread that opened it, and threads may hand it on.
unsafe impl Send for Raw {}

/// What a call writes: all zeros are a value of it, and so is whatever the library writes.
///
/// # Safety
///
/// It has integers alone, laid out as the header says.
unsafe trait Plain: Copy {}

macro_rules! plain {
    ($($kind:ty),* $(,)?) => {
        // SAFETY: these are integers, and structs of integers by `repr(C)`.
        $(unsafe impl Plain for $kind {})*
    };
}

plain!(
    u32,
    u64,
    usize,
    cupdaisy_receipt,
    cupdaisy_outcome,
    cupdaisy_doubt,
    cupdaisy_left_out,
    cupdaisy_job,
    cupdaisy_job_input,
    cupdaisy_reference,
    cupdaisy_group_receipt,
    cupdaisy_load_receipt,
    cupdaisy_journal_edit,
    cupdaisy_request,
    cupdaisy_frame,
    v4l2_ctrl_h264_pred_weights,
);

fn zeros<T: Plain>() -> T {
    // SAFETY: zeros are a value of a plain type.
    unsafe { MaybeUninit::zeroed().assume_init() }
}

/// What a call writes into its last parameter, or its status where that isn't 0.
fn written<T: Plain>(call: impl FnOnce(*mut T) -> Status) -> Result<T, Status> {
    let mut out = zeros();
    done(call(&mut out)).map(|()| out)
}

fn done(status: Status) -> Result<(), Status> {
    match status {
        CUPDAISY_DONE => Ok(()),
        refused => Err(refused),
    }
}

/// The bytes that a call writes, once it has as much room as it says that it needs.
fn filled(call: impl Fn(*mut u8, usize, *mut usize) -> Status) -> Result<Vec<u8>, Status> {
    let mut text = vec![0; 256];
    loop {
        let mut needed = 0;
        match call(text.as_mut_ptr(), text.len(), &mut needed) {
            CUPDAISY_TOO_SMALL => text.resize(needed, 0),
            status => {
                text.truncate(needed);
                return done(status).map(|()| text);
            }
        }
    }
}

/// Calls whose operands are numbers, and which write their last parameter.
macro_rules! written {
    ($($name:ident = $call:ident($($operand:ident: $kind:ty),*) -> $out:ty;)*) => {
        impl Raw {
            $(pub(crate) fn $name(&self $(, $operand: $kind)*) -> Result<$out, Status> {
                // SAFETY: as the module says; the last pointer is to a place for what is written.
                written(|out| unsafe { $call(self.at(), $($operand,)* out) })
            })*
        }
    };
}

written! {
    delete = cupdaisy_delete(id: u32) -> cupdaisy_receipt;
    units = cupdaisy_units() -> usize;
    id_at = cupdaisy_id_at(place: usize) -> u32;
    place = cupdaisy_place(id: u32) -> usize;
    position = cupdaisy_position(id: u32) -> usize;
    unit_at = cupdaisy_unit_at(position: usize) -> u32;
    outcome_of = cupdaisy_outcome_of(id: u32) -> cupdaisy_outcome;
    key = cupdaisy_key(id: u32) -> u64;
    in_use = cupdaisy_in_use(key: u64) -> u32;
    is_altered = cupdaisy_is_altered(id: u32) -> u32;
    show = cupdaisy_show(id: u32) -> u64;
    take = cupdaisy_take() -> cupdaisy_job;
    take_for = cupdaisy_take_for(id: u32) -> cupdaisy_job;
    drop_picture = cupdaisy_drop_picture(id: u32) -> u64;
    uncache = cupdaisy_uncache() -> u64;
    job_input_of = cupdaisy_job_input_of(job: u64) -> cupdaisy_job_input;
    job_reference = cupdaisy_job_reference(job: u64, index: usize) -> cupdaisy_reference;
    unit_request = cupdaisy_unit_request(id: u32, slice: usize) -> cupdaisy_request;
    unit_weights = cupdaisy_unit_weights(id: u32, slice: usize) -> v4l2_ctrl_h264_pred_weights;
    job_request = cupdaisy_job_request(job: u64, slice: usize) -> cupdaisy_request;
    job_weights = cupdaisy_job_weights(job: u64, slice: usize) -> v4l2_ctrl_h264_pred_weights;
    unit_frame = cupdaisy_unit_frame(id: u32) -> cupdaisy_frame;
    job_frame = cupdaisy_job_frame(job: u64) -> cupdaisy_frame;
    journal = cupdaisy_journal() -> usize;
    journal_entry = cupdaisy_journal_entry(entry: usize) -> usize;
    journal_edit_at = cupdaisy_journal_edit_at(entry: usize, index: usize) -> cupdaisy_journal_edit;
}

/// Calls that fill a buffer.
macro_rules! filled {
    ($($name:ident = $call:ident($($operand:ident: $kind:ty),*);)*) => {
        impl Raw {
            $(pub(crate) fn $name(&self $(, $operand: $kind)*) -> Result<Vec<u8>, Status> {
                // SAFETY: as the module says; the buffer has the length that is given.
                filled(|text, capacity, needed| unsafe { $call(self.at(), $($operand,)* text, capacity, needed) })
            })*
        }
    };
}

filled! {
    unit_bytes = cupdaisy_unit_bytes(id: u32, slice: usize);
    job_bytes = cupdaisy_job_bytes(job: u64, slice: usize);
    unit_frame_bytes = cupdaisy_unit_frame_bytes(id: u32, start_codes: bool);
    job_frame_bytes = cupdaisy_job_frame_bytes(job: u64, start_codes: bool);
    journal_text = cupdaisy_journal_text(entry: usize, index: usize);
}

// SAFETY of each call: as the module says. A slice's pointer isn't null, also of an empty one.
impl Raw {
    pub(crate) fn open(cache: u16) -> Result<Self, Status> {
        let raw = Raw { handle: Box::new(UnsafeCell::new(cupdaisy_session { at: ptr::null_mut(), full: false })) };
        done(unsafe { cupdaisy_open(raw.at(), cache) }).map(|()| raw)
    }

    fn at(&self) -> Handle {
        self.handle.get()
    }

    pub(crate) fn insert_first(&self, text: &[u8]) -> Result<cupdaisy_receipt, Status> {
        written(|out| unsafe { cupdaisy_insert_first(self.at(), text.as_ptr(), text.len(), out) })
    }

    pub(crate) fn insert_after(&self, id: u32, text: &[u8]) -> Result<cupdaisy_receipt, Status> {
        written(|out| unsafe { cupdaisy_insert_after(self.at(), id, text.as_ptr(), text.len(), out) })
    }

    pub(crate) fn insert_last(&self, text: &[u8]) -> Result<cupdaisy_receipt, Status> {
        written(|out| unsafe { cupdaisy_insert_last(self.at(), text.as_ptr(), text.len(), out) })
    }

    pub(crate) fn replace(&self, id: u32, text: &[u8]) -> Result<cupdaisy_receipt, Status> {
        written(|out| unsafe { cupdaisy_replace(self.at(), id, text.as_ptr(), text.len(), out) })
    }

    /// The status, and what is told with it; the ids are written where the group is made.
    pub(crate) fn group(
        &self,
        edits: &[cupdaisy_edit],
        texts: &[u8],
        ids: &mut [u32],
        receipt: &mut cupdaisy_group_receipt,
    ) -> Result<(), Status> {
        done(unsafe {
            cupdaisy_group(
                self.at(),
                edits.as_ptr(),
                edits.len(),
                texts.as_ptr(),
                texts.len(),
                ids.as_mut_ptr(),
                ids.len(),
                receipt,
            )
        })
    }

    /// The status, and what is told with any status.
    pub(crate) fn load(&self, text: &[u8]) -> (Result<(), Status>, cupdaisy_load_receipt) {
        let mut receipt = zeros();
        let status = unsafe { cupdaisy_load(self.at(), text.as_ptr(), text.len(), &mut receipt) };
        (done(status), receipt)
    }

    /// What is told of so many units from a place on, or of those up to the last one.
    pub(crate) fn doubts(&self, from: usize, count: usize) -> Result<Vec<cupdaisy_doubt>, Status> {
        let mut doubts = vec![zeros(); count.min(self.units()?)];
        let mut count = 0;
        done(unsafe { cupdaisy_doubts(self.at(), from, doubts.as_mut_ptr(), doubts.len(), &mut count) })?;
        doubts.truncate(count);
        Ok(doubts)
    }

    pub(crate) fn mark(&self) -> Result<(), Status> {
        done(unsafe { cupdaisy_mark(self.at()) })
    }

    pub(crate) fn land(&self, job: u64, surface: u64) -> Result<(), Status> {
        done(unsafe { cupdaisy_land(self.at(), job, surface) })
    }

    pub(crate) fn give_back(&self, job: u64) -> Result<(), Status> {
        done(unsafe { cupdaisy_give_back(self.at(), job) })
    }

    /// A surface that the session has no more; none where none can go back now.
    pub(crate) fn released(&self) -> Option<u64> {
        let mut surface = 0;
        let count = written(|count| unsafe { cupdaisy_released(self.at(), &mut surface, 1, count) });
        (count == Ok(1)).then_some(surface)
    }
}

impl Drop for Raw {
    fn drop(&mut self) {
        unsafe { cupdaisy_close(self.at()) };
    }
}

/// The name of a status; of a fault; the version. They need no session.
pub(crate) fn status_name(status: u32) -> Option<String> {
    text(|name, capacity, needed| unsafe { cupdaisy_status_name(status, name, capacity, needed) })
}

pub(crate) fn fault_name(fault: u32) -> Option<String> {
    text(|name, capacity, needed| unsafe { cupdaisy_fault_name(fault, name, capacity, needed) })
}

pub(crate) fn why_name(why: u32) -> Option<String> {
    text(|name, capacity, needed| unsafe { cupdaisy_why_name(why, name, capacity, needed) })
}

/// What stays of a text that is mended, and what is left out of it.
pub(crate) fn mend(text: &[u8]) -> Result<(Vec<u8>, Vec<cupdaisy_left_out>), Status> {
    let (mut needed, mut count) = (text.len() + 64, 16);
    loop {
        let (mut bytes, mut left_out) = (vec![0; needed], vec![zeros(); count]);
        let status = unsafe {
            cupdaisy_mend(
                text.as_ptr(),
                text.len(),
                bytes.as_mut_ptr(),
                bytes.len(),
                &mut needed,
                left_out.as_mut_ptr(),
                left_out.len(),
                &mut count,
            )
        };
        if status != CUPDAISY_TOO_SMALL {
            done(status)?;
            if count <= left_out.len() {
                bytes.truncate(needed);
                left_out.truncate(count);
                return Ok((bytes, left_out));
            }
        }
    }
}

pub(crate) fn version() -> Option<String> {
    text(|name, capacity, needed| unsafe { cupdaisy_version_text(name, capacity, needed) })
}

fn text(call: impl Fn(*mut u8, usize, *mut usize) -> Status) -> Option<String> {
    String::from_utf8(filled(call).ok()?).ok()
}
