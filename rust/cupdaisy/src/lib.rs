//! A preview session over an edited H.264 stream, which owns the surfaces of the host's decoder.
//!
//! A [`Session`] keeps a stream of access units. Edits insert, delete and replace units, given as bytes in the byte stream format
//! (ITU-T H.264, Annex B). Of each unit it says whether it can be decoded, and by which requests of Linux's stateless decoder
//! interface. When an edit changes what a picture is made of, the session asks for that picture anew, and for no other.
//!
//! The host decodes. It takes a [`Job`], makes the picture of the job's requests and of the surfaces of its references, and lands
//! the surface that has it, a value of any type `T`. From then on the session owns that value, until it gives it back:
//!
//! ```
//! use cupdaisy::{Error, Session};
//!
//! # fn main() -> Result<(), Error> {
//! # let text = [0, 0, 1, 0x67, 0x42, 0, 10, 0xDA, 0x79, 0, 0, 1, 0x68, 0xCE, 0x38, 0x80, 0, 0, 1, 0x65, 0x88, 0x84, 0x80];
//! let mut session = Session::open(16)?;
//! let unit = session.insert_last(&text)?.unit;
//! while let Some(job) = session.take()? {
//!     let surface = session.job_bytes(&job, 0)?; // a decoder makes a surface of it
//!     if let Err(stale) = session.land(job, surface) {
//!         drop(stale.surface);
//!     }
//! }
//! assert_eq!(session.show(unit), Some(&vec![0, 0, 1, 0x65, 0x88, 0x84, 0x80]));
//! # Ok(())
//! # }
//! ```
//!
//! What is shown of a unit is the surface that was landed for exactly its requests and references as the stream is now. A
//! surface is never lent after it was given back, is given back once, and is dropped with the session where it wasn't.
//!
//! A session may be sent to another thread, and is used by one at a time:
//!
//! ```
//! fn is_sent<T: Send>() {}
//! is_sent::<cupdaisy::Session<Vec<u8>>>();
//! ```
//!
//! ```compile_fail
//! fn is_shared<T: Sync>() {}
//! is_shared::<cupdaisy::Session<Vec<u8>>>();
//! ```
#![deny(missing_docs, unsafe_code)]

mod error;
mod mending;
mod session;
mod slots;
#[allow(unsafe_code)]
pub mod sys;
mod values;

pub use error::{Error, Fault, GroupError, LoadError, NotLanded, Why};
pub use mending::{mend, LeftOut, Mended};
pub use session::Session;
pub use sys::v4l2::v4l2_ctrl_h264_pred_weights as PredWeights;
pub use sys::{cupdaisy_frame as Frame, cupdaisy_job_input as JobInput, cupdaisy_request as Request};
pub use values::{Doubt, Edit, Group, Job, JournalEdit, Loaded, Outcome, Plan, Receipt, Reference, Shown, UnitId};

/// The version of the library.
pub fn version() -> String {
    sys::handle::version().unwrap_or_default()
}
