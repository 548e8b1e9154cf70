//! A text that is mended.

use crate::error::{Error, Why};
use crate::sys::{self, handle};

/// What stays of a text that was mended, and what was left out of it.
#[derive(Clone, Debug, PartialEq, Eq)]
pub struct Mended {
    /// What stays, with the access unit delimiters that were put.
    pub bytes: Vec<u8>,
    /// What was left out, in the order in which it ended.
    pub left_out: Vec<LeftOut>,
}

/// Bytes that were left out of a text.
#[derive(Clone, Copy, Debug, PartialEq, Eq)]
pub struct LeftOut {
    /// The place of the first, from 0 on.
    pub byte: usize,
    /// How many they are; of an access unit the bytes of its NAL units, with start codes of three bytes.
    pub bytes: usize,
    /// Why.
    pub why: Why,
    /// The type of the NAL unit, where that is why ([`Why::UnitType`]).
    pub unit_type: Option<u8>,
}

impl LeftOut {
    fn of(told: &sys::cupdaisy_left_out) -> Self {
        let why = Why::of(told.why);
        let unit_type = (why == Why::UnitType).then_some(told.unit_type as u8);
        LeftOut { byte: told.byte as usize, bytes: told.bytes as usize, why, unit_type }
    }
}

/// The text without what [`Session::load`](crate::Session::load) refuses, with an access unit delimiter where two pictures would be
/// taken for one. A text that isn't refused stays as it is. What stays isn't refused but for how many access units it has
/// ([`Error::StreamFull`]), or where it is empty.
pub fn mend(text: &[u8]) -> Result<Mended, Error> {
    let (bytes, left_out) = handle::mend(text).map_err(Error::of)?;
    Ok(Mended { bytes, left_out: left_out.iter().map(LeftOut::of).collect() })
}
