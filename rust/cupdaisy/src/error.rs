//! What is refused, and why; what is wrong with a unit.

use std::error;
use std::fmt;

use crate::sys::handle;

/// An enum of the library's numbers, each with its variant and what it says.
macro_rules! numbered {
    ($(#[$doc:meta])* $kind:ident named by $name:path: $($number:literal $variant:ident $says:literal;)*) => {
        $(#[$doc])*
        #[derive(Clone, Copy, Debug, PartialEq, Eq, Hash)]
        #[non_exhaustive]
        pub enum $kind {
            $(#[doc = $says] $variant,)*
            /// Another one, by its number.
            Other(u32),
        }

        impl $kind {
            #[cfg(test)]
            const ALL: &'static [$kind] = &[$($kind::$variant),*];

            pub(crate) fn of(number: u32) -> Self {
                match number {
                    $($number => $kind::$variant,)*
                    other => $kind::Other(other),
                }
            }

            /// The number that the library and the program `preview` have for it.
            pub fn number(self) -> u32 {
                match self {
                    $($kind::$variant => $number,)*
                    $kind::Other(number) => number,
                }
            }

            /// The name that they have for it, empty where they have none.
            pub fn name(self) -> String {
                $name(self.number()).unwrap_or_default()
            }
        }

        impl fmt::Display for $kind {
            fn fmt(&self, to: &mut fmt::Formatter<'_>) -> fmt::Result {
                match self {
                    $($kind::$variant => to.write_str($says),)*
                    $kind::Other(number) => write!(to, "number {number}"),
                }
            }
        }
    };
}

numbered! {
    /// Why a call did nothing. docs/OUTPUT.md, "Refusals", says what to do about each of those up to 21.
    Error named by handle::status_name:
    1 Split "the text is no byte stream of H.264 (Annex B)";
    2 UnitType "a NAL unit is of a type that isn't decoded";
    3 ForbiddenBit "forbidden_zero_bit is 1";
    4 Sps "a sequence parameter set can't be read";
    5 Pps "a picture parameter set can't be read";
    6 Switching "a slice is of type SP or SI";
    7 MixedIdr "slices of types 1 and 5 are in one access unit";
    8 IdrNotIntra "a P or B slice is in an IDR picture";
    9 IdrNotReference "an IDR picture has nal_ref_idc 0";
    10 MixedReference "slices with nal_ref_idc 0 and others are in one access unit";
    11 UnitOrder "a unit that belongs before the slices stands after one";
    13 TwoPictures "two slices that begin at macroblock 0 are in one access unit";
    14 TooLarge "an access unit has more than 4,194,304 bytes or 256 slices";
    15 Memory "there is no memory for it";
    16 NoSuchUnit "no unit has the id";
    17 StreamFull "the stream has more than 65,536 access units";
    18 IdsSpent "all ids were given";
    20 EmptyGroup "a group has no edit";
    21 GroupTooLarge "a group has more than 1,024 edits";
    102 CacheRange "the capacity of the cache isn't 1 to 4,096";
    104 NoSuchPlace "nothing stands at the place";
    105 NoSuchJob "no job of the number is out";
    106 NoSuchSlice "the picture has no slice of the index";
    107 NotValid "the unit has a fault or no slice";
    109 JobsSpent "all numbers of jobs were given";
    110 Stale "the picture is wanted no more";
    118 SeveralSlices "without start codes a picture of several slices has no bytes";
}

impl error::Error for Error {}

numbered! {
    /// Why a unit can't be decoded. docs/OUTPUT.md, "Faults of a unit", says what to do about each.
    Fault named by handle::fault_name:
    1 MissingPps "a slice names a picture parameter set that wasn't sent";
    2 MissingSps "the picture parameter set names a sequence parameter set that wasn't sent";
    3 HeaderCut "a slice header runs past its unit";
    4 HeaderValue "a field of a slice header is out of its range";
    5 Redundant "it is a redundant coded picture";
    6 SliceOrder "the first slice doesn't begin at macroblock 0, or first_mb_in_slice doesn't rise";
    7 SliceMismatch "its slices differ in a field that has to be the same";
    8 NoIdr "it stands before the first IDR picture";
    9 SpsChange "it isn't IDR, and has another sequence parameter set than the one that is active";
    10 IdrFrameNum "it is an IDR picture with frame_num other than 0";
    11 FrameNumGap "frame_num is neither that of the previous reference picture nor the next";
    12 FrameNumRepeat "it repeats the frame_num of the previous reference picture or of a short-term reference";
    13 OrderRange "a picture order count leaves 32 bits";
    14 OrderTie "two pictures of a B slice's lists have the same picture order count";
    15 NoReference "a P or B slice has no reference picture";
    16 BadModification "a modification of a reference list names a picture that isn't there";
    17 BadMarking "a marking operation names a picture that isn't there, or contradicts another";
    18 TooManyReferences "there are more reference pictures than max_num_ref_frames";
}

numbered! {
    /// Why bytes are left out of a text that is mended.
    Why named by handle::why_name:
    1 NotNalUnit "they stand before the first start code";
    2 Empty "no byte follows the start code";
    3 ForbiddenBytes "the NAL unit holds a sequence that none may hold";
    4 ForbiddenBit "forbidden_zero_bit is 1";
    5 UnitType "the NAL unit is of a type that isn't read";
    6 UnreadSps "a sequence parameter set that can't be read";
    7 UnreadPps "a picture parameter set that can't be read";
    8 Switching "a slice of type SP or SI";
    9 IdrNotIntra "a P or B slice of an IDR picture";
    10 IdrNotReference "a slice of an IDR picture whose nal_ref_idc is 0";
    11 TooLarge "the access unit has more than 4,194,304 bytes or 256 slices";
}

/// A surface that wasn't landed, and is the caller's again.
pub struct NotLanded<T> {
    /// [`Error::Stale`] where nobody wants the picture any more, [`Error::NoSuchJob`] where the job isn't out.
    pub error: Error,
    /// The surface.
    pub surface: T,
}

impl<T> fmt::Debug for NotLanded<T> {
    fn fmt(&self, to: &mut fmt::Formatter<'_>) -> fmt::Result {
        to.debug_struct("NotLanded").field("error", &self.error).finish_non_exhaustive()
    }
}

impl<T> fmt::Display for NotLanded<T> {
    fn fmt(&self, to: &mut fmt::Formatter<'_>) -> fmt::Result {
        self.error.fmt(to)
    }
}

impl<T> error::Error for NotLanded<T> {}

/// A group that wasn't made.
#[derive(Clone, Copy, Debug, PartialEq, Eq)]
pub struct GroupError {
    /// Why: that of the group, or of its first edit that is refused.
    pub error: Error,
    /// Which edit is refused, from 0 on; none where the group itself is, or memory is short.
    pub index: Option<usize>,
}

impl fmt::Display for GroupError {
    fn fmt(&self, to: &mut fmt::Formatter<'_>) -> fmt::Result {
        match self.index {
            Some(index) => write!(to, "edit {index}: {}", self.error),
            None => self.error.fmt(to),
        }
    }
}

impl error::Error for GroupError {}

/// A stream that wasn't loaded, or not to its end.
#[derive(Clone, Copy, Debug, PartialEq, Eq)]
pub struct LoadError {
    /// Why.
    pub error: Error,
    /// Which access unit is refused, from 0 on.
    pub index: usize,
    /// How many units were inserted before that. They stay, and there are some only where the error is
    /// [`Error::IdsSpent`] or [`Error::Memory`].
    pub units: usize,
}

impl fmt::Display for LoadError {
    fn fmt(&self, to: &mut fmt::Formatter<'_>) -> fmt::Result {
        write!(to, "access unit {}: {}", self.index, self.error)
    }
}

impl error::Error for LoadError {}

#[cfg(test)]
mod tests {
    use super::*;

    #[test]
    fn each_number_has_the_librarys_name() {
        for error in Error::ALL {
            assert_eq!(error.name(), format!("{error:?}"));
            assert_eq!(Error::of(error.number()), *error);
        }
        for fault in Fault::ALL {
            assert_eq!(fault.name(), format!("{fault:?}"));
            assert_eq!(Fault::of(fault.number()), *fault);
        }
        for why in Why::ALL {
            assert_eq!(why.name(), format!("{why:?}"));
            assert_eq!(Why::of(why.number()), *why);
        }
    }

    #[test]
    fn no_refusal_and_no_fault_is_left_out() {
        let refusals = (1..100).filter(|&number| handle::status_name(number).is_some());
        assert!(refusals.into_iter().all(|number| Error::of(number) != Error::Other(number)));
        let faults = (1..100).filter(|&number| handle::fault_name(number).is_some());
        assert!(faults.into_iter().all(|number| Fault::of(number) != Fault::Other(number)));
        let whys = (1..100).filter(|&number| handle::why_name(number).is_some());
        assert!(whys.into_iter().all(|number| Why::of(number) != Why::Other(number)));
    }
}
