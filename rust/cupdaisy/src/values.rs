//! What calls are given and answer.

use std::fmt;
use std::ops::Range;

use crate::error::Fault;
use crate::sys;

/// The id of a unit: 1, 2, 3 and so on in the order of accepted insertions, never given twice.
#[derive(Clone, Copy, Debug, PartialEq, Eq, PartialOrd, Ord, Hash)]
pub struct UnitId(pub(crate) u32);

impl UnitId {
    /// The id by its number.
    pub fn new(number: u32) -> Self {
        UnitId(number)
    }

    /// Its number.
    pub fn number(self) -> u32 {
        self.0
    }
}

impl fmt::Display for UnitId {
    fn fmt(&self, to: &mut fmt::Formatter<'_>) -> fmt::Result {
        self.0.fmt(to)
    }
}

/// What an accepted edit is record.
#[derive(Clone, Debug, PartialEq, Eq)]
pub struct Receipt {
    /// The unit that was inserted, deleted or replaced.
    pub unit: UnitId,
    /// How many edits and groups were accepted, with this one.
    pub number: u64,
    /// How many steps of the fold over the stream it made.
    pub steps: u64,
    /// How many bytes were hashed for it.
    pub hashed: u64,
    /// The least range of places, of the stream after it, that has every unit which wasn't there before, or has another outcome
    /// or key than before. Empty where there is none.
    pub changed: Range<usize>,
}

/// An edit of a group.
#[derive(Clone, Copy, Debug, PartialEq, Eq)]
pub enum Edit<'a> {
    /// Inserts a unit of this text before all others.
    InsertFirst(&'a [u8]),
    /// Inserts a unit of this text directly after that of the id.
    InsertAfter(UnitId, &'a [u8]),
    /// Takes the unit of the id out.
    Delete(UnitId),
    /// Puts a unit of this text in the place of that of the id, under the same id.
    Replace(UnitId, &'a [u8]),
}

impl<'a> Edit<'a> {
    /// Its kind, its id (0 where it names none), and its text.
    pub(crate) fn parts(self) -> (u32, u32, &'a [u8]) {
        match self {
            Edit::InsertFirst(text) => (sys::CUPDAISY_INSERT_FIRST, 0, text),
            Edit::InsertAfter(unit, text) => (sys::CUPDAISY_INSERT_AFTER, unit.0, text),
            Edit::Delete(unit) => (sys::CUPDAISY_DELETE, unit.0, &[]),
            Edit::Replace(unit, text) => (sys::CUPDAISY_REPLACE, unit.0, text),
        }
    }
}

/// What an accepted group is record.
#[derive(Clone, Debug, PartialEq, Eq)]
pub struct Group {
    /// The units that were inserted, deleted or replaced, in the order of the edits.
    pub units: Vec<UnitId>,
    /// How many edits and groups were accepted, with this one.
    pub number: u64,
    /// How many steps of the fold over the stream it made.
    pub steps: u64,
    /// How many bytes were hashed for its edits.
    pub hashed: u64,
    /// The least range of places that has every unit which wasn't so before its first edit.
    pub changed: Range<usize>,
}

/// What a load is record.
#[derive(Clone, Debug, PartialEq, Eq)]
pub struct Loaded {
    /// The first of its units; the others have the next ids.
    pub first: UnitId,
    /// How many units were inserted.
    pub units: usize,
    /// How many edits and groups were accepted, with the last one of these.
    pub number: u64,
    /// How many steps of the fold over the stream they made.
    pub steps: u64,
    /// How many bytes were hashed for them.
    pub hashed: u64,
    /// The places of its units.
    pub changed: Range<usize>,
}

/// A unit's outcome.
#[derive(Clone, Copy, Debug, PartialEq, Eq)]
pub enum Outcome {
    /// It is valid.
    Plan(Plan),
    /// It can't be decoded.
    Fault(Fault),
    /// It has no slice, so that it has no picture.
    Empty,
}

/// What is told of a unit behind a damage.
#[derive(Clone, Copy, Debug, PartialEq, Eq)]
pub struct Doubt {
    /// The unit that shows the damage, where no valid IDR picture stands behind it up to this one.
    pub follows: Option<UnitId>,
    /// Whether the unit is valid and its picture may be made of other frames than were meant.
    pub in_doubt: bool,
}

impl Doubt {
    pub(crate) fn of(record: sys::cupdaisy_doubt) -> Self {
        let follows = (record.follows != 0).then_some(UnitId(record.follows));
        Doubt { follows, in_doubt: record.in_doubt == 1 }
    }
}

/// What is said of a valid unit.
#[derive(Clone, Copy, Debug, PartialEq, Eq)]
pub struct Plan {
    /// TopFieldOrderCnt, before memory_management_control_operation 5 resets it (8.2.1).
    pub top: i32,
    /// BottomFieldOrderCnt, before that.
    pub bottom: i32,
    /// The picture order count that the picture has from then on.
    pub order: i32,
    /// Whether output order begins anew at it: it is an IDR picture, or one with operation 5.
    pub begins_period: bool,
    /// How many slices it has, each with its request.
    pub slices: usize,
}

impl Outcome {
    pub(crate) fn of(record: sys::cupdaisy_outcome) -> Self {
        match record.kind {
            sys::CUPDAISY_PLAN => Outcome::Plan(Plan {
                top: record.top,
                bottom: record.bottom,
                order: record.order,
                begins_period: record.begins_period == 1,
                slices: record.slices as usize,
            }),
            sys::CUPDAISY_FAULT => Outcome::Fault(Fault::of(record.fault)),
            _ => Outcome::Empty,
        }
    }
}

/// What is shown of a unit.
#[derive(Debug, PartialEq, Eq)]
pub enum Shown<'a, T> {
    /// Its picture, in this surface.
    Ready(&'a T),
    /// Its picture isn't held: take jobs and land them.
    Pending,
    /// It has a fault, so that it has no picture.
    Fault(Fault),
    /// It has no slice, so that it has no picture.
    Empty,
}

/// A job that was taken: a picture to decode. Whoever has it lands it or gives it back.
#[must_use = "a job that isn't landed or given back is out for ever, and no other makes its picture"]
#[derive(Debug, PartialEq, Eq)]
pub struct Job {
    /// Which session it is of.
    pub(crate) session: u64,
    pub(crate) number: u64,
    pub(crate) unit: UnitId,
}

impl Job {
    /// Its number: 1, 2, 3 and so on, never given twice.
    pub fn number(&self) -> u64 {
        self.number
    }

    /// The first unit of the stream that has this picture; of [`Session::take_for`](crate::Session::take_for) the one that is
    /// needed.
    pub fn unit(&self) -> UnitId {
        self.unit
    }
}

/// A picture that the requests of a job may refer to.
#[derive(Debug, PartialEq, Eq)]
pub struct Reference<'a, T> {
    /// What `reference_ts` of the decoded picture buffer has for it.
    pub timestamp: u64,
    /// Its surface; none where the host has taken it back by `drop_picture` or `uncache` since the job was taken.
    pub surface: Option<&'a T>,
}

/// An edit of the journal, with its text.
#[derive(Clone, Debug, PartialEq, Eq)]
pub enum JournalEdit {
    /// A unit of this text was inserted before all others.
    InsertFirst(Vec<u8>),
    /// A unit of this text was inserted directly after that of the id.
    InsertAfter(UnitId, Vec<u8>),
    /// The unit of the id was taken out.
    Delete(UnitId),
    /// A unit of this text was put in the place of that of the id.
    Replace(UnitId, Vec<u8>),
}

impl JournalEdit {
    pub(crate) fn of(kind: u32, id: u32, text: Vec<u8>) -> Self {
        match kind {
            sys::CUPDAISY_INSERT_FIRST => JournalEdit::InsertFirst(text),
            sys::CUPDAISY_INSERT_AFTER => JournalEdit::InsertAfter(UnitId(id), text),
            sys::CUPDAISY_DELETE => JournalEdit::Delete(UnitId(id)),
            _ => JournalEdit::Replace(UnitId(id), text),
        }
    }

    /// The edit, as a group takes it.
    pub fn as_edit(&self) -> Edit<'_> {
        match self {
            JournalEdit::InsertFirst(text) => Edit::InsertFirst(text),
            JournalEdit::InsertAfter(unit, text) => Edit::InsertAfter(*unit, text),
            JournalEdit::Delete(unit) => Edit::Delete(*unit),
            JournalEdit::Replace(unit, text) => Edit::Replace(*unit, text),
        }
    }
}
