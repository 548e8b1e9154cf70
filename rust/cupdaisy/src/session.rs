//! The session.

use std::fmt;
use std::iter;
use std::ops::Range;
use std::sync::atomic::{AtomicU64, Ordering};

use crate::error::{Error, GroupError, LoadError, NotLanded};
use crate::slots::Slots;
use crate::sys::handle::Raw;
use crate::sys::{self, cupdaisy_edit, cupdaisy_group_receipt, cupdaisy_receipt};
use crate::values::{Doubt, Edit, Group, Job, JournalEdit, Loaded, Outcome, Receipt, Reference, Shown, UnitId};
use crate::{Frame, JobInput, PredWeights, Request};

/// A session over a stream, which owns the surfaces `T` that were landed and not given back. It is closed where it is dropped,
/// and they are dropped with it.
pub struct Session<T> {
    /// Its own number, by which its jobs are known.
    number: u64,
    raw: Raw,
    surfaces: Slots<T>,
}

impl<T> fmt::Debug for Session<T> {
    fn fmt(&self, to: &mut fmt::Formatter<'_>) -> fmt::Result {
        let mut shown = to.debug_struct("Session");
        shown.field("units", &self.len()).field("surfaces", &self.surfaces()).finish_non_exhaustive()
    }
}

fn receipt(told: Result<cupdaisy_receipt, u32>) -> Result<Receipt, Error> {
    let told = told.map_err(Error::of)?;
    let changed = range(told.changed_from, told.changed_count);
    Ok(Receipt { unit: UnitId(told.id), number: told.number, steps: told.steps, hashed: told.hashed, changed })
}

/// A range of places.
fn range(from: u64, count: u64) -> Range<usize> {
    from as usize..(from + count) as usize
}

/// What a call told; nothing where its status is the absent one.
fn unless<T>(absent: u32, told: Result<T, u32>) -> Result<Option<T>, Error> {
    match told {
        Ok(value) => Ok(Some(value)),
        Err(status) if status == absent => Ok(None),
        Err(status) => Err(Error::of(status)),
    }
}

impl<T> Session<T> {
    /// A session over an empty stream, with a cache for so many pictures of units that are gone: 1 to 4,096
    /// ([`Error::CacheRange`]).
    pub fn open(cache: u16) -> Result<Self, Error> {
        static OPENED: AtomicU64 = AtomicU64::new(0);
        let raw = Raw::open(cache).map_err(Error::of)?;
        Ok(Session { number: OPENED.fetch_add(1, Ordering::Relaxed), raw, surfaces: Slots::new() })
    }

    /// Closes the session: the surfaces that it had.
    pub fn close(self) -> impl Iterator<Item = T> {
        self.surfaces.into_surfaces()
    }

    /// How many surfaces it has.
    pub fn surfaces(&self) -> usize {
        self.surfaces.len()
    }
}

/// Edits. A refused one changes nothing and spends no id.
impl<T> Session<T> {
    /// Inserts a unit before all others.
    pub fn insert_first(&mut self, text: &[u8]) -> Result<Receipt, Error> {
        receipt(self.raw.insert_first(text))
    }

    /// Inserts a unit directly after that of the id.
    pub fn insert_after(&mut self, unit: UnitId, text: &[u8]) -> Result<Receipt, Error> {
        receipt(self.raw.insert_after(unit.0, text))
    }

    /// Inserts a unit after all others.
    pub fn insert_last(&mut self, text: &[u8]) -> Result<Receipt, Error> {
        receipt(self.raw.insert_last(text))
    }

    /// Takes a unit out.
    pub fn delete(&mut self, unit: UnitId) -> Result<Receipt, Error> {
        receipt(self.raw.delete(unit.0))
    }

    /// Puts another unit in the place of this one, under the same id.
    pub fn replace(&mut self, unit: UnitId, text: &[u8]) -> Result<Receipt, Error> {
        receipt(self.raw.replace(unit.0, text))
    }

    /// Makes edits together, as one step: all of them, each on the stream that those before it left, or none.
    pub fn group(&mut self, edits: &[Edit<'_>]) -> Result<Group, GroupError> {
        let mut asked = Vec::with_capacity(edits.len());
        let mut texts = Vec::new();
        for (kind, id, text) in edits.iter().map(|edit| edit.parts()) {
            asked.push(cupdaisy_edit { kind, id, from: texts.len(), count: text.len() });
            texts.extend_from_slice(text);
        }
        let mut ids = vec![0; edits.len()];
        let untold = edits.len() as u64;
        let mut told =
            cupdaisy_group_receipt { number: 0, steps: 0, hashed: 0, changed_from: 0, changed_count: 0, index: untold };
        match self.raw.group(&asked, &texts, &mut ids, &mut told) {
            Ok(()) => {
                let units = ids.into_iter().map(UnitId).collect();
                let changed = range(told.changed_from, told.changed_count);
                Ok(Group { units, number: told.number, steps: told.steps, hashed: told.hashed, changed })
            }
            Err(status) => {
                let index = (told.index < untold).then_some(told.index as usize);
                Err(GroupError { error: Error::of(status), index })
            }
        }
    }

    /// Inserts the access units of a byte stream after the last unit.
    pub fn load(&mut self, stream: &[u8]) -> Result<Loaded, LoadError> {
        let (status, told) = self.raw.load(stream);
        let units = told.units as usize;
        status
            .map(|()| Loaded {
                first: UnitId(told.first),
                units,
                number: told.number,
                steps: told.steps,
                hashed: told.hashed,
                changed: range(told.changed_from, told.changed_count),
            })
            .map_err(|status| LoadError { error: Error::of(status), index: told.index as usize, units })
    }
}

/// Questions about the stream as it is now.
impl<T> Session<T> {
    /// How many units it has.
    pub fn len(&self) -> usize {
        self.raw.units().unwrap_or(0)
    }

    /// Whether it has none.
    pub fn is_empty(&self) -> bool {
        self.len() == 0
    }

    /// The units in decoding order.
    pub fn units(&self) -> impl Iterator<Item = UnitId> + '_ {
        (0..self.len()).map_while(|place| self.id_at(place))
    }

    /// The valid units in output order.
    pub fn units_in_output_order(&self) -> impl Iterator<Item = UnitId> + '_ {
        (0..self.len()).map_while(|position| self.unit_at(position))
    }

    /// The unit at a place in decoding order, from 0 on.
    pub fn id_at(&self, place: usize) -> Option<UnitId> {
        self.raw.id_at(place).ok().map(UnitId)
    }

    /// The place of a unit in decoding order.
    pub fn place(&self, unit: UnitId) -> Result<usize, Error> {
        self.raw.place(unit.0).map_err(Error::of)
    }

    /// The position of a valid unit in output order, from 0 on.
    pub fn position(&self, unit: UnitId) -> Result<usize, Error> {
        self.raw.position(unit.0).map_err(Error::of)
    }

    /// The unit at a position in output order.
    pub fn unit_at(&self, position: usize) -> Option<UnitId> {
        self.raw.unit_at(position).ok().map(UnitId)
    }

    /// Whether a unit can be decoded.
    pub fn outcome(&self, unit: UnitId) -> Result<Outcome, Error> {
        self.raw.outcome_of(unit.0).map(Outcome::of).map_err(Error::of)
    }

    /// Which of so many units from a place in decoding order on follow a damage, and which of them are in doubt; fewer where the
    /// stream ends before.
    pub fn doubts(&self, from: usize, count: usize) -> Result<Vec<Doubt>, Error> {
        let told = self.raw.doubts(from, count).map_err(Error::of)?;
        Ok(told.into_iter().map(Doubt::of).collect())
    }

    /// The number of a valid unit's key: of all that its picture is made of. Units have equal numbers exactly where their
    /// pictures are made alike.
    pub fn key(&self, unit: UnitId) -> Result<u64, Error> {
        self.raw.key(unit.0).map_err(Error::of)
    }

    /// Whether some unit has the key of this number. It looks at each unit.
    pub fn is_in_use(&self, key: u64) -> bool {
        self.raw.in_use(key) == Ok(1)
    }

    /// Remembers what the valid units are made of now, in place of an earlier mark.
    pub fn mark(&mut self) -> Result<(), Error> {
        self.raw.mark().map_err(Error::of)
    }

    /// Whether a valid unit is made of something of which no unit was at the mark.
    pub fn is_altered(&self, unit: UnitId) -> Result<bool, Error> {
        let altered = self.raw.is_altered(unit.0).map_err(Error::of)?;
        Ok(altered == 1)
    }

    /// The request of a slice of a valid unit, from 0 on.
    pub fn unit_request(&self, unit: UnitId, slice: usize) -> Result<Request, Error> {
        self.raw.unit_request(unit.0, slice).map_err(Error::of)
    }

    /// The weights of a slice of a valid unit; none where it has none.
    pub fn unit_weights(&self, unit: UnitId, slice: usize) -> Result<Option<PredWeights>, Error> {
        unless(sys::CUPDAISY_NO_WEIGHTS, self.raw.unit_weights(unit.0, slice))
    }

    /// The bytes of a slice of a valid unit: its NAL unit after a start code of three bytes.
    pub fn unit_bytes(&self, unit: UnitId, slice: usize) -> Result<Vec<u8>, Error> {
        self.raw.unit_bytes(unit.0, slice).map_err(Error::of)
    }

    /// The request of a valid unit's whole picture, for a decoder that takes one for all slices.
    pub fn unit_frame(&self, unit: UnitId) -> Result<Frame, Error> {
        self.raw.unit_frame(unit.0).map_err(Error::of)
    }

    /// The bytes of all slices of a valid unit, each after its start code; or those of its only slice, without it
    /// ([`Error::SeveralSlices`]).
    pub fn unit_frame_bytes(&self, unit: UnitId, start_codes: bool) -> Result<Vec<u8>, Error> {
        self.raw.unit_frame_bytes(unit.0, start_codes).map_err(Error::of)
    }

    /// The accepted edits, those of a group as one entry.
    pub fn journal(&self) -> Result<Vec<Vec<JournalEdit>>, Error> {
        let entries = self.raw.journal().map_err(Error::of)?;
        (0..entries).map(|entry| self.journal_entry(entry)).collect()
    }

    /// An entry of the journal, from 0 on.
    pub fn journal_entry(&self, entry: usize) -> Result<Vec<JournalEdit>, Error> {
        let edits = self.raw.journal_entry(entry).map_err(Error::of)?;
        let edit = |index| {
            let told = self.raw.journal_edit_at(entry, index)?;
            Ok(JournalEdit::of(told.kind, told.id, self.raw.journal_text(entry, index)?))
        };
        (0..edits).map(|index| edit(index).map_err(Error::of)).collect()
    }
}

/// Pictures. A job of another session is none that is out ([`Error::NoSuchJob`]).
impl<T> Session<T> {
    /// The surface with the picture of a unit as the stream is now; none where there is none now.
    pub fn show(&self, unit: UnitId) -> Option<&T> {
        self.surfaces.get(self.raw.show(unit.0).ok()?)
    }

    /// The same, and why there is none.
    pub fn shown(&self, unit: UnitId) -> Result<Shown<'_, T>, Error> {
        match self.raw.show(unit.0) {
            Ok(surface) => Ok(self.surfaces.get(surface).map_or(Shown::Pending, Shown::Ready)),
            Err(sys::CUPDAISY_PENDING) => Ok(Shown::Pending),
            Err(sys::CUPDAISY_NO_PICTURE) => Ok(Shown::Empty),
            Err(sys::CUPDAISY_HAS_FAULT) => match self.outcome(unit)? {
                Outcome::Fault(fault) => Ok(Shown::Fault(fault)),
                _ => Ok(Shown::Empty),
            },
            Err(status) => Err(Error::of(status)),
        }
    }

    /// Takes a job: the earliest picture that isn't held and isn't out as a job, and whose references are all held. None where
    /// none is due.
    pub fn take(&mut self) -> Result<Option<Job>, Error> {
        self.taken(self.raw.take())
    }

    /// Takes a job that the picture of this unit needs. None where none is due: while the picture isn't held, only where one
    /// that it needs is out as a job.
    pub fn take_for(&mut self, unit: UnitId) -> Result<Option<Job>, Error> {
        self.taken(self.raw.take_for(unit.0))
    }

    fn taken(&self, told: Result<sys::cupdaisy_job, u32>) -> Result<Option<Job>, Error> {
        let taken = unless(sys::CUPDAISY_NOTHING_DUE, told)?;
        Ok(taken.map(|sys::cupdaisy_job { number, unit }| Job { session: self.number, number, unit: UnitId(unit) }))
    }

    /// The number of a job of this session; 0, which no job has, of one of another.
    fn own(&self, job: &Job) -> u64 {
        if job.session == self.number {
            job.number
        } else {
            0
        }
    }

    /// Lands a job: the host's decoder made this surface's picture of the job's requests and of the surfaces of its references.
    /// Jobs may land in any order, and late.
    pub fn land(&mut self, job: Job, surface: T) -> Result<(), NotLanded<T>> {
        match self.raw.land(self.own(&job), self.surfaces.next()) {
            Ok(()) => {
                self.surfaces.put(surface);
                Ok(())
            }
            Err(status) => Err(NotLanded { error: Error::of(status), surface }),
        }
    }

    /// Gives a job back, so that its picture is given to decode again.
    pub fn give_back(&mut self, job: Job) -> Result<(), Error> {
        self.raw.give_back(self.own(&job)).map_err(Error::of)
    }

    /// What a job is made of, as it was when it was taken.
    pub fn job_input(&self, job: &Job) -> Result<JobInput, Error> {
        self.raw.job_input_of(self.own(job)).map_err(Error::of)
    }

    /// The pictures that a job's requests may refer to.
    pub fn references(&self, job: &Job) -> Result<Vec<Reference<'_, T>>, Error> {
        let count = self.job_input(job)?.references as usize;
        let reference = |index| {
            let told = self.raw.job_reference(self.own(job), index)?;
            Ok(Reference { timestamp: told.timestamp, surface: self.surfaces.get(told.surface) })
        };
        (0..count).map(|index| reference(index).map_err(Error::of)).collect()
    }

    /// The request of a slice of a job, from 0 on.
    pub fn job_request(&self, job: &Job, slice: usize) -> Result<Request, Error> {
        self.raw.job_request(self.own(job), slice).map_err(Error::of)
    }

    /// The weights of a slice of a job; none where it has none.
    pub fn job_weights(&self, job: &Job, slice: usize) -> Result<Option<PredWeights>, Error> {
        unless(sys::CUPDAISY_NO_WEIGHTS, self.raw.job_weights(self.own(job), slice))
    }

    /// The bytes of a slice of a job: its NAL unit after a start code of three bytes.
    pub fn job_bytes(&self, job: &Job, slice: usize) -> Result<Vec<u8>, Error> {
        self.raw.job_bytes(self.own(job), slice).map_err(Error::of)
    }

    /// The request of a job's whole picture, for a decoder that takes one for all slices.
    pub fn job_frame(&self, job: &Job) -> Result<Frame, Error> {
        self.raw.job_frame(self.own(job)).map_err(Error::of)
    }

    /// The bytes of all slices of a job, each after its start code; or those of its only slice, without it
    /// ([`Error::SeveralSlices`]).
    pub fn job_frame_bytes(&self, job: &Job, start_codes: bool) -> Result<Vec<u8>, Error> {
        self.raw.job_frame_bytes(self.own(job), start_codes).map_err(Error::of)
    }

    /// The surface of a unit's picture, which is the host's again: the picture isn't held any more, and has to be made anew. Units
    /// that are made alike share it. None where it isn't held.
    pub fn drop_picture(&mut self, unit: UnitId) -> Result<Option<T>, Error> {
        let dropped = unless(sys::CUPDAISY_NOT_HELD, self.raw.drop_picture(unit.0))?;
        Ok(dropped.and_then(|surface| self.surfaces.take(surface)))
    }

    /// The same of the picture that was cached first. None where none is cached.
    pub fn uncache(&mut self) -> Option<T> {
        self.surfaces.take(self.raw.uncache().ok()?)
    }

    /// The surfaces that edits let go and that no job which is out refers to: they are the host's again. Those that aren't
    /// asked for stay.
    pub fn released(&mut self) -> impl Iterator<Item = T> + '_ {
        iter::from_fn(|| self.raw.released()).filter_map(|surface| self.surfaces.take(surface))
    }
}
