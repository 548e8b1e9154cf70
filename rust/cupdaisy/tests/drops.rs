//! Drawn calls over a pool of 24 surfaces: each one that was landed comes back exactly once, or is dropped with the session.

mod common;

use std::cell::RefCell;
use std::collections::HashSet;
use std::rc::Rc;

use common::{repository, units_of, Drawn};
use cupdaisy::{Edit, Error, Job, Session, UnitId};

const SURFACES: usize = 24;

/// How often each surface was dropped.
type Dropped = Rc<RefCell<[u32; SURFACES]>>;

struct Surface {
    number: usize,
    /// The key of the picture that it holds.
    key: u64,
    dropped: Dropped,
}

impl Drop for Surface {
    fn drop(&mut self) {
        self.dropped.borrow_mut()[self.number] += 1;
    }
}

struct Host {
    session: Session<Surface>,
    drawn: Drawn,
    texts: Vec<Vec<u8>>,
    free: Vec<Surface>,
    jobs: Vec<(Job, u64)>,
    landed: usize,
    dropped: Dropped,
}

impl Host {
    fn new(seed: u64, cache: u16, texts: Vec<Vec<u8>>) -> Self {
        let dropped = Dropped::default();
        let surface = |number| Surface { number, key: 0, dropped: Rc::clone(&dropped) };
        Host {
            session: Session::open(cache).unwrap(),
            drawn: Drawn::new(seed),
            texts,
            free: (0..SURFACES).map(surface).collect(),
            jobs: Vec::new(),
            landed: 0,
            dropped: Rc::clone(&dropped),
        }
    }

    fn unit(&mut self) -> UnitId {
        let place = self.drawn.below(self.session.len() + 1);
        self.session.id_at(place).unwrap_or(UnitId::new(0))
    }

    fn edit(&mut self) {
        let (unit, text) = (self.unit(), self.drawn.of(&self.texts).clone());
        // Refusals are answers too.
        let _ = match self.drawn.below(if self.session.len() > 40 { 2 } else { 5 }) {
            0 => self.session.delete(unit),
            1 => self.session.replace(unit, &text),
            2 => self.session.insert_after(unit, &text),
            3 => self.session.insert_first(&text),
            _ => self.session.insert_last(&text),
        };
    }

    fn group(&mut self) {
        let (first, second, text) = (self.unit(), self.unit(), self.drawn.of(&self.texts).clone());
        let edits = [Edit::Delete(first), Edit::InsertAfter(second, &text), Edit::Replace(second, &text)];
        let _ = self.session.group(&edits);
    }

    fn take(&mut self) {
        let unit = self.unit();
        let taken = if self.drawn.below(2) == 0 { self.session.take() } else { self.session.take_for(unit) };
        if let Some(job) = taken.unwrap() {
            let key = self.session.key(job.unit()).unwrap();
            self.jobs.push((job, key));
        }
    }

    /// Lands a job where there is a surface for it, else gives it back.
    fn land(&mut self) {
        if self.jobs.is_empty() {
            return;
        }
        let (job, key) = self.jobs.swap_remove(self.drawn.below(self.jobs.len()));
        let Some(mut surface) = self.free.pop() else {
            return self.session.give_back(job).unwrap();
        };
        surface.key = key;
        match self.session.land(job, surface) {
            Ok(()) => self.landed += 1,
            Err(back) => {
                assert_eq!(back.error, Error::Stale);
                self.free.push(back.surface);
            }
        }
    }

    /// What is shown of a unit has the picture of its key.
    fn show(&mut self) {
        let unit = self.unit();
        if let Some(surface) = self.session.show(unit) {
            assert_eq!(Ok(surface.key), self.session.key(unit));
        }
    }

    fn step(&mut self) {
        match self.drawn.below(24) {
            0..=3 => self.edit(),
            4 => self.group(),
            5..=11 => self.take(),
            12..=17 => self.land(),
            18..=20 => self.show(),
            21 => {
                let unit = self.unit();
                let dropped = self.session.drop_picture(unit);
                self.free.extend(dropped.unwrap_or(None));
            }
            22 => self.free.extend(self.session.uncache()),
            _ => {
                let some = self.drawn.below(4);
                self.free.extend(self.session.released().take(some));
            }
        }
        assert_eq!(self.free.len() + self.session.surfaces(), SURFACES);
    }

    /// No surface is anywhere twice, or was dropped.
    fn check(&self) {
        let numbers: HashSet<_> = self.free.iter().map(|surface| surface.number).collect();
        assert_eq!(numbers.len(), self.free.len());
        assert_eq!(*self.dropped.borrow(), [0; SURFACES]);
    }
}

#[test]
fn each_surface_comes_back_once() {
    let texts: Vec<_> = ["samples/clock.264", "samples/cuts.264"].into_iter().flat_map(units_of).collect();
    // How many calls each session gets: fewer where each takes longer.
    let steps = std::env::var("CUPDAISY_STEPS").map_or(10_000, |steps| steps.parse().unwrap());
    let (mut landed, mut held) = (0, 0);
    for (seed, cache) in [(1, 1), (2, 2), (3, 8), (4, 64), (5, 4096), (6, 3)] {
        let mut host = Host::new(seed, cache, texts.clone());
        host.session.load(&std::fs::read(repository("samples/clock.264")).unwrap()).unwrap();
        for _ in 0..steps {
            host.step();
        }
        host.check();
        landed += host.landed;
        held += host.session.surfaces();
        let Host { session, free, dropped, .. } = host;
        if seed % 2 == 0 {
            let numbers: HashSet<_> = session.close().chain(free).map(|surface| surface.number).collect();
            assert_eq!(numbers.len(), SURFACES);
        } else {
            drop(session);
            drop(free);
        }
        assert_eq!(*dropped.borrow(), [1; SURFACES]);
    }
    assert!(landed > steps / 10 && held > 0, "{landed} surfaces were landed, and {held} held at the end");
}

/// A session that goes from thread to thread has its surfaces with it.
#[test]
fn a_session_goes_to_another_thread() {
    let mut session = Session::open(4).unwrap();
    session.load(&std::fs::read(repository("samples/clock.264")).unwrap()).unwrap();
    let job = session.take().unwrap().unwrap();
    let (unit, mut session) = std::thread::spawn(move || {
        let unit = job.unit();
        session.land(job, String::from("made elsewhere")).unwrap();
        (unit, session)
    })
    .join()
    .unwrap();
    assert_eq!(session.show(unit).map(String::as_str), Some("made elsewhere"));
    assert_eq!(session.drop_picture(unit), Ok(Some(String::from("made elsewhere"))));
    assert_eq!(session.drop_picture(unit), Ok(None));
    assert_eq!(session.drop_picture(UnitId::new(9999)), Err(Error::NoSuchUnit));
}

/// A picture that was taken back while a job refers to it is no surface of the job's any more, whatever is landed later.
#[test]
fn a_reference_that_was_taken_back_is_told() {
    let mut session = Session::open(4).unwrap();
    session.load(&std::fs::read(repository("samples/clock.264")).unwrap()).unwrap();
    let first = session.take().unwrap().unwrap();
    let unit = first.unit();
    session.land(first, 1).unwrap();
    let second = session.take().unwrap().unwrap();
    let surfaces = |session: &Session<_>, job: &Job| -> Vec<Option<i32>> {
        session.references(job).unwrap().into_iter().map(|reference| reference.surface.copied()).collect()
    };
    assert_eq!(surfaces(&session, &second), [Some(1)]);
    assert_eq!(session.drop_picture(unit), Ok(Some(1)));
    let again = session.take().unwrap().unwrap();
    assert_eq!(again.unit(), unit);
    session.land(again, 2).unwrap();
    assert_eq!(surfaces(&session, &second), [None]);
    session.give_back(second).unwrap();
    assert_eq!(session.close().collect::<Vec<_>>(), [2]);
}

/// What isn't landed is the caller's again; a job is of one session, also where another has one of its number.
#[test]
fn a_job_of_another_session_is_refused() {
    let stream = std::fs::read(repository("samples/clock.264")).unwrap();
    let (mut own, mut other) = (Session::<String>::open(1).unwrap(), Session::open(1).unwrap());
    own.load(&stream).unwrap();
    other.load(&stream).unwrap();
    let (first, same) = (own.take().unwrap().unwrap(), other.take().unwrap().unwrap());
    assert_eq!((first.number(), first.unit()), (same.number(), same.unit()));
    assert_eq!(other.job_input(&first).unwrap_err(), Error::NoSuchJob);
    let back = other.land(first, String::from("a surface")).unwrap_err();
    assert_eq!((back.error, back.surface.as_str()), (Error::NoSuchJob, "a surface"));
    assert_eq!(back.to_string(), "no job of the number is out");
    assert_eq!(own.give_back(same), Err(Error::NoSuchJob));
    assert_eq!((own.surfaces(), other.surfaces()), (0, 0));
}

#[test]
fn what_is_refused_is_told() {
    assert_eq!(Session::<()>::open(0).err(), Some(Error::CacheRange));
    let mut session = Session::<()>::open(1).unwrap();
    let refused = session.load(b"no stream").unwrap_err();
    assert_eq!((refused.error, refused.index, refused.units), (Error::Split, 0, 0));
    assert_eq!(refused.to_string(), "access unit 0: the text is no byte stream of H.264 (Annex B)");
    assert_eq!(session.insert_last(&[]), Err(Error::Split));
    assert_eq!(session.outcome(UnitId::new(1)), Err(Error::NoSuchUnit));
    assert_eq!(format!("{session:?}"), "Session { units: 0, surfaces: 0, .. }");
}

/// The journal gives the same stream again, as one group.
#[test]
fn the_journal_is_made_again() {
    let mut session = Session::<()>::open(1).unwrap();
    session.load(&std::fs::read(repository("samples/clock.264")).unwrap()).unwrap();
    session.delete(UnitId::new(3)).unwrap();
    let journal: Vec<_> = session.journal().unwrap().into_iter().flatten().collect();
    let edits: Vec<_> = journal.iter().map(|edit| edit.as_edit()).collect();
    let mut again = Session::<()>::open(1).unwrap();
    let group = again.group(&edits).unwrap();
    assert_eq!(group.units.len(), 13);
    assert_eq!(again.units().collect::<Vec<_>>(), session.units().collect::<Vec<_>>());
    for unit in session.units() {
        assert_eq!(again.outcome(unit), session.outcome(unit));
    }
    let refused = again.group(&[Edit::Delete(UnitId::new(1)), Edit::Delete(UnitId::new(1))]).unwrap_err();
    assert_eq!((refused.error, refused.index), (Error::NoSuchUnit, Some(1)));
    assert_eq!(again.group(&[]).unwrap_err().index, None);
    assert_eq!(again.len(), 11);
}
