//! Drawn edits and jobs, each answer held against what the program `preview` prints of the same as a script, pictures too.
//!
//! PREVIEW in the environment names the program; bin/preview finds it otherwise.

mod common;

use std::cell::Cell;
use std::collections::HashMap;
use std::fmt::Write as _;
use std::fs;
use std::process::Command;
use std::rc::Rc;

use common::stand_in::{picture, Digest};
use common::{repository, units_of, Drawn};
use cupdaisy::{mend, Doubt, Edit, Error, Job, LeftOut, Mended, Outcome, Plan, Request, Session, Shown, UnitId, Why};

const SAMPLES: [&str; 4] = ["samples/clock.264", "samples/bframes.264", "samples/cuts.264", "samples/zoom.264"];

/// A surface of the stand-in's, which counts itself.
struct Surface {
    digest: Digest,
    alive: Rc<Cell<usize>>,
}

impl Surface {
    fn new(digest: Digest, alive: &Rc<Cell<usize>>) -> Self {
        alive.set(alive.get() + 1);
        Surface { digest, alive: Rc::clone(alive) }
    }
}

impl Drop for Surface {
    fn drop(&mut self) {
        self.alive.set(self.alive.get() - 1);
    }
}

fn hex(bytes: &[u8]) -> String {
    bytes.iter().fold(String::new(), |mut text, byte| {
        write!(text, "{byte:02x}").unwrap();
        text
    })
}

fn refusal(error: Error) -> String {
    format!("refused {} {}", error.number(), error.name())
}

/// An edit.
enum Drew {
    First(Vec<u8>),
    Last(Vec<u8>),
    After(UnitId, Vec<u8>),
    Delete(UnitId),
    Replace(UnitId, Vec<u8>),
}

/// A session, the script of what it was asked, and its answers as the program prints them.
struct Run {
    session: Session<Surface>,
    drawn: Drawn,
    texts: Vec<Vec<u8>>,
    /// The text of each unit, but for what groups gave.
    given: HashMap<UnitId, Vec<u8>>,
    /// What undoes the last edit.
    undo: Option<Drew>,
    jobs: Vec<Job>,
    alive: Rc<Cell<usize>>,
    script: String,
    answers: String,
}

impl Run {
    fn new(seed: u64, texts: Vec<Vec<u8>>) -> Self {
        Run {
            session: Session::open(4096).unwrap(),
            drawn: Drawn::new(seed),
            texts,
            given: HashMap::new(),
            undo: None,
            jobs: Vec::new(),
            alive: Rc::new(Cell::new(0)),
            script: String::new(),
            answers: String::new(),
        }
    }

    fn tell(&mut self, line: String, answer: String) {
        writeln!(self.script, "{line}").unwrap();
        writeln!(self.answers, "{answer}").unwrap();
    }

    /// A unit of the stream, or now and then an id that none has.
    fn unit(&mut self) -> UnitId {
        let count = self.session.len();
        if count == 0 || self.drawn.below(20) == 0 {
            return UnitId::new(*self.drawn.of(&[0, 9999, u32::MAX]));
        }
        self.session.id_at(self.drawn.below(count)).unwrap()
    }

    /// A unit's text, now and then damaged or cut.
    fn text(&mut self) -> Vec<u8> {
        let mut text = self.drawn.of(&self.texts).clone();
        if self.drawn.below(8) == 0 {
            let place = self.drawn.below(text.len());
            text[place] = self.drawn.number() as u8;
            text.truncate(*self.drawn.of(&[text.len(), text.len(), place + 1]));
        }
        text
    }

    fn edit(&mut self) {
        let edit = self.undo.take().filter(|_| self.drawn.below(3) > 0).unwrap_or_else(|| self.drawn_edit());
        let before = self.place_of(&edit);
        let (line, told) = match &edit {
            Drew::First(text) => (format!("insert first {}", hex(text)), self.session.insert_first(text)),
            Drew::Last(text) => match self.session.len().checked_sub(1) {
                Some(place) => {
                    let last = self.session.id_at(place).unwrap();
                    (format!("insert after {last} {}", hex(text)), self.session.insert_last(text))
                }
                None => (format!("insert first {}", hex(text)), self.session.insert_last(text)),
            },
            Drew::After(unit, text) => {
                (format!("insert after {unit} {}", hex(text)), self.session.insert_after(*unit, text))
            }
            Drew::Delete(unit) => (format!("delete {unit}"), self.session.delete(*unit)),
            Drew::Replace(unit, text) => (format!("replace {unit} {}", hex(text)), self.session.replace(*unit, text)),
        };
        let answer = match told {
            Ok(receipt) => {
                self.undo = self.undoing(edit, receipt.unit, before);
                format!("edit {} id {}", receipt.number, receipt.unit)
            }
            Err(error) => refusal(error),
        };
        self.tell(line, answer);
    }

    fn drawn_edit(&mut self) -> Drew {
        let (unit, text) = (self.unit(), self.text());
        match self.drawn.below(if self.session.len() > 24 { 3 } else { 7 }) {
            0 | 1 => Drew::Delete(unit),
            2 => Drew::Replace(unit, text),
            3 | 4 => Drew::After(unit, text),
            5 => Drew::Last(text),
            _ => Drew::First(text),
        }
    }

    /// The unit in front of the one that an edit takes the place of.
    fn place_of(&self, edit: &Drew) -> Option<UnitId> {
        let (Drew::Delete(unit) | Drew::Replace(unit, _)) = edit else { return None };
        self.session.id_at(self.session.place(*unit).ok()?.checked_sub(1)?)
    }

    /// The edit that undoes one; notes which text each unit has.
    fn undoing(&mut self, edit: Drew, unit: UnitId, before: Option<UnitId>) -> Option<Drew> {
        match edit {
            Drew::First(text) | Drew::Last(text) | Drew::After(_, text) => {
                self.given.insert(unit, text);
                Some(Drew::Delete(unit))
            }
            Drew::Replace(unit, text) => self.given.insert(unit, text).map(|former| Drew::Replace(unit, former)),
            Drew::Delete(unit) => self.given.remove(&unit).map(|former| match before {
                Some(before) => Drew::After(before, former),
                None => Drew::First(former),
            }),
        }
    }

    fn group(&mut self) {
        let asked: Vec<_> = (0..self.drawn.below(5)).map(|_| (self.drawn.below(3), self.unit(), self.text())).collect();
        let mut script = String::from("group\n");
        let mut edits = Vec::new();
        for (kind, unit, text) in &asked {
            let (line, edit) = match kind {
                0 => (format!("delete {unit}"), Edit::Delete(*unit)),
                1 => (format!("replace {unit} {}", hex(text)), Edit::Replace(*unit, text)),
                _ => (format!("insert after {unit} {}", hex(text)), Edit::InsertAfter(*unit, text)),
            };
            writeln!(script, "{line}").unwrap();
            edits.push(edit);
        }
        let answer = match self.session.group(&edits) {
            Ok(group) => {
                let ids = group.units.iter().map(|unit| format!(" {unit}")).collect::<String>();
                format!("group {} ids{ids}", group.number)
            }
            Err(refused) => match refused.index {
                Some(index) => {
                    format!("group refused at {index} {} {}", refused.error.number(), refused.error.name())
                }
                None => format!("group {}", refusal(refused.error)),
            },
        };
        self.tell(script + "end", answer);
    }

    fn load(&mut self) {
        let sample = *self.drawn.of(&SAMPLES);
        let path = fs::canonicalize(repository(sample)).unwrap();
        let loaded = self.session.load(&fs::read(&path).unwrap()).unwrap();
        for (id, text) in (loaded.first.number()..).zip(units_of(sample)) {
            self.given.insert(UnitId::new(id), text);
        }
        self.tell(format!("load {}", path.display()), format!("loaded {}", loaded.units));
    }

    fn take(&mut self) {
        if self.drawn.below(2) == 0 {
            let taken = self.session.take();
            self.taken(String::from("take"), taken);
        } else {
            let unit = self.unit();
            let taken = self.session.take_for(unit);
            self.taken(format!("take {unit}"), taken);
        }
    }

    /// Whether a job was taken.
    fn taken(&mut self, line: String, taken: Result<Option<Job>, Error>) -> bool {
        let Some(job) = taken.unwrap() else {
            self.tell(line, String::from("job none"));
            return false;
        };
        self.tell(line, format!("job {} unit {}", job.number(), job.unit()));
        self.jobs.push(job);
        true
    }

    /// Takes and lands what a unit needs, and shows it.
    fn settle_for(&mut self) {
        let unit = self.unit();
        for _ in 0..40 {
            let taken = self.session.take_for(unit);
            if !self.taken(format!("take {unit}"), taken) {
                break;
            }
            self.land_at(self.jobs.len() - 1);
        }
        self.show_unit(unit);
    }

    /// Lands a job, or gives it back; it has to go back where a picture that it refers to is the host's again.
    fn land(&mut self) {
        if self.jobs.is_empty() {
            return self.tell(String::from("land 99999"), String::from("land 99999 none"));
        }
        let index = self.drawn.below(self.jobs.len());
        self.land_at(index);
    }

    fn land_at(&mut self, index: usize) {
        let job = self.jobs.swap_remove(index);
        let number = job.number();
        let made = picture(&self.session, &job, |surface| surface.digest);
        let Some(digest) = made.filter(|_| self.drawn.below(5) > 0) else {
            self.session.give_back(job).unwrap();
            return self.tell(format!("give {number}"), format!("give {number} back"));
        };
        let answer = match self.session.land(job, Surface::new(digest, &self.alive)) {
            Ok(()) => "taken",
            Err(back) => {
                assert_eq!((back.error, back.surface.digest), (Error::Stale, digest));
                "stale"
            }
        };
        self.tell(format!("land {number}"), format!("land {number} {answer}"));
    }

    fn show(&mut self) {
        let unit = self.unit();
        self.show_unit(unit);
    }

    fn show_unit(&mut self, unit: UnitId) {
        let answer = match self.session.shown(unit) {
            Ok(Shown::Ready(surface)) => format!("ready {}", hex(&surface.digest)),
            Ok(Shown::Pending) => String::from("pending"),
            Ok(Shown::Fault(fault)) => format!("fault {} {}", fault.number(), fault.name()),
            Ok(Shown::Empty) => String::from("empty"),
            Err(error) => {
                assert_eq!(error, Error::NoSuchUnit);
                String::from("none")
            }
        };
        assert_eq!(self.session.show(unit).is_some(), answer.starts_with("ready"));
        self.tell(format!("show {unit}"), format!("show {unit} {answer}"));
    }

    fn drop_picture(&mut self) {
        let unit = self.unit();
        let answer = match self.session.drop_picture(unit) {
            Ok(Some(_)) => "dropped",
            Ok(None) => "not held",
            Err(_) => "none",
        };
        self.tell(format!("drop {unit}"), format!("drop {unit} {answer}"));
    }

    fn clear(&mut self) {
        while self.session.uncache().is_some() {}
        self.tell(String::from("clear"), String::from("cleared"));
    }

    fn unit_lines(&mut self) {
        let unit = self.unit();
        let answer = match self.session.outcome(unit) {
            Ok(Outcome::Plan(plan)) => self.plan_lines(unit, plan),
            Ok(Outcome::Fault(fault)) => format!("unit {unit} fault {} {}", fault.number(), fault.name()),
            Ok(Outcome::Empty) => format!("unit {unit} no picture"),
            Err(_) => format!("unit {unit} none"),
        };
        self.tell(format!("unit {unit}"), answer);
    }

    fn plan_lines(&self, unit: UnitId, plan: Plan) -> String {
        let position = self.session.position(unit).unwrap();
        assert_eq!(self.session.unit_at(position), Some(unit));
        let (top, bottom) = (plan.top, plan.bottom);
        let mut lines = format!("unit {unit} position {position} counts {top} {bottom} requests {}", plan.slices);
        for slice in 0..plan.slices {
            let request = self.session.unit_request(unit, slice).unwrap();
            write!(lines, "\n{}", request_line(unit, slice, &request)).unwrap();
        }
        lines
    }

    fn step(&mut self) {
        match self.drawn.below(40) {
            0..=10 => self.edit(),
            11 if self.drawn.below(3) == 0 => self.group(),
            12 if self.session.len() < 24 => self.load(),
            11..=20 => self.take(),
            21..=28 => self.land(),
            29..=31 => self.show(),
            32..=33 => self.settle_for(),
            34..=36 => self.unit_lines(),
            37..=38 => self.drop_picture(),
            _ => self.clear(),
        }
    }
}

/// The line of a request, as `preview plan` prints it.
fn request_line(unit: UnitId, slice: usize, request: &Request) -> String {
    let params = &request.slice_params;
    let joined = |words: Vec<String>| if words.is_empty() { String::from("-") } else { words.join(",") };
    let valid = request.decode_params.dpb.iter().filter(|entry| entry.flags & 1 != 0);
    let frames = valid.map(|entry| format!("{}:{}:{}", entry.reference_ts, entry.pic_num as i32, entry.flags));
    let list = |is_used: bool, last: u8, list: &[cupdaisy::sys::v4l2::v4l2_h264_reference]| {
        let active = if is_used { usize::from(last) + 1 } else { 0 };
        let entry = |entry: &cupdaisy::sys::v4l2::v4l2_h264_reference| match entry.fields {
            0 => String::from("x"),
            _ => entry.index.to_string(),
        };
        joined(list[..active].iter().map(entry).collect())
    };
    format!(
        "request {unit}.{slice} ts {} bits {} type {} frame {} dpb {} l0 {} l1 {} hold {}",
        request.timestamp,
        params.header_bit_size,
        params.slice_type,
        request.decode_params.frame_num,
        joined(frames.collect()),
        list(params.slice_type != 2, params.num_ref_idx_l0_active_minus1, &params.ref_pic_list0),
        list(params.slice_type == 1, params.num_ref_idx_l1_active_minus1, &params.ref_pic_list1),
        request.hold
    )
}

/// What the program prints of a script.
fn printed(script: &str, name: &str) -> String {
    let program = std::env::var_os("PREVIEW").unwrap_or_else(|| repository("bin/preview").into());
    let path = std::env::temp_dir().join(format!("cupdaisy-{}-{name}.script", std::process::id()));
    fs::write(&path, script).unwrap();
    let ran = Command::new(program).args(["run", "--hex", "--cache", "4096"]).arg(&path).output().unwrap();
    fs::remove_file(&path).unwrap();
    assert!(ran.status.success(), "{}", String::from_utf8_lossy(&ran.stderr));
    String::from_utf8(ran.stdout).unwrap()
}

#[test]
fn the_program_answers_alike() {
    let texts: Vec<_> = SAMPLES.iter().flat_map(|sample| units_of(sample)).collect();
    let mut ready = 0;
    for seed in 1..=12 {
        let mut run = Run::new(seed, texts.clone());
        run.load();
        (0..400).for_each(|_| run.step());
        let wanted = printed(&run.script, &seed.to_string());
        for (line, (found, wanted)) in run.answers.lines().zip(wanted.lines()).enumerate() {
            assert_eq!(found, wanted, "line {line} of seed {seed}");
        }
        assert_eq!(run.answers, wanted, "seed {seed}");
        ready += run.answers.matches(" ready ").count();
        assert_eq!(run.alive.get(), run.session.surfaces(), "seed {seed}");
        drop(run.session);
        assert_eq!(run.alive.get(), 0, "seed {seed}");
    }
    assert!(ready > 100, "only {ready} pictures were shown");
}

#[test]
fn a_whole_stream_is_shown_as_the_program_shows_it() {
    for sample in SAMPLES {
        let path = fs::canonicalize(repository(sample)).unwrap();
        let mut session = Session::open(16).unwrap();
        let loaded = session.load(&fs::read(&path).unwrap()).unwrap();
        while let Some(job) = session.take().unwrap() {
            let digest = picture(&session, &job, |digest| *digest).unwrap();
            session.land(job, digest).unwrap();
        }
        let mut script = format!("load {}\nsettle\n", path.display());
        let mut shown = format!("loaded {}\nsettled\n", loaded.units);
        for unit in session.units() {
            writeln!(script, "show {unit}").unwrap();
            let digest = session.show(unit).map(|digest| hex(digest)).unwrap_or_default();
            writeln!(shown, "show {unit} ready {digest}").unwrap();
        }
        assert_eq!(printed(&script, &sample.replace('/', "-")), shown, "{sample}");
    }
}

const PICTURE: &[u8] =
    &[0, 0, 1, 0x67, 0x42, 0, 10, 0xDA, 0x79, 0, 0, 1, 0x68, 0xCE, 0x38, 0x80, 0, 0, 1, 0x65, 0x88, 0x84, 0x80];

#[test]
fn a_damaged_text_is_mended() {
    let later: &[u8] = &[0, 0, 1, 0x41, 0x5A];
    let text = [&[0xAB, 0], PICTURE, &[0, 0, 1, 0x6E, 0x40, 0x80].repeat(20), later].concat();
    let whole = [&[0], PICTURE, &[0, 0, 1, 0x09, 0xF0], later].concat();
    let mended = mend(&text).unwrap();
    assert_eq!((&mended.bytes, mended.left_out.len()), (&whole, 21));
    assert_eq!(mended.left_out[0], LeftOut { byte: 0, bytes: 1, why: Why::NotNalUnit, unit_type: None });
    assert_eq!(mended.left_out[20], LeftOut { byte: 139, bytes: 6, why: Why::UnitType, unit_type: Some(14) });
    assert_eq!(mend(&whole).unwrap(), Mended { bytes: whole.clone(), left_out: vec![] });
    assert_eq!(mend(&[]).unwrap(), Mended { bytes: vec![], left_out: vec![] });
    let mut session = Session::<()>::open(16).unwrap();
    assert_eq!(session.load(&text).map_err(|refused| refused.error), Err(Error::Split));
    assert_eq!(session.load(&mended.bytes).unwrap().units, 2);
}

#[test]
fn units_behind_a_damage_are_told() {
    let mut session = Session::<()>::open(16).unwrap();
    session.insert_last(PICTURE).unwrap();
    let gap = session.insert_last(&[0, 0, 1, 0x41, 0x9A, 0x43]).unwrap().unit;
    session.insert_last(&[0, 0, 1, 0x41, 0x9A, 0x23]).unwrap();
    let none = Doubt { follows: None, in_doubt: false };
    let fits = Doubt { follows: Some(gap), in_doubt: true };
    assert_eq!(session.doubts(0, 9).unwrap(), [none, none, fits]);
    assert_eq!(session.doubts(2, 1).unwrap(), [fits]);
    assert_eq!(session.doubts(3, 9).unwrap(), []);
}
