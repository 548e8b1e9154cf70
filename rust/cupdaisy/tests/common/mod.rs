//! What the tests share: drawn numbers, the repository's samples, and the stand-in for a decoder that the program has.
#![allow(dead_code)]

pub mod sha256;
pub mod stand_in;

use std::path::{Path, PathBuf};

use cupdaisy::{JournalEdit, Session};

/// Drawn numbers, by xorshift.
pub struct Drawn(u64);

impl Drawn {
    pub fn new(seed: u64) -> Self {
        Drawn(seed.wrapping_mul(0x9E37_79B9_7F4A_7C15) | 1)
    }

    pub fn number(&mut self) -> u64 {
        self.0 ^= self.0 << 13;
        self.0 ^= self.0 >> 7;
        self.0 ^= self.0 << 17;
        self.0
    }

    pub fn below(&mut self, bound: usize) -> usize {
        (self.number() % bound as u64) as usize
    }

    pub fn of<'a, T>(&mut self, from: &'a [T]) -> &'a T {
        &from[self.below(from.len())]
    }
}

/// A file of the repository.
pub fn repository(path: &str) -> PathBuf {
    Path::new(env!("CARGO_MANIFEST_DIR")).join("../..").join(path)
}

/// The texts of a sample's access units.
pub fn units_of(sample: &str) -> Vec<Vec<u8>> {
    let stream = std::fs::read(repository(sample)).unwrap();
    let mut session = Session::<()>::open(1).unwrap();
    session.load(&stream).unwrap();
    let edits = session.journal().unwrap().into_iter().flatten();
    edits
        .map(|edit| match edit {
            JournalEdit::InsertFirst(text) | JournalEdit::InsertAfter(_, text) => text,
            other => panic!("a load has {other:?}"),
        })
        .collect()
}
