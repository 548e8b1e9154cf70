//! A stream is loaded, decoded by a decoder of the program's own, shown, and edited. docs/EMBEDDING.md has the same in other languages.
//!     cargo run --example embed FILE

use std::error::Error;

use cupdaisy::{Job, Session, UnitId};

/// A decoder's surface: here a number in the place of a picture.
struct Surface(u32);

/// Mixes a number into a sum (FNV-1a).
fn mixed(sum: u32, number: u32) -> u32 {
    (sum ^ number).wrapping_mul(0x0100_0193)
}

/// What the decoder makes of the surfaces that a job refers to, and of its bytes.
fn decode(session: &Session<Surface>, job: &Job) -> Result<Surface, cupdaisy::Error> {
    let references = session.references(job)?.into_iter();
    let mut picture =
        references.filter_map(|reference| reference.surface).fold(0, |sum, surface| mixed(sum, surface.0));
    for slice in 0..session.job_input(job)?.slices as usize {
        picture = session.job_bytes(job, slice)?.into_iter().fold(picture, |sum, byte| mixed(sum, byte.into()));
    }
    Ok(Surface(picture))
}

/// Decodes what is missing, and shows all in output order.
fn play(session: &mut Session<Surface>) -> Result<(), Box<dyn Error>> {
    let mut decoded = 0;
    while let Some(job) = session.take()? {
        let surface = decode(session, &job)?;
        session.land(job, surface)?;
        decoded += 1;
    }
    let shown: Vec<_> = session.units_in_output_order().filter_map(|unit| session.show(unit)).collect();
    let sum = shown.iter().fold(0, |sum, surface| mixed(sum, surface.0));
    println!("decoded {decoded}, shown {}, together {sum:08x}", shown.len());
    Ok(())
}

fn main() -> Result<(), Box<dyn Error>> {
    let path = std::env::args().nth(1).ok_or("usage: embed FILE")?;
    let mut session = Session::open(4)?;
    session.load(&std::fs::read(path)?)?;
    play(&mut session)?;
    session.delete(UnitId::new(12))?;
    play(&mut session)?;
    println!("given back {}", session.released().count());
    Ok(())
}
