//! Blocks one after the other to one reader from fresh, which does not search and goes on after a loss.

use super::{reader, unrestricted};
use crate::part::Part;
use crate::subject::Subject;
use crate::told::Told;
use crate::unfit::Unfit;

pub fn tell<S: Subject>(given: &Part) -> Result<Told, Unfit> {
    let [restricted, recording] = given.fields(["restricted", "recording"])?;
    unrestricted(&restricted)?;
    let recording = recording.octets()?;
    let mut reader = S::fresh_reader();
    let blocks = recording.chunks_exact(delampuk::LINE).map(|line| one::<S>(&mut reader, line)).collect();
    Ok(Told::Fields(vec![("blocks", Told::List(blocks))]))
}

fn one<S: Subject>(reader: &mut S::Reader, line: &[u8]) -> Told {
    // the streams are written whole, zeros too
    let (mut voice, mut lsd) = (vec![0xA5; delampuk::VOICE], vec![0xA5; delampuk::LSD]);
    match reader::read::<S>(reader, line, &mut voice, &mut lsd) {
        Ok(block) => Told::Fields(reader::block_told(block, voice, lsd).into()),
        Err(refused) => refused,
    }
}
