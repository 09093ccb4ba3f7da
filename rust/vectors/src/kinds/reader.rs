//! One reading call on a state, in range or forged.

use super::refused;
use crate::part::Part;
use crate::states::Reader;
use crate::subject::{Block, Subject};
use crate::told::Told;
use crate::unfit::Unfit;

/// The octets of the buffers that only later requests write to: more data, and a message as it is collected.
const LATER: [usize; 2] = [2, 255];

pub fn tell<S: Subject>(given: &Part) -> Result<Told, Unfit> {
    let [state, line, voice, lsd, ecs, collect] = given.fields(["state", "line", "voice", "data", "ecs", "collect"])?;
    ecs.later_buffer(LATER[0])?;
    collect.later_buffer(LATER[1])?;
    let line = line.octets()?;
    let (mut voice, mut lsd) = (voice.octets()?, lsd.octets()?);
    let mut reader = forged::<S>(&state)?;
    Ok(match read::<S>(&mut reader, &line, &mut voice, &mut lsd) {
        Ok(block) => {
            let mut fields = vec![("after", S::reader_state(&reader).told())];
            fields.extend(block_told(block, voice, lsd));
            Told::Fields(fields)
        }
        Err(refused) => refused,
    })
}

/// A reader in the state that a case has, to the last number.
fn forged<S: Subject>(part: &Part) -> Result<S::Reader, Unfit> {
    let state = Reader::read(part)?;
    let reader = S::forged_reader(&state);
    match S::reader_state(&reader) {
        held if held == state => Ok(reader),
        held => Err(part.unfit(&format!("cannot be held by the {}, which has {held:?}", S::NAME))),
    }
}

/// Reads. A refusal has to leave the state and both buffers as they were.
pub fn read<S: Subject>(reader: &mut S::Reader, line: &[u8], voice: &mut [u8], lsd: &mut [u8]) -> Result<Block, Told> {
    let before = (S::reader_state(reader), voice.to_vec(), lsd.to_vec());
    S::read(reader, line, voice, lsd).map_err(|number| {
        let state = S::reader_state(reader) == before.0;
        refused(number, [("state", state), ("voice", voice == before.1), ("data", lsd == before.2)])
    })
}

/// The answer to a block and its streams, as cases of two kinds have them.
pub fn block_told(block: Block, voice: Vec<u8>, lsd: Vec<u8>) -> [(&'static str, Told); 6] {
    [
        ("state", Told::from(block.standing)),
        ("crc", Told::from(block.verdict)),
        ("word", Told::from(block.word)),
        ("code", Told::from(block.code)),
        ("voice", Told::Octets(voice)),
        ("data", Told::Octets(lsd)),
    ]
}
