//! `model read`: each step of a walk over standard input, with the state and the octets that it hands out.

use std::io::{self, BufWriter, Write};

use super::{recording, written, Options};
use model::codes::{self, Mode};
use model::frame::{self, Owner, DATA_OCTETS, VOICE_OCTETS};
use model::reader::{ReaderState, Standing};
use model::recording::{search, Step, Walk};
use model::text;

/// Runs the command.
pub fn run(options: Options) -> Result<(), String> {
    options.none()?;
    let recording = recording()?;
    let mut out = BufWriter::new(io::stdout().lock());
    written(print(&mut out, &recording).and_then(|()| out.flush()))
}

fn print(out: &mut impl Write, recording: &[u8]) -> io::Result<()> {
    let place = match search(recording, 0) {
        Ok(place) => place,
        Err(refusal) => return writeln!(out, "none {}", refusal.number()),
    };
    writeln!(out, "found {place}")?;
    let mut walk = Walk::new(recording, place);
    let mut state = ReaderState::FRESH;
    let (mut voice, mut data) = ([0; VOICE_OCTETS], [0; DATA_OCTETS]);
    loop {
        let mode = state.mode;
        match walk.step(&mut state, &mut voice, &mut data) {
            Ok(Step::Block(answer)) => {
                writeln!(out, "block {}", text::block_answer(answer))?;
                if answer.standing == Standing::Read {
                    print_streams(out, mode, &voice, &data)?;
                }
                writeln!(out, "  state {}", text::reader_state(&state))?;
            }
            Ok(Step::Place(place)) => writeln!(out, "found {place}")?,
            Ok(Step::End(left)) => return writeln!(out, "left {left}"),
            Err(refusal) => return writeln!(out, "refused {}", refusal.number()),
        }
    }
}

/// The octets that count under the mode that cut the block.
fn print_streams(out: &mut impl Write, mode: Mode, voice: &[u8], data: &[u8]) -> io::Result<()> {
    let voice_octets = 20 * codes::width(mode.audio).unwrap_or(0);
    let data_bits = frame::places().filter(|place| frame::owner(mode, place.octet, place.bit) == Owner::Data).count();
    let data_octets = data_bits.div_ceil(8);
    writeln!(out, "  voice {}", text::octets(&voice[..voice_octets]))?;
    writeln!(out, "  data {}", text::octets(&data[..data_octets]))
}
