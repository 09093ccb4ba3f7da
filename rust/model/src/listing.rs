//! The listing of a recording (01, "Figures to check against").

use crate::fault::Fault;
use crate::frame::{DATA_OCTETS, VOICE_OCTETS};
use crate::reader::{BlockAnswer, ReaderState, Standing, Verdict};
use crate::recording::{self, Step, Walk};

/// The whole listing; every line ends with a newline (L2).
pub fn listing(recording: &[u8]) -> String {
    listing_with(Fault::None, recording)
}

pub(crate) fn listing_with(fault: Fault, recording: &[u8]) -> String {
    match recording::search(recording, 0) {
        Ok(place) => format!("found {place}\n{}", walk_lines(fault, recording, place)),
        Err(refusal) => format!("none {}\n", refusal.number()),
    }
}

fn walk_lines(fault: Fault, recording: &[u8], place: usize) -> String {
    let mut walk = Walk::new(recording, place);
    let mut state = ReaderState::FRESH;
    let (mut voice, mut data) = ([0; VOICE_OCTETS], [0; DATA_OCTETS]);
    let mut count = 0;
    let mut lines = String::new();
    loop {
        // The search has judged the recording, and the state and buffers are this function's own.
        let step = walk.step_with(fault, &mut state, &mut voice, &mut data).expect("no row can refuse this step");
        match step {
            Step::Block(answer) => {
                lines += &format!("{count} {}\n", block_line(answer));
                count += 1;
            }
            Step::Place(place) => lines += &format!("found {place}\n"),
            Step::End(left) => return lines + &format!("left {left}\n"),
        }
    }
}

fn block_line(answer: BlockAnswer) -> String {
    let standing = standing_name(answer.standing);
    let verdict = verdict_name(answer.verdict);
    match answer.word.code() {
        Some(code) => format!("{standing} {verdict} {code:02X}"),
        None => format!("{standing} {verdict} --"),
    }
}

/// The listing's name of a standing.
pub fn standing_name(standing: Standing) -> &'static str {
    match standing {
        Standing::Waiting => "waiting",
        Standing::Read => "read",
        Standing::Lost => "lost",
    }
}

/// The listing's name of a CRC verdict.
pub fn verdict_name(verdict: Verdict) -> &'static str {
    match verdict {
        Verdict::None => "none",
        Verdict::Good => "good",
        Verdict::Bad => "bad",
    }
}
