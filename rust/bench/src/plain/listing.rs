//! The listing of a recording (01, "Figures to check against").

use std::io::Write;

use super::reader;
use super::search::search;
use crate::forms::{self, BlockAnswer, LINE, LSD, VOICE};

const STANDINGS: [&str; 3] = ["waiting", "read", "lost"];
const VERDICTS: [&str; 3] = ["none", "good", "bad"];
const LOST: u8 = 2;
const FIRST_WITHOUT_CODE: u8 = 5;

/// Writes the listing into a text that has room for it, and answers its length.
pub fn list(recording: &[u8], text: &mut [u8]) -> usize {
    let room = text.len();
    let mut rest = text;
    write_listing(recording, &mut rest).expect("the text has room for a listing");
    room - rest.len()
}

fn write_listing(recording: &[u8], text: &mut &mut [u8]) -> std::io::Result<()> {
    let mut place = match search(recording, 0) {
        Ok(place) => place,
        Err(number) => return writeln!(text, "none {number}"),
    };
    writeln!(text, "found {place}")?;
    let mut state = forms::fresh_with(forms::ALL_OFF);
    let (mut voice, mut lsd) = ([0; VOICE], [0; LSD]);
    let mut count = 0;
    while let Some(line) = recording.get(place..place + LINE) {
        let block = reader::read(&mut state, line, &mut voice, &mut lsd).block;
        place += LINE;
        write_block(text, count, block)?;
        count += 1;
        if block.standing == LOST {
            let Ok(found) = search(recording, place) else { break };
            place = found;
            writeln!(text, "found {place}")?;
        }
    }
    writeln!(text, "left {}", recording.len() - place)
}

fn write_block(text: &mut &mut [u8], count: usize, answer: BlockAnswer) -> std::io::Result<()> {
    let standing = STANDINGS[usize::from(answer.standing)];
    let verdict = VERDICTS[usize::from(answer.verdict)];
    if answer.reading < FIRST_WITHOUT_CODE {
        writeln!(text, "{count} {standing} {verdict} {:02X}", answer.code)
    } else {
        writeln!(text, "{count} {standing} {verdict} --")
    }
}
