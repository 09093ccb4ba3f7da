//! Corner cases of the reader's step (01, "Slots" and "Reading a block").

use super::case::{Case, ReaderCase};
use super::Corner;
use crate::forge::{first_bits_before, mode, named, pattern_but_last, reading, take, Line};

use crate::bas;
use crate::codes::Mode;
use crate::frame::{Half, BLOCK_OCTETS, DATA_OCTETS, VOICE_OCTETS};
use crate::reader::ReaderState;
use crate::service::{self, MULTIFRAME_PATTERN};
use crate::slots::Due;

/// All of them.
pub fn corners() -> Vec<Corner> {
    let groups = [
        general(),
        alignment(),
        losses(),
        fresh_after_loss(),
        crc(),
        wrong_blocks(),
        slots(),
        plain_words(),
        mending(),
        overlaps(),
        waiting(),
        pattern_wrong(),
        pattern_found(),
        buffers(),
        states_out_of_range(),
        odd_states_in_range(),
    ];
    groups.into_iter().flatten().collect()
}

fn corner(id: &'static str, about: &str, case: ReaderCase) -> Corner {
    named(id, about, Case::Reader(case))
}

/// One reader's steps one after another, each from the state that the one before left.
fn chain(id: &'static str, about: &str, mut state: ReaderState, lines: Vec<Line>) -> Vec<Corner> {
    let mut cases = Vec::new();
    for (index, line) in lines.into_iter().enumerate() {
        let case = take(state, line);
        state = case.state_after();
        cases.push(corner(id, &format!("{about}, step {}", index + 1), case));
    }
    cases
}

/// A state in the middle of everything, in range.
fn busy() -> ReaderState {
    ReaderState {
        kept: mode(25, 5),
        wrong_words: 2,
        wrong_patterns: 2,
        due: Due::Message(7),
        ..reading(6, mode(20, 1))
    }
}

fn general() -> Vec<Corner> {
    let wrong = ReaderCase {
        state: ReaderState { remainder: 16, ..reading(3, mode(20, 5)) },
        line: vec![0; 161],
        voice: vec![0xA5; 139],
        data: vec![0x5A; 157],
    };
    let two = ReaderCase { state: reading(3, mode(20, 5)), ..wrong.clone() };
    let three = ReaderCase { line: Line::new(3, 0x1F).octets, ..two.clone() };
    let four = ReaderCase { voice: vec![0xA5; VOICE_OCTETS], ..three.clone() };
    let none = ReaderCase { data: vec![0x5A; DATA_OCTETS], ..four.clone() };
    let empty = ReaderCase { line: vec![], ..none.clone() };
    let bad_crc = take(reading(3, mode(20, 5)), Line::new(3, 0x1F).c_bits(6));
    vec![
        corner("G1", "a refusal leaves the buffers alone", two.clone()),
        corner("G2", "rows 1 to 4 at once", wrong),
        corner("G2", "rows 2 to 4 at once", two),
        corner("G2", "rows 3 and 4 at once", three),
        corner("G2", "row 4 alone", four),
        corner("G2", "no row", none),
        corner("G2", "no line block at all", empty),
        corner("G4", "a bad verdict stops nothing", bad_crc),
    ]
}

fn alignment() -> Vec<Corner> {
    let state = ReaderState { wrong_words: 1, kept: mode(25, 5), ..reading(3, mode(20, 1)) };
    let mut cases = Vec::new();
    for (half, number, value) in service::alignment_word() {
        let mut line = Line::new(3, 0x61);
        line.set(half, number, !value);
        cases.push(corner("R1", "one of the eight fixed bits wrong", take(state, line)));
    }
    for (half, number) in [(Half::Even, 1), (Half::Odd, 1), (Half::Odd, 3), (Half::Odd, 4), (Half::Odd, 5)] {
        for bit in [false, true] {
            let mut line = Line::new(3, 0x61);
            line.set(half, number, bit);
            cases.push(corner("R1", "bits that are none of the eight", take(state, line)));
        }
    }
    for wrong in 0..=8 {
        let case = take(reading(3, mode(20, 1)), Line::new(3, 0x61).wrong(wrong));
        cases.push(corner("G5", "0 to 8 alignment bits wrong", case));
    }
    for bit in [false, true] {
        let mut line = Line::new(8, 0x61);
        for (half, number) in [(Half::Even, 1), (Half::Odd, 3), (Half::Odd, 4)] {
            line.set(half, number, bit);
        }
        cases.push(corner("R30", "A, E and T of the far end: the same answer", take(reading(8, mode(20, 1)), line)));
    }
    cases
}

fn losses() -> Vec<Corner> {
    let start = reading(2, mode(20, 1));
    let waiting = ReaderState { wrong_words: 2, ..ReaderState::fresh_with(mode(20, 1)) };
    let wrong = |block, code| Line::new(block, code).wrong(1);
    let kept = vec![Line::new(2, 0x65), wrong(3, 0x18), wrong(4, 0x00), wrong(5, 0x6D)];
    let stands = vec![wrong(2, 0x65), wrong(3, 0x1B), Line::new(4, 0x1F), wrong(5, 0x62)];
    let mut cases = vec![corner("R2", "the third wrong word while waiting", take(waiting, wrong(3, 0x18)))];
    cases.extend(chain("R2", "three wrong words from fresh", ReaderState::FRESH, vec![wrong(1, 0x18); 4]));
    cases.extend(chain("R3", "a command right before the three is kept, theirs are not", start, kept));
    cases.extend(chain("R4", "two wrong ones, then a right one", start, stands));
    cases.extend(chain(
        "R4",
        "a new run keeps the mode that it finds",
        start,
        vec![wrong(2, 0x65), Line::new(3, 0x6A), wrong(4, 0x14), wrong(5, 0x65), wrong(6, 0x00)],
    ));
    cases
}

fn fresh_after_loss() -> Vec<Corner> {
    let no_run_of_patterns = ReaderState { wrong_patterns: 0, block: Some(3), ..busy() };
    let mut cases = vec![
        corner("R5", "all but the mode is fresh", take(busy(), Line::new(6, 0x18).wrong(1))),
        corner("R5", "the same with all eight wrong", take(busy(), Line::new(6, 0x18).wrong(8))),
        corner(
            "R5",
            "lost in the block of a third wrong pattern",
            take(busy(), Line::new(6, 0x18).wrong(2).first_bit(false)),
        ),
        corner(
            "R5",
            "lost where an item is due",
            take(ReaderState { due: Due::Item, ..no_run_of_patterns }, Line::new(3, 0x1F).wrong(3)),
        ),
    ];
    cases.extend(chain(
        "R31",
        "used on after a loss",
        busy(),
        vec![Line::new(6, 0x18).wrong(1), Line::new(7, 0x18), Line::new(8, 0x18).wrong(1)],
    ));
    cases
}

fn crc() -> Vec<Corner> {
    let first = Line::new(2, 0x1F).wrong(1);
    let second = Line::new(3, 0x1F).wrong(1).c_bits(first.remainder());
    let third = Line::new(4, 0x1F).c_bits(second.remainder());
    let fourth = Line::new(5, 0x1F).c_bits(third.remainder() ^ 1);
    let lines = vec![first, second, third, fourth];
    let mut cases = chain("R6", "wrong blocks are judged and judged against", reading(2, mode(20, 1)), lines);
    let waiting = ReaderState { before: true, remainder: 9, ..ReaderState::FRESH };
    cases.push(corner("R7", "good while waiting", take(waiting, Line::new(3, 0x18))));
    cases.push(corner("R7", "bad while waiting", take(waiting, Line::new(3, 0x18).c_bits(8))));
    cases.push(corner("R7", "no block before", take(ReaderState::FRESH, Line::new(3, 0x18))));
    for remainder in 0..=15 {
        let state = ReaderState { remainder, ..reading(4, mode(31, 0)) };
        cases.push(corner("R7", "each remainder against 9", take(state, Line::new(4, 0x1F))));
    }
    cases
}

fn wrong_blocks() -> Vec<Corner> {
    let waiting = ReaderState { first_bits: pattern_but_last(), ..ReaderState::FRESH };
    let mut cases = vec![
        corner("R8", "a wrong block's first bit completes the pattern", take(waiting, Line::new(6, 0x18).wrong(1))),
        corner(
            "R8",
            "a wrong block's first bit breaks the pattern",
            take(reading(6, mode(20, 1)), Line::new(6, 0x1F).wrong(1).first_bit(false)),
        ),
        corner(
            "R9",
            "streams of a block with five wrong bits",
            take(reading(3, mode(20, 5)), Line::new(3, 0x1F).wrong(5)),
        ),
        corner(
            "R9",
            "streams of a second wrong block",
            take(ReaderState { wrong_words: 1, ..reading(3, mode(24, 4)) }, Line::new(3, 0x1F).wrong(8)),
        ),
    ];
    for due in [Due::Nothing, Due::Item, Due::Count, Due::Message(3), Due::Message(1)] {
        for wrong in [2, 3] {
            let state = ReaderState { due, ..reading(3, mode(20, 1)) };
            let case = take(state, Line::new(3, 0x65).wrong(wrong));
            cases.push(corner("R10", "two and three wrong alignment bits in each slot", case));
        }
        let state = ReaderState { due, ..reading(3, mode(20, 1)) };
        let case = take(state, Line::new(3, 0x65).word([0xFF, 0xFF]));
        cases.push(corner("R10", "an unreadable word in each slot", case));
    }
    cases
}

fn slots() -> Vec<Corner> {
    let with = |due| ReaderState { due, ..reading(3, mode(20, 1)) };
    let mut cases = Vec::new();
    for code in [0x00, 0x01, 0x18, 0x65, 0xF9, 0xFF] {
        cases.push(corner("R11", "N, whatever code it looks like", take(with(Due::Count), Line::new(3, code))));
        cases.push(corner("R11", "a message word", take(with(Due::Message(255)), Line::new(3, code))));
        cases.push(corner("R11", "the last message word", take(with(Due::Message(1)), Line::new(3, code))));
    }
    for code in [0xE0, 0xF0, 0xF8, 0xF9, 0xFF] {
        cases.push(corner("R12", "a forbidden item opens nothing", take(with(Due::Item), Line::new(3, code))));
    }
    for code in [0x00, 0x18, 0x41, 0x65, 0x6F, 0xDF] {
        cases.push(corner("R12", "an item is no command", take(with(Due::Item), Line::new(3, code))));
    }
    for value in 0..=31 {
        cases.push(corner(
            "R13",
            "each plain code of attribute 111",
            take(with(Due::Nothing), Line::new(3, 0xE0 | value)),
        ));
    }
    cases.extend(chain(
        "R11",
        "a message of two words, then a command",
        reading(1, mode(20, 1)),
        [0xF9, 0x02, 0x00, 0xF0, 0x65].iter().zip(1..).map(|(&code, block)| Line::new(block, code)).collect(),
    ));
    cases
}

fn plain_words() -> Vec<Corner> {
    let mut cases = Vec::new();
    for code in 0x00..=0x7F {
        let case = take(reading(3, mode(27, 8)), Line::new(3, code));
        cases.push(corner("R14", "each plain code of 000 to 011", case));
    }
    for code in [0x80, 0x9F, 0xA0, 0xBF, 0xC0, 0xDF] {
        let case = take(reading(3, mode(27, 8)), Line::new(3, code));
        cases.push(corner("R14", "100 to 110 change nothing", case));
    }
    cases
}

fn mending() -> Vec<Corner> {
    let whole = bas::sent(0x65);
    let state = reading(3, mode(20, 1));
    let mut cases = vec![corner("R15", "a whole word", take(state, Line::new(3, 0x65)))];
    for flips in [[0x80, 0x00], [0x00, 0x01], [0x80, 0x01], [0x03, 0x00], [0x00, 0x18], [0xE0, 0x00], [0x10, 0x03]] {
        let word = [whole[0] ^ flips[0], whole[1] ^ flips[1]];
        let case = take(state, Line::new(3, 0x65).word(word));
        cases.push(corner("R15", "one, two and three bits wrong", case));
    }
    cases
}

fn overlaps() -> Vec<Corner> {
    let cases = [
        ("audio over data", mode(31, 8), 0x14),
        ("audio beside data", mode(31, 5), 0x14),
        ("data over audio", mode(24, 0), 0x65),
        ("data beside audio", mode(20, 0), 0x65),
        ("both at once replaced", mode(20, 5), 0x6D),
        ("audio of full width over the lot", mode(31, 14), 0x18),
        ("SC data stays beside any audio", mode(31, 4), 0x18),
        ("neutral", mode(20, 5), 0x00),
        ("audio off", mode(20, 5), 0x1F),
        ("data off", mode(20, 5), 0x60),
        ("the same audio again", mode(20, 5), 0x14),
    ];
    cases
        .into_iter()
        .map(|(about, mode, code)| corner("R16", about, take(reading(3, mode), Line::new(3, code))))
        .collect()
}

fn waiting() -> Vec<Corner> {
    let mut cases = Vec::new();
    for due in [Due::Nothing, Due::Item, Due::Count, Due::Message(9)] {
        let state = ReaderState { due, ..ReaderState::fresh_with(mode(20, 1)) };
        cases.push(corner("R17", "slots and mode stand still while waiting", take(state, Line::new(3, 0x65))));
    }
    cases.push(corner(
        "R24",
        "buffers zeroed while waiting",
        take(ReaderState::fresh_with(mode(24, 4)), Line::new(3, 0x1F)),
    ));
    cases.push(corner("R24", "buffers zeroed when lost", take(busy(), Line::new(6, 0x1F).wrong(1))));
    cases.extend(chain(
        "R18",
        "fewer than six bits never match",
        ReaderState::FRESH,
        (2..=8).map(|block| Line::new(block, 0x1F)).collect(),
    ));
    cases
}

fn pattern_wrong() -> Vec<Corner> {
    let third = |due| ReaderState { wrong_patterns: 2, due, ..reading(6, mode(20, 1)) };
    let broken = |code| Line::new(6, code).first_bit(false);
    let ones = ReaderState { first_bits: [true; 6], ..reading(6, mode(20, 1)) };
    let mut cases = vec![
        corner("R19", "bits that never came count as ones", take(ones, Line::new(6, 0x1F))),
        corner("R19", "block 6's own bit counts", take(reading(6, mode(20, 1)), broken(0x1F))),
        corner("R20", "a command in the block of the third wrong pattern", take(third(Due::Nothing), broken(0x65))),
        corner("R20", "an escape in it is forgotten", take(third(Due::Nothing), broken(0xF0))),
        corner("R20", "an opener in it is forgotten", take(third(Due::Nothing), broken(0xF9))),
        corner("R20", "a message in it is forgotten", take(third(Due::Message(200)), broken(0x18))),
        corner(
            "R20",
            "with a wrong alignment word besides",
            take(ReaderState { wrong_words: 1, kept: mode(25, 5), ..third(Due::Nothing) }, broken(0x65).wrong(1)),
        ),
        corner("R21", "a right pattern ends the run", take(third(Due::Count), Line::new(6, 0x02))),
        corner(
            "R21",
            "and leaves the run of wrong words",
            take(ReaderState { wrong_words: 1, kept: mode(25, 5), ..third(Due::Item) }, Line::new(6, 0x02).wrong(1)),
        ),
        corner("R23", "the block that loses the place is read", take(third(Due::Item), broken(0x1F))),
    ];
    for block in [1, 2, 3, 4, 5, 7, 8] {
        let state = ReaderState { wrong_patterns: 2, ..reading(block, mode(20, 1)) };
        cases.push(corner("R19", "compared after block 6 alone", take(state, Line::new(block, 0x1F).first_bit(true))));
    }
    // Two more ones complete the pattern, the second of them after the place was lost.
    let after = ReaderState { first_bits: [true, true, false, false, true, false], ..third(Due::Nothing) };
    let bits_on = vec![Line::new(6, 0x1F), Line::new(8, 0x1F).first_bit(true), Line::new(7, 0x65)];
    cases.extend(chain("R18", "the bits go on when the place is lost", after, bits_on));
    cases
}

fn pattern_found() -> Vec<Corner> {
    let waiting = ReaderState { first_bits: pattern_but_last(), ..ReaderState::fresh_with(mode(20, 1)) };
    let forged = ReaderState { wrong_patterns: 2, due: Due::Item, ..waiting };
    let mut cases = vec![
        corner("R23", "the block that finds the place is waiting", take(waiting, Line::new(6, 0x65))),
        corner("R22", "finding the place leaves run and slots", take(forged, Line::new(6, 0x65))),
        corner("R22", "not finding it does, too", take(forged, Line::new(5, 0x65).first_bit(false))),
    ];
    for index in 0..6 {
        let mut first_bits = pattern_but_last();
        first_bits[index] = !first_bits[index];
        let state = ReaderState { first_bits, ..waiting };
        cases.push(corner("R29", "one kept bit turned", take(state, Line::new(6, 0x65))));
    }
    for first_bits in [[false; 6], [true; 6], MULTIFRAME_PATTERN] {
        let state = ReaderState { first_bits, ..reading(6, mode(20, 1)) };
        cases.push(corner("R29", "any first bits are in range", take(state, Line::new(6, 0x1F))));
    }
    cases
}

fn buffers() -> Vec<Corner> {
    let mut cases = Vec::new();
    for audio in [11, 29, 28, 27, 20, 21, 25, 18, 19, 24, 31] {
        let case = take(reading(3, mode(audio, 1)), Line::new(3, 0x1F));
        cases.push(corner("R24", "each audio value", case));
    }
    for data in 0..=14 {
        let case = take(reading(3, mode(31, data)), Line::new(3, 0x1F));
        cases.push(corner("R24", "each data value", case));
    }
    let ones = ReaderCase { line: vec![0xFF; BLOCK_OCTETS], ..take(reading(3, mode(27, 9)), Line::new(3, 0x1F)) };
    cases.push(corner("R24", "a block of ones", ones));
    cases
}

fn states_out_of_range() -> Vec<Corner> {
    let base = reading(3, mode(20, 5));
    let bad_modes = [mode(20, 8), mode(0, 0), mode(1, 0), mode(200, 0), mode(31, 15), mode(31, 255), mode(11, 13)];
    let mut cases = Vec::new();
    for bad in bad_modes {
        let kept = ReaderState { kept: bad, ..base };
        let run = ReaderState { wrong_words: 1, ..kept };
        cases.push(corner(
            "R25",
            "the mode in force out of range",
            take(ReaderState { mode: bad, ..base }, Line::new(3, 0x1F)),
        ));
        cases.push(corner("R25", "the kept mode out of range", take(run, Line::new(3, 0x1F))));
        cases.push(corner("R26", "the kept mode out of range, no run", take(kept, Line::new(3, 0x1F))));
    }
    let states = [
        ("R28", "a remainder over 15 and no block before", ReaderState { before: false, remainder: 16, ..base }),
        ("R28", "a remainder over 15", ReaderState { remainder: 255, ..base }),
        ("R25", "three wrong words", ReaderState { wrong_words: 3, ..base }),
        ("R25", "three wrong patterns", ReaderState { wrong_patterns: 3, ..base }),
        ("R25", "255 wrong patterns while waiting", ReaderState { wrong_patterns: 255, block: None, ..base }),
        ("R25", "block 0", ReaderState { block: Some(0), ..base }),
        ("R25", "block 9", ReaderState { block: Some(9), ..base }),
        ("R27", "256 message words due", ReaderState { due: Due::Message(256), ..base }),
        ("R27", "65535 message words due", ReaderState { due: Due::Message(65535), ..base }),
    ];
    cases.extend(states.map(|(id, about, state)| corner(id, about, take(state, Line::new(3, 0x1F)))));
    cases
}

fn odd_states_in_range() -> Vec<Corner> {
    let base = reading(3, mode(20, 5));
    let kept_apart = ReaderState { kept: mode(24, 1), ..base };
    let no_words = ReaderState { due: Due::Message(0), ..base };
    let no_before = ReaderState { before: false, remainder: 15, ..base };
    let last_block = ReaderState { first_bits: first_bits_before(8), ..reading(8, Mode::OFF) };
    vec![
        corner("R26", "no run: the kept mode follows the mode in force", take(kept_apart, Line::new(3, 0x1F))),
        corner("R26", "no run and a wrong word: the mode is kept", take(kept_apart, Line::new(3, 0x1F).wrong(1))),
        corner("R26", "the same while waiting", take(ReaderState { block: None, ..kept_apart }, Line::new(3, 0x1F))),
        corner("R27", "zero message words due: a command is followed", take(no_words, Line::new(3, 0x1F))),
        corner(
            "R27",
            "zero message words due while waiting",
            take(ReaderState { block: None, ..no_words }, Line::new(3, 0x1F)),
        ),
        corner(
            "R27",
            "255 message words due",
            take(ReaderState { due: Due::Message(255), ..base }, Line::new(3, 0x1F)),
        ),
        corner("R28", "a remainder without a block before", take(no_before, Line::new(3, 0x1F))),
        corner("G7", "block 8 is followed by block 1", take(last_block, Line::new(8, 0x1F))),
    ]
}
