//! Each step of "Reading a block", and the slots.

use crate::common::Reader;
use model::codes::Mode;
use model::forge::{first_bits_before, mode, pattern_but_last, reading, Line};
use model::reader::{BlockAnswer, ReaderState, Standing, Verdict};
use model::slots::{Due, Reading};

fn answer(standing: Standing, verdict: Verdict, word: Reading) -> BlockAnswer {
    BlockAnswer { standing, verdict, word }
}

const LOST: BlockAnswer = BlockAnswer { standing: Standing::Lost, verdict: Verdict::None, word: Reading::NotRead };

fn take(state: ReaderState, line: Line) -> (BlockAnswer, Reader) {
    let mut reader = Reader::new(state);
    let answer = reader.take(&line.octets);
    (answer, reader)
}

#[test]
fn fresh() {
    let fresh = ReaderState {
        mode: Mode { audio: 31, data: 0 },
        kept: Mode { audio: 31, data: 0 },
        wrong_words: 0,
        block: None,
        wrong_patterns: 0,
        first_bits: [true; 6],
        due: Due::Nothing,
        before: false,
        remainder: 0,
    };
    assert_eq!(ReaderState::FRESH, fresh);
    assert!(fresh.in_range());
}

#[test]
fn each_of_the_eight_bits_counts_and_no_other() {
    let eight = [1, 2, 3, 4, 5, 6, 7, 81];
    for octet in 0..160 {
        let mut line = Line::new(3, 0x80);
        line.octets[octet] ^= 1;
        let (_, reader) = take(reading(3, mode(20, 1)), line);
        assert_eq!(reader.state.wrong_words, u8::from(eight.contains(&octet)), "octet {octet}");
    }
}

#[test]
fn a_right_word_ends_the_run() {
    let run = ReaderState { wrong_words: 2, kept: mode(25, 5), ..reading(3, mode(20, 1)) };
    let (_, reader) = take(run, Line::new(3, 0x80));
    assert_eq!((reader.state.wrong_words, reader.state.mode, reader.state.kept), (0, mode(20, 1), mode(20, 1)));
}

#[test]
fn the_third_wrong_word_loses_the_block() {
    let third = ReaderState {
        wrong_words: 2,
        kept: mode(25, 5),
        wrong_patterns: 2,
        due: Due::Message(9),
        ..reading(6, mode(20, 1))
    };
    for state in [third, ReaderState { block: None, ..third }, ReaderState { due: Due::Item, ..third }] {
        for wrong in 1..=8 {
            let (answer, reader) = take(state, Line::new(6, 0x18).wrong(wrong));
            assert_eq!(answer, LOST);
            assert!(reader.silent());
            assert_eq!(reader.state, ReaderState::fresh_with(mode(25, 5)));
        }
    }
}

#[test]
fn the_mode_before_the_first_of_the_three_comes_back() {
    let mut reader = Reader::new(reading(2, mode(20, 1)));
    reader.take(&Line::new(2, 0x65).octets);
    assert_eq!(reader.state.mode, mode(20, 5), "a command in the right block before");
    reader.take(&Line::new(3, 0x18).wrong(1).octets);
    assert_eq!((reader.state.mode, reader.state.kept), (mode(24, 0), mode(20, 5)));
    reader.take(&Line::new(4, 0x00).wrong(1).octets);
    assert_eq!((reader.state.mode, reader.state.kept), (mode(31, 0), mode(20, 5)));
    assert_eq!(reader.take(&Line::new(5, 0x6D).wrong(1).octets), LOST);
    assert_eq!(reader.state, ReaderState::fresh_with(mode(20, 5)));
    let next = reader.take(&Line::new(6, 0x18).octets);
    assert_eq!(next, answer(Standing::Waiting, Verdict::None, Reading::NotRead), "the first after alignment");
}

#[test]
fn after_two_wrong_words_and_a_right_one_the_learned_mode_stands() {
    let mut reader = Reader::new(reading(2, mode(20, 1)));
    reader.take(&Line::new(2, 0x65).wrong(2).octets);
    reader.take(&Line::new(3, 0x18).wrong(1).octets);
    reader.take(&Line::new(4, 0x80).octets);
    assert_eq!((reader.state.mode, reader.state.kept), (mode(24, 0), mode(24, 0)));
}

#[test]
fn three_wrong_words_from_fresh() {
    let mut reader = Reader::new(ReaderState::FRESH);
    let line = Line::new(1, 0x18).wrong(3).octets;
    assert_eq!(reader.take(&line).standing, Standing::Waiting);
    assert_eq!(reader.take(&line).standing, Standing::Waiting);
    assert_eq!(reader.take(&line), LOST);
    assert_eq!(reader.state, ReaderState::FRESH);
    assert_eq!(reader.take(&line).standing, Standing::Waiting, "a new run");
}

#[test]
fn the_verdict() {
    for remainder in 0..=15 {
        for c_bits in 0..=15 {
            let known = ReaderState { remainder, ..reading(3, mode(20, 1)) };
            let verdict = if remainder == c_bits { Verdict::Good } else { Verdict::Bad };
            let line = || Line::new(3, 0x80).c_bits(c_bits);
            assert_eq!(take(known, line()).0.verdict, verdict);
            assert_eq!(take(known, line().wrong(4)).0.verdict, verdict, "a wrong block is judged");
            assert_eq!(take(ReaderState { block: None, ..known }, line()).0.verdict, verdict, "while waiting");
            assert_eq!(take(ReaderState { before: false, ..known }, line()).0.verdict, Verdict::None);
        }
    }
}

#[test]
fn a_bad_verdict_stops_nothing() {
    let (answered, reader) = take(reading(3, mode(20, 1)), Line::new(3, 0x65).c_bits(0));
    assert_eq!(answered, answer(Standing::Read, Verdict::Bad, Reading::Mended(0x65)));
    assert_eq!((reader.state.mode, reader.state.block), (mode(20, 5), Some(4)));
}

#[test]
fn every_block_is_the_next_ones_block_before() {
    for line in [Line::new(3, 0x80), Line::new(3, 0x80).wrong(5), Line::new(3, 0x80).c_bits(3)] {
        let block = model::frame::Block::from_octets(&line.octets);
        for state in [reading(3, mode(20, 1)), ReaderState::FRESH] {
            let (_, reader) = take(state, line.clone());
            assert_eq!((reader.state.before, reader.state.remainder), (true, model::crc::crc4(&block)));
        }
    }
}

#[test]
fn waiting_reads_nothing() {
    for due in [Due::Nothing, Due::Item, Due::Count, Due::Message(3)] {
        let state = ReaderState { due, ..ReaderState::fresh_with(mode(20, 5)) };
        let (answered, reader) = take(state, Line::new(3, 0x18));
        assert_eq!(answered, answer(Standing::Waiting, Verdict::None, Reading::NotRead));
        assert!(reader.silent());
        assert_eq!((reader.state.mode, reader.state.due), (mode(20, 5), due));
    }
}

#[test]
fn at_most_two_wrong_alignment_bits_let_the_word_be_read() {
    for wrong in 0..=8 {
        let (answered, reader) = take(reading(3, mode(20, 1)), Line::new(3, 0x65).wrong(wrong));
        let (word, mode_after) = match wrong {
            0..=2 => (Reading::Mended(0x65), mode(20, 5)),
            _ => (Reading::Unreadable, mode(20, 1)),
        };
        assert_eq!((answered.standing, answered.word), (Standing::Read, word));
        assert_eq!(reader.state.mode, mode_after);
        assert!(!reader.silent(), "streams are handed out whatever the alignment word says");
    }
}

#[test]
fn streams_are_cut_by_the_mode_at_entry() {
    let (_, before) = take(reading(3, mode(20, 5)), Line::new(3, 0x80));
    let (_, commanded) = take(reading(3, mode(20, 5)), Line::new(3, 0x00));
    assert_eq!(commanded.state.mode, mode(31, 0));
    assert_eq!(before.voice, commanded.voice);
    assert_eq!(before.data, commanded.data);
}

#[test]
fn a_followed_command_turns_the_other_stream_off_where_it_overlaps() {
    let cases = [
        (mode(31, 5), 0x18, mode(24, 0)),
        (mode(31, 5), 0x14, mode(20, 5)),
        (mode(24, 0), 0x65, mode(31, 5)),
        (mode(24, 4), 0x67, mode(31, 7)),
        (mode(20, 0), 0x65, mode(20, 5)),
        (mode(20, 5), 0x6E, mode(31, 14)),
        (mode(31, 14), 0x0B, mode(11, 0)),
        (mode(20, 5), 0x1F, mode(31, 5)),
        (mode(20, 5), 0x60, mode(20, 0)),
        (mode(20, 5), 0x00, mode(31, 0)),
        (mode(20, 5), 0x19, mode(25, 5)),
    ];
    for (at_entry, code, after) in cases {
        let (answered, reader) = take(reading(3, at_entry), Line::new(3, code));
        assert_eq!((answered.word, reader.state.mode), (Reading::Mended(code), after), "code {code:02X}");
    }
}

#[test]
fn plain_words_that_are_not_followed() {
    let mut counts = [0; 8];
    for code in 0..=255_u8 {
        let (answered, reader) = take(reading(3, mode(27, 8)), Line::new(3, code));
        match answered.word {
            Reading::NotFollowed(read) => {
                assert_eq!((read, reader.state.mode, reader.state.due), (code, mode(27, 8), Due::Nothing));
                counts[usize::from(code / 32)] += 1;
            }
            word => assert_eq!(word, Reading::Mended(code)),
        }
    }
    assert_eq!(counts, [20, 31, 32, 17, 0, 0, 0, 0]);
}

#[test]
fn plain_words_of_attribute_111() {
    for value in 0..=31 {
        let (answered, reader) = take(reading(3, mode(20, 1)), Line::new(3, 0xE0 | value));
        let due = match value {
            0..=23 => Due::Item,
            24 => Due::Nothing,
            _ => Due::Count,
        };
        assert_eq!((answered.word, reader.state.due), (Reading::Mended(0xE0 | value), due));
        assert_eq!(reader.state.mode, mode(20, 1));
    }
}

#[test]
fn items() {
    for code in 0..=255 {
        let state = ReaderState { due: Due::Item, ..reading(3, mode(20, 1)) };
        let (answered, reader) = take(state, Line::new(3, code));
        let word = if code < 0xE0 { Reading::Item(code) } else { Reading::ForbiddenItem(code) };
        assert_eq!((answered.word, reader.state.due, reader.state.mode), (word, Due::Nothing, mode(20, 1)));
    }
}

#[test]
fn messages() {
    for code in 0..=255_u8 {
        for (due, after) in
            [(Due::Count, code.into()), (Due::Message(255), 254), (Due::Message(2), 1), (Due::Message(1), 0)]
        {
            let (answered, reader) = take(ReaderState { due, ..reading(3, mode(20, 1)) }, Line::new(3, code));
            let after = if after == 0 { Due::Nothing } else { Due::Message(after) };
            assert_eq!((answered.word, reader.state.due), (Reading::MessageWord(code), after));
            assert_eq!(reader.state.mode, mode(20, 1));
        }
    }
}

#[test]
fn no_message_words_due_is_nothing_due() {
    let state = ReaderState { due: Due::Message(0), ..reading(3, mode(20, 1)) };
    let (answered, reader) = take(state, Line::new(3, 0x65));
    assert_eq!((answered.word, reader.state.mode), (Reading::Mended(0x65), mode(20, 5)));
}

#[test]
fn an_unreadable_word_fills_its_slot() {
    let slots = [
        (Due::Nothing, Due::Nothing),
        (Due::Item, Due::Nothing),
        (Due::Count, Due::Message(255)),
        (Due::Message(3), Due::Message(2)),
        (Due::Message(1), Due::Nothing),
    ];
    for (due, after) in slots {
        let state = ReaderState { due, ..reading(3, mode(20, 1)) };
        for line in [Line::new(3, 0x65).wrong(3), Line::new(3, 0x65).word([0xFF, 0xFF])] {
            let (answered, reader) = take(state, line);
            assert_eq!((answered.word, reader.state.due), (Reading::Unreadable, after));
            assert_eq!(reader.state.mode, mode(20, 1));
        }
    }
}

#[test]
fn a_message_of_255_words_after_an_unreadable_count() {
    let mut reader = Reader::new(reading(1, mode(20, 1)));
    reader.take(&Line::new(1, 0xF9).octets);
    reader.take(&Line::new(2, 0x01).word([0xFF, 0xFF]).octets);
    let mut next = || {
        let block = reader.state.block.expect("a known place");
        reader.take(&Line::new(block, 0x65).octets).word
    };
    for _ in 0..255 {
        assert_eq!(next(), Reading::MessageWord(0x65));
    }
    assert_eq!(next(), Reading::Mended(0x65));
}

#[test]
fn up_to_two_wrong_bits_of_a_word_are_mended() {
    let sent = u16::from_be_bytes(model::bas::sent(0x65));
    for one in 0..16 {
        for other in 0..16 {
            let word = sent ^ (1 << one | 1 << other);
            let (answered, _) = take(reading(3, mode(20, 1)), Line::new(3, 0x65).word(word.to_be_bytes()));
            assert_eq!(answered.word, Reading::Mended(0x65));
        }
    }
}

#[test]
fn the_pattern_finds_the_place() {
    for number in 0..64_u8 {
        let kept: [bool; 6] = std::array::from_fn(|index| number >> (5 - index) & 1 == 1);
        for bit in [false, true] {
            let state = ReaderState { first_bits: kept, ..ReaderState::FRESH };
            for line in [Line::new(2, 0x80).first_bit(bit), Line::new(2, 0x80).first_bit(bit).wrong(8)] {
                let (answered, reader) = take(state, line);
                assert_eq!(answered.standing, Standing::Waiting);
                let found = number & 0b1_1111 == 0b0_0101 && bit;
                assert_eq!(reader.state.block, found.then_some(7), "kept {number:06b}, then {bit}");
            }
        }
    }
}

#[test]
fn fewer_than_six_bits_find_no_place() {
    for start in 1..=8 {
        let mut reader = Reader::new(ReaderState::FRESH);
        let mut steps = 0;
        while reader.state.block.is_none() {
            let block = (start - 1 + steps) % 8 + 1;
            reader.take(&Line::new(block, 0x80).octets);
            steps += 1;
            assert!(steps < 20, "the place is found");
        }
        let to_block_6 = (6 - start as i32).rem_euclid(8) + 1;
        let expected = if to_block_6 < 6 { to_block_6 + 8 } else { to_block_6 };
        assert_eq!(i32::from(steps), expected, "from block {start}");
    }
}

#[test]
fn blocks_are_counted_and_compared_after_block_6() {
    for block in 1..=8 {
        for bit in [false, true] {
            let state = ReaderState { wrong_patterns: 1, ..reading(block, mode(20, 1)) };
            let (_, reader) = take(state, Line::new(block, 0x80).first_bit(bit));
            let run = match (block, bit) {
                (6, true) => 0,
                (6, false) => 2,
                _ => 1,
            };
            assert_eq!((reader.state.block, reader.state.wrong_patterns), (Some(block % 8 + 1), run));
        }
    }
}

#[test]
fn the_third_wrong_pattern_loses_the_place_and_keeps_the_mode() {
    for (code, word, after) in [
        (0x65, Reading::Mended(0x65), mode(20, 5)),
        (0xF0, Reading::Mended(0xF0), mode(20, 1)),
        (0xF9, Reading::Mended(0xF9), mode(20, 1)),
    ] {
        let state = ReaderState { wrong_patterns: 2, ..reading(6, mode(20, 1)) };
        let line = Line::new(6, code).first_bit(false);
        let (answered, reader) = take(state, line);
        assert_eq!((answered.standing, answered.word), (Standing::Read, word));
        let state = reader.state;
        assert_eq!((state.block, state.due, state.wrong_patterns, state.mode), (None, Due::Nothing, 0, after));
        assert!(state.before, "a loss of the place is no loss of alignment");
        assert_eq!(state.first_bits[..5], first_bits_before(6)[1..], "the bits go on");
    }
}

#[test]
fn three_wrong_patterns_in_a_row() {
    let mut reader = Reader::new(reading(1, mode(20, 1)));
    let mut read = 0;
    while reader.state.block.is_some() {
        let block = reader.state.block.expect("known");
        let mut line = Line::new(block, 0x80);
        if block == 3 {
            line = line.first_bit(false);
        }
        assert_eq!(reader.take(&line.octets).standing, Standing::Read);
        read += 1;
    }
    assert_eq!(read, 22, "blocks 1 to 8 twice, then 1 to 6");
    for block in [7, 8, 1, 2, 3, 4, 5, 6] {
        assert_eq!(reader.take(&Line::new(block, 0x80).octets).standing, Standing::Waiting);
    }
    assert_eq!(reader.state.block, Some(7));
}

#[test]
fn the_place_may_come_back_before_six_new_blocks() {
    // The five bits 00101 are there before the place is lost; one more bit completes the pattern.
    let first_bits = [true, true, false, false, true, false];
    let state = ReaderState { wrong_patterns: 2, first_bits, ..reading(6, mode(20, 1)) };
    let mut reader = Reader::new(state);
    reader.take(&Line::new(6, 0x80).first_bit(true).octets);
    assert_eq!(reader.state.block, None);
    reader.take(&Line::new(7, 0x80).first_bit(true).octets);
    assert_eq!(reader.state.block, Some(7));
}

#[test]
fn bits_that_never_came_count_as_ones() {
    let state = ReaderState { first_bits: [true; 6], ..reading(6, mode(20, 1)) };
    assert_eq!(take(state, Line::new(6, 0x80)).1.state.wrong_patterns, 1);
}

#[test]
fn finding_the_place_leaves_run_and_slots() {
    let state = ReaderState { wrong_patterns: 2, due: Due::Item, first_bits: pattern_but_last(), ..ReaderState::FRESH };
    let (answered, reader) = take(state, Line::new(6, 0x80));
    assert_eq!(answered.standing, Standing::Waiting);
    assert_eq!((reader.state.block, reader.state.wrong_patterns, reader.state.due), (Some(7), 2, Due::Item));
}

#[test]
fn the_kept_mode_follows_where_no_run_is_under_way() {
    let state = ReaderState { kept: mode(24, 1), ..reading(3, mode(20, 5)) };
    assert_eq!(take(state, Line::new(3, 0x60)).1.state.kept, mode(20, 0));
    let (_, wrong) = take(state, Line::new(3, 0x60).wrong(1));
    assert_eq!((wrong.state.kept, wrong.state.mode), (mode(20, 5), mode(20, 0)));
    let waiting = ReaderState { block: None, ..state };
    assert_eq!(take(waiting, Line::new(3, 0x60)).1.state.kept, mode(20, 5));
}
