//! Long random sessions: a reader in step with a sender stays in step and gets what was sent.

use crate::common::{Reader, Sender};
use crate::layout::{data_bits, first_bits_of, WIDTHS};
use model::frame::BLOCK_OCTETS;
use model::listing::listing;
use model::random::Random;
use model::reader::{ReaderState, Standing, Verdict};
use model::sender::SenderState;
use model::service::Flags;
use model::slots::Due;

fn width(audio: u8) -> usize {
    WIDTHS.iter().find(|(value, _)| *value == audio).expect("a listed audio").1
}

fn set_inputs(sender: &mut Sender, random: &mut Random) -> u8 {
    sender.mute = random.percent(30);
    sender.flags = Flags { a: random.percent(50), e: random.percent(50), t: random.percent(50) };
    sender.voice = random.octets(140);
    sender.data = random.octets(156);
    let values = [0, 11, 20, 24, 27, 31];
    match random.below(4) {
        0 => random.pick(&values),
        1 => 0x60 | random.below(15) as u8,
        2 => 0xE0 | random.pick(&[15, 20, 24]),
        _ => random.octet(),
    }
}

fn assert_in_step(sender: &SenderState, reader: &ReaderState) {
    assert_eq!(reader.block, Some(sender.block));
    assert_eq!(reader.due, if sender.item_due { Due::Item } else { Due::Nothing });
    assert_eq!(reader.mode, sender.mode());
    assert_eq!(reader.remainder, sender.remainder);
    assert!(reader.in_range() && sender.in_range());
}

/// One accepted call, read at once.
fn one_block(sender: &Sender, before: SenderState, reader: &mut Reader, code: u8) {
    let answer = reader.take(&sender.line);
    assert_eq!((answer.standing, answer.verdict), (Standing::Read, Verdict::Good));
    let code_read = answer.word.code().expect("a code");
    assert_eq!(code_read, sender.code_sent());
    let automatic = !before.item_due && before.in_force != sender.state.in_force && code_read != code;
    assert!(automatic || code_read == code);
    let voice = if sender.mute { &[0xFF; 140][..] } else { &sender.voice };
    assert_eq!(reader.voice, first_bits_of(voice, 160 * width(before.in_force)));
    assert_eq!(reader.data, first_bits_of(&sender.data, data_bits(before.data)));
    assert_in_step(&sender.state, &reader.state);
}

#[test]
fn a_reader_in_step_stays_in_step() {
    let mut refused = [0; 12];
    for seed in 0..20 {
        let mut random = Random::new(seed);
        let mut sender = Sender::new(SenderState::FRESH);
        let mut reader = Reader::new(ReaderState::FRESH);
        for _ in 0..6 {
            sender.offer(0x80).expect("an empty block");
            assert_eq!(reader.take(&sender.line).standing, Standing::Waiting);
        }
        assert_in_step(&sender.state, &reader.state);
        for _ in 0..300 {
            let code = set_inputs(&mut sender, &mut random);
            let before = sender.state;
            match sender.offer(code) {
                Ok(_) => one_block(&sender, before, &mut reader, code),
                Err(refusal) => refused[usize::from(refusal.number())] += 1,
            }
        }
    }
    assert!(refused[5..=8].iter().all(|&count| count > 0), "rows 5 to 8 all came up: {refused:?}");
    assert_eq!(refused[..5], [0; 5]);
}

#[test]
fn mute_goes_by_the_second_accepted_call() {
    let mut random = Random::new(5);
    for _ in 0..200 {
        let mut sender = Sender::new(SenderState::FRESH);
        for _ in 0..20 {
            let code = set_inputs(&mut sender, &mut random);
            let _ = sender.offer(code);
        }
        sender.mute = true;
        let accepted = [0x80, 0x80].map(|code| sender.offer(code).is_ok());
        assert_eq!(accepted, [true, true]);
        assert_eq!(sender.state.in_force, 31);
    }
}

#[test]
fn long_listings() {
    let mut random = Random::new(9);
    let mut sender = Sender::new(SenderState::FRESH);
    let (mut recording, mut codes) = (Vec::new(), Vec::new());
    for attempt in 0.. {
        if recording.len() + BLOCK_OCTETS > 65_536 {
            break;
        }
        assert!(attempt < 10_000, "most calls are accepted");
        let code = set_inputs(&mut sender, &mut random);
        if sender.offer(code).is_ok() {
            codes.push(sender.code_sent());
            recording.extend(&sender.line);
        }
    }
    let blocks = codes.iter().enumerate().map(|(count, code)| match count {
        0 => "0 waiting none --\n".to_string(),
        1..=5 => format!("{count} waiting good --\n"),
        _ => format!("{count} read good {code:02X}\n"),
    });
    let expected = format!("found 0\n{}left 0\n", blocks.collect::<String>());
    assert_eq!(codes.len(), 409);
    assert_eq!(listing(&recording), expected);
}
