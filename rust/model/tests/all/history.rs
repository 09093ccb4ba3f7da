//! The reader once more, not as a machine with a state but from the whole history of blocks at once: which blocks
//! are lost, which places are known, what each word was, and which commands still stand.

use crate::common::Reader;
use crate::layout::{DATA, WIDTHS};
use model::codes::{self, Mode};
use model::crc::crc4;
use model::forge::{mode, Line};
use model::frame::Block;
use model::random::Random;
use model::reader::{ReaderState, Standing, Verdict};
use model::slots::Reading;

/// A block as the line brings it, and what is known of how it was made.
struct Sent {
    octets: Vec<u8>,
    wrong_bits: usize,
    first_bit: bool,
    c_bits: u8,
    code: Option<u8>,
}

/// What the history says of a block.
#[derive(Clone, Copy, Debug, PartialEq, Eq)]
struct Told {
    standing: Standing,
    verdict: Verdict,
    word: Reading,
}

/// Lost blocks: the third of a row of wrong ones, a row beginning anew after each loss.
fn lost_blocks(history: &[Sent]) -> Vec<bool> {
    let mut lost = Vec::new();
    for index in 0..history.len() {
        let row = (0..=index).rev().take_while(|&i| history[i].wrong_bits > 0 && lost.get(i) != Some(&true)).count();
        lost.push(row == 3);
    }
    lost
}

/// Whether blocks `index` - 5 to `index` spell the pattern, all of them from `start` on.
fn spells(history: &[Sent], start: usize, index: usize) -> bool {
    let pattern = [false, false, true, false, true, true];
    index >= start + 5 && (0..6).all(|i| history[index - 5 + i].first_bit == pattern[i])
}

/// The spans of blocks whose place is known at entry, in the blocks from `start` to before `end`.
fn known_spans(history: &[Sent], start: usize, end: usize) -> Vec<std::ops::Range<usize>> {
    let mut spans = Vec::new();
    let mut from = start;
    while let Some(found) = (from..end).find(|&index| spells(history, start, index)) {
        // Block 6 comes eight blocks after the one that spelled the pattern, and every eight from there.
        let checks: Vec<usize> = (found + 8..end).step_by(8).collect();
        let third_wrong = checks.windows(3).find(|three| three.iter().all(|&index| !spells(history, start, index)));
        let last = third_wrong.map_or(end, |three| three[2] + 1);
        spans.push(found + 1..last);
        from = last;
    }
    spans
}

/// The readings of a span's words: a list taken apart, each opener eating what belongs to it.
fn readings(words: &[Option<u8>]) -> Vec<Reading> {
    let mut readings = Vec::new();
    let mut rest = words.iter().copied();
    let in_message = |word: Option<u8>| word.map_or(Reading::Unreadable, Reading::MessageWord);
    while let Some(word) = rest.next() {
        readings.push(word.map_or(Reading::Unreadable, plain));
        match word {
            Some(0xE0..=0xF7) => readings.extend(rest.next().map(|item| match item {
                Some(code @ 0xE0..) => Reading::ForbiddenItem(code),
                Some(code) => Reading::Item(code),
                None => Reading::Unreadable,
            })),
            Some(0xF9..) => {
                let count = rest.next();
                readings.extend(count.map(in_message));
                let words = count.flatten().unwrap_or(255);
                readings.extend(rest.by_ref().take(words.into()).map(in_message));
            }
            _ => {}
        }
    }
    readings
}

fn plain(code: u8) -> Reading {
    match codes::carried(code) || code >= 0x80 {
        true => Reading::Mended(code),
        false => Reading::NotFollowed(code),
    }
}

/// What each block's answer must be.
fn told(history: &[Sent], lost: &[bool]) -> Vec<Told> {
    let mut all = Vec::new();
    while all.len() < history.len() {
        let start = all.len();
        let end = (start..history.len()).find(|&index| lost[index]).unwrap_or(history.len());
        for index in start..end {
            let good = index > start && history[index].c_bits == remainder(&history[index - 1]);
            let verdict = match (index == start, good) {
                (true, _) => Verdict::None,
                (_, true) => Verdict::Good,
                (_, false) => Verdict::Bad,
            };
            all.push(Told { standing: Standing::Waiting, verdict, word: Reading::NotRead });
        }
        for span in known_spans(history, start, end) {
            let words: Vec<Option<u8>> = history[span.clone()].iter().map(|sent| sent.code).collect();
            for (index, word) in span.zip(readings(&words)) {
                all[index] = Told { standing: Standing::Read, word, ..all[index] };
            }
        }
        if end < history.len() {
            all.push(Told { standing: Standing::Lost, verdict: Verdict::None, word: Reading::NotRead });
        }
    }
    all
}

fn remainder(sent: &Sent) -> u8 {
    crc4(&Block::from_octets(&sent.octets))
}

/// The mode after the first blocks: all commands that were read, but for those in the three blocks of a loss.
fn mode_after(told: &[Told]) -> Mode {
    let lost_after = |index: usize| told[index..].iter().take(3).any(|told| told.standing == Standing::Lost);
    let mut standing = mode(31, 0);
    for (index, told) in told.iter().enumerate() {
        if let (Reading::Mended(code), false) = (told.word, lost_after(index)) {
            standing = commanded(standing, code);
        }
    }
    standing
}

fn commanded(before: Mode, code: u8) -> Mode {
    let width = |audio: u8| WIDTHS.iter().find(|pair| pair.0 == audio).map_or(0, |pair| pair.1);
    let free = |audio: u8, data: u8| width(audio) < DATA[usize::from(data)].0;
    match code {
        0 => mode(31, 0),
        1..=31 => mode(code, if free(code, before.data) { before.data } else { 0 }),
        0x60..=0x6E => mode(if free(before.audio, code - 0x60) { before.audio } else { 31 }, code - 0x60),
        _ => before,
    }
}

/// A line that mostly runs on evenly, with slips of the multiframe, wrong patterns and bursts of wrong words.
fn random_history(random: &mut Random, length: usize) -> Vec<Sent> {
    let mut history: Vec<Sent> = Vec::new();
    let (mut block, mut burst, mut spoiled) = (1, 0, 0);
    for _ in 0..length {
        block = if random.percent(1) { 1 + random.below(8) as u8 } else { block % 8 + 1 };
        burst = if random.percent(4) { 1 + random.below(4) } else { burst.max(1) - 1 };
        spoiled = if random.percent(2) { random.below(40) } else { spoiled.max(1) - 1 };
        let wrong_bits = if burst > 0 { random.pick(&[1, 1, 2, 3, 8]) } else { 0 };
        let code = random.pick(&[0x00, 0x0B, 0x14, 0x18, 0x60, 0x61, 0x65, 0x6D, 0x41, 0xF0, 0xF8, 0xF9, 0x02, 0x80]);
        let mut line = Line::over(random.octets(160), block, code).wrong(wrong_bits);
        let mut first_bit = line.octets[80] & 1 == 1;
        if spoiled > 0 && random.percent(50) {
            first_bit = !first_bit;
            line = line.first_bit(first_bit);
        }
        let c_bits = match history.last() {
            Some(before) if random.percent(80) => remainder(before),
            _ => random.below(16) as u8,
        };
        let unreadable = random.percent(3);
        line = if unreadable { line.word([0xFF, 0xFF]) } else { line };
        let code = (!unreadable && wrong_bits <= 2).then_some(code);
        history.push(Sent { octets: line.c_bits(c_bits).octets, wrong_bits, first_bit, c_bits, code });
    }
    history
}

#[test]
fn steps_and_history_agree() {
    let (mut losses, mut drops, mut readings) = (0, 0, std::collections::BTreeMap::new());
    for seed in 0..60 {
        let history = random_history(&mut Random::new(seed), 400);
        let told = told(&history, &lost_blocks(&history));
        let mut reader = Reader::new(ReaderState::FRESH);
        for (index, sent) in history.iter().enumerate() {
            let answer = reader.take(&sent.octets);
            let answer = Told { standing: answer.standing, verdict: answer.verdict, word: answer.word };
            assert_eq!(answer, told[index], "seed {seed}, block {index}");
            assert_eq!(reader.state.mode, mode_after(&told[..=index]), "seed {seed}, block {index}");
            let name = format!("{:?}", answer.word);
            *readings.entry(name.split('(').next().unwrap_or("").to_string()).or_insert(0) += 1;
        }
        losses += told.iter().filter(|told| told.standing == Standing::Lost).count();
        let falls = |two: &[Told]| two[0].standing == Standing::Read && two[1].standing == Standing::Waiting;
        drops += told.windows(2).filter(|two| falls(two)).count();
    }
    assert!(losses > 100 && drops > 10 && readings.len() == 7, "{losses} losses, {drops} drops, {readings:?}");
}
