//! Blocks gathered into columns. A column of several blocks shows what matters most of them.

use delampuk::{Mode, Standing, Verdict};

use super::seen::{Kind, Microphone, Seen};

/// No more columns than this: each is then wide enough to be seen.
pub const MOST: usize = 250;

/// The bits of each octet that audio can hold.
pub const AUDIO_MOST: u8 = 7;

/// The largest value of a data command that holds places.
pub const DATA_MOST: u8 = 14;

/// One column of a track.
#[derive(Clone, Debug, PartialEq, Eq)]
pub struct Column {
    /// Whether mute is set in a block of it.
    pub mute: bool,
    /// How many blocks carry the voice, ones, and neither.
    pub microphone: [usize; 3],
    /// What the word is that matters most.
    pub kind: Kind,
    /// Its code.
    pub code: Option<u8>,
    /// The code that was held for it.
    pub held: Option<u8>,
    /// The smallest and the greatest number of audio bits, where anything is read.
    pub audio: Option<(u8, u8)>,
    /// The same of the data's values.
    pub data: Option<(u8, u8)>,
    /// The verdict that matters most.
    pub verdict: Verdict,
    /// The standing that matters most.
    pub standing: Standing,
}

/// How many blocks a column has: 1, 2, 5, 10, 20 and so on, the first that leaves few enough columns.
pub fn blocks_a_column(blocks: usize) -> usize {
    let mut step = 1;
    loop {
        for part in [1, 2, 5] {
            let count = part * step;
            if blocks <= MOST.saturating_mul(count) {
                return count;
            }
        }
        step *= 10;
    }
}

/// The columns of a track.
pub fn columns(blocks: &[Seen], blocks_a_column: usize) -> Vec<Column> {
    blocks.chunks(blocks_a_column).map(column).collect()
}

fn column(blocks: &[Seen]) -> Column {
    // of words that matter the same, the first
    let word = blocks.iter().rev().max_by_key(|seen| seen.kind).expect("a column has a block");
    let of = |what| blocks.iter().filter(|seen| seen.microphone == what).count();
    let modes: Vec<Mode> = blocks.iter().filter_map(|seen| seen.mode).collect();
    Column {
        mute: blocks.iter().any(|seen| seen.mute == Some(true)),
        microphone: [of(Microphone::Carried), of(Microphone::Ones), of(Microphone::None)],
        kind: word.kind,
        code: word.code,
        held: word.held,
        audio: span(modes.iter().map(|&mode| audio_bits(mode))),
        data: span(modes.iter().map(|mode| mode.lsd)),
        verdict: verdict(blocks),
        standing: standing(blocks),
    }
}

/// How many bits of each octet the voice holds.
pub fn audio_bits(mode: Mode) -> u8 {
    (mode.counts().voice_octets / 20) as u8
}

/// The parts of a whole that counts have, each that is not 0 large enough to be seen.
pub fn shares(counts: [usize; 3]) -> [f64; 3] {
    let least = 0.15;
    let all = counts.iter().sum::<usize>() as f64;
    let kinds = counts.iter().filter(|&&count| count > 0).count() as f64;
    counts.map(|count| match count {
        0 => 0.0,
        _ => least + (1.0 - least * kinds) * count as f64 / all,
    })
}

fn span(values: impl Iterator<Item = u8> + Clone) -> Option<(u8, u8)> {
    Some((values.clone().min()?, values.max()?))
}

fn verdict(blocks: &[Seen]) -> Verdict {
    let has = |verdict| blocks.iter().any(|seen| seen.verdict == verdict);
    match (has(Verdict::Bad), has(Verdict::Good)) {
        (true, _) => Verdict::Bad,
        (false, true) => Verdict::Good,
        (false, false) => Verdict::None,
    }
}

fn standing(blocks: &[Seen]) -> Standing {
    let has = |standing| blocks.iter().any(|seen| seen.standing == standing);
    match (has(Standing::Lost), has(Standing::Waiting)) {
        (true, _) => Standing::Lost,
        (false, true) => Standing::Waiting,
        (false, false) => Standing::Read,
    }
}

/// The blocks from which on another mode is in force. A fresh state has audio and data off.
pub fn changes(blocks: &[Seen]) -> Vec<(usize, Mode)> {
    let mut last = Mode { audio: 31, lsd: 0 };
    let mut changes = Vec::new();
    for (number, seen) in blocks.iter().enumerate() {
        match seen.mode {
            Some(mode) if mode != last => {
                last = mode;
                changes.push((number, mode));
            }
            _ => {}
        }
    }
    changes
}

#[cfg(test)]
mod tests {
    use super::*;

    #[test]
    fn a_column_has_no_more_blocks_than_it_must() {
        let cases = [(0, 1), (1, 1), (250, 1), (251, 2), (500, 2), (501, 5), (1251, 10), (5000, 20), (5001, 50)];
        for (blocks, each) in cases {
            assert_eq!(blocks_a_column(blocks), each, "{blocks}");
        }
        assert_eq!(blocks_a_column(10_000_000), 50_000);
    }

    #[test]
    fn a_small_share_is_seen() {
        assert_eq!(shares([7, 0, 0]), [1.0, 0.0, 0.0]);
        assert_eq!(shares([0, 5, 5]), [0.0, 0.5, 0.5]);
        let [carried, ones, none] = shares([4999, 1, 0]);
        assert!(ones > 0.15 && ones < 0.16 && none == 0.0 && (carried + ones - 1.0).abs() < 1e-9);
    }

    #[test]
    fn what_matters_most_shows() {
        let quiet = Seen {
            mute: Some(false),
            microphone: Microphone::None,
            kind: Kind::NotRead,
            code: None,
            held: None,
            mode: None,
            verdict: Verdict::None,
            standing: Standing::Read,
            found: None,
        };
        let mode = |audio, lsd| Some(Mode { audio, lsd });
        let blocks = [
            quiet,
            Seen { kind: Kind::Item, code: Some(0x25), mode: mode(20, 0), verdict: Verdict::Bad, ..quiet },
            Seen { kind: Kind::Item, code: Some(0x26), standing: Standing::Lost, ..quiet },
            Seen { mute: Some(true), mode: mode(27, 5), microphone: Microphone::Ones, ..quiet },
            Seen { verdict: Verdict::Good, standing: Standing::Waiting, ..quiet },
        ];
        let expected = Column {
            mute: true,
            microphone: [0, 1, 4],
            kind: Kind::Item,
            code: Some(0x25),
            held: None,
            audio: Some((4, 6)),
            data: Some((0, 5)),
            verdict: Verdict::Bad,
            standing: Standing::Lost,
        };
        assert_eq!(columns(&blocks, 5), [expected]);
        assert_eq!(columns(&blocks, 2).len(), 3);
    }
}
