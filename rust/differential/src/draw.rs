//! States, buffers, line blocks and recordings at random: most such as a session meets, some damaged, some forged.

use model::codes::{Mode, AUDIO_OFF};
use model::forge::{first_bits_before, Line};
use model::frame::{BLOCK_OCTETS, DATA_OCTETS, VOICE_OCTETS};
use model::random::Random;
use model::service;
use model::{bas, bits};

use crate::calls::{Octets, Read, Send};
use crate::states::{Reader, Sender};

/// A mode that a state may hold.
fn mode(random: &mut Random) -> Mode {
    loop {
        let mode = Mode { audio: random.below(32) as u8, data: random.below(15) as u8 };
        if mode.in_range() {
            return mode;
        }
    }
}

/// A code; most are carried, and commands are frequent.
fn code(random: &mut Random) -> u8 {
    match random.below(10) {
        0..=2 => random.pick(&[0, 11, 18, 19, 20, 21, 24, 25, 27, 28, 29, 31]),
        3..=5 => 0x60 | random.below(15) as u8,
        6 => 0xE0 | (random.octet() % 32),
        7 => random.pick(&[0x1F, 0x20, 0x80, 0xBF, 0xDF]),
        _ => random.octet(),
    }
}

/// A number that C takes for a switch: 0 in about half the cases, else any.
pub fn switch(random: &mut Random) -> u8 {
    match random.below(4) {
        0 | 1 => 0,
        2 => 1,
        _ => random.octet(),
    }
}

/// Some octets become any octets: in most cases none, else one, else all.
fn forge(random: &mut Random, octets: &mut [u8]) {
    match random.below(10) {
        0 => {
            for octet in octets {
                *octet = random.octet();
            }
        }
        1 | 2 => {
            let index = random.below(octets.len());
            octets[index] = random.octet();
        }
        _ => {}
    }
}

/// A sender's state in range; `due` is any number.
pub fn sender_in_range(random: &mut Random) -> Sender {
    let mode = mode(random);
    let in_force = if random.percent(65) { mode.audio } else { AUDIO_OFF };
    let due = if random.percent(75) { 0 } else { switch(random) };
    [mode.audio, in_force, mode.data, 1 + random.below(8) as u8, due, random.below(16) as u8]
}

/// A sender's state, in range or forged.
pub fn sender(random: &mut Random) -> Sender {
    let mut state = sender_in_range(random);
    forge(random, &mut state);
    state
}

/// A reader's state in range, more or less in step with a sender.
pub fn reader_in_range(random: &mut Random) -> Reader {
    let (mode, kept) = (mode(random), mode(random));
    let block = random.pick(&[1, 2, 3, 4, 5, 6, 6, 6, 7, 8]);
    let in_step = bits::number(&first_bits_before(block)) as u8;
    let firsts = if random.percent(75) { in_step } else { random.octet() };
    let (any_kind, any_words) = (random.octet(), random.octet());
    let kind = random.pick(&[0, 0, 0, 0, 1, 2, 3, 3, any_kind]);
    let words = random.pick(&[0, 1, 2, 255, any_words]);
    [
        mode.audio,
        mode.data,
        kept.audio,
        kept.data,
        random.pick(&[0, 0, 0, 1, 2]),
        if random.percent(75) { block } else { 0 },
        firsts,
        random.pick(&[0, 0, 1, 2]),
        kind,
        words,
        if random.percent(10) { 0 } else { 1 | switch(random) },
        random.below(16) as u8,
    ]
}

/// A reader's state, in range or forged.
pub fn reader(random: &mut Random) -> Reader {
    let mut state = reader_in_range(random);
    forge(random, &mut state);
    state
}

/// A buffer of that length, in a few cases of another one.
pub fn buffer(random: &mut Random, length: usize) -> Octets {
    let length = match random.below(100) {
        0..=2 => length - 1 + 2 * random.below(2),
        3 => random.pick(&[0, VOICE_OCTETS, DATA_OCTETS, BLOCK_OCTETS, 2 * length]),
        4 => random.below(400),
        _ => length,
    };
    Octets(random.octets(length))
}

/// A sending call on a state, with buffers of the right lengths.
pub fn send_on(random: &mut Random, state: Sender) -> Send {
    Send {
        state,
        mute: if random.percent(60) { 0 } else { switch(random) },
        code: code(random),
        flags: [switch(random), switch(random), switch(random)],
        voice: Octets(random.octets(VOICE_OCTETS)),
        lsd: Octets(random.octets(DATA_OCTETS)),
        line: Octets(random.octets(BLOCK_OCTETS)),
    }
}

/// Any sending call.
pub fn send(random: &mut Random) -> Send {
    let state = sender(random);
    Send {
        voice: buffer(random, VOICE_OCTETS),
        lsd: buffer(random, DATA_OCTETS),
        line: buffer(random, BLOCK_OCTETS),
        ..send_on(random, state)
    }
}

/// A reading call on a state and a line block, with buffers of the right lengths that hold something.
pub fn read_on(random: &mut Random, state: Reader, line: Vec<u8>) -> Read {
    let (voice, lsd) = (random.octets(VOICE_OCTETS), random.octets(DATA_OCTETS));
    Read { state, line: Octets(line), voice: Octets(voice), lsd: Octets(lsd) }
}

/// Any reading call.
pub fn read(random: &mut Random) -> Read {
    let state = reader(random);
    let line = if random.percent(5) { buffer(random, BLOCK_OCTETS) } else { Octets(line(random, state)) };
    Read { state, line, voice: buffer(random, VOICE_OCTETS), lsd: buffer(random, DATA_OCTETS) }
}

/// A line block that fits a reader's state more or less: service bits, alignment, word and C bits may be damaged.
pub fn line(random: &mut Random, state: Reader) -> Vec<u8> {
    let octets = random.octets(BLOCK_OCTETS);
    if random.percent(5) {
        return octets;
    }
    let [_, _, _, _, _, block, .., remainder] = state;
    // Where the place is unknown, block 6 has the bit that completes the pattern.
    let block = if (1..=8).contains(&block) { block } else { 6 };
    let code = code(random);
    let mut line = Line::over(octets, block, code);
    if random.percent(70) {
        line = line.c_bits(remainder);
    }
    if random.percent(20) {
        line = line.first_bit(random.percent(50));
    }
    if random.percent(40) {
        line = line.word(damaged_word(random, code));
    }
    if random.percent(40) {
        damage_alignment(random, &mut line);
    }
    line.octets
}

/// The word of a code with up to four bits turned.
fn damaged_word(random: &mut Random, code: u8) -> [u8; 2] {
    let mut word = u16::from_be_bytes(bas::sent(code));
    for _ in 0..random.below(5) {
        word ^= 1 << random.below(16);
    }
    word.to_be_bytes()
}

fn damage_alignment(random: &mut Random, line: &mut Line) {
    let alignment: Vec<_> = service::alignment_word().collect();
    for _ in 0..random.pick(&[1, 1, 2, 3, 5]) {
        let (half, number, value) = random.pick(&alignment);
        line.set(half, number, !value);
    }
}

/// So many blocks; the first seven are idle in most sessions, so that commands are read. The library's own sender
/// makes them, since it is fast and other tests hold it to the model; what comes of a session is the model's to say.
pub fn session(random: &mut Random, blocks: usize) -> Vec<u8> {
    let idle = if random.percent(80) { 7 } else { 0 };
    let mut sender = delampuk::Sender::new();
    let mut session = Vec::new();
    // Refused codes are followed by others; the bound is never met unless the sender has gone wrong.
    for _ in 0..100 * blocks {
        if session.len() == blocks * BLOCK_OCTETS {
            return session;
        }
        let code = if session.len() < idle * BLOCK_OCTETS { 0x80 } else { code(random) };
        let [a, e, t] = [(); 3].map(|()| random.percent(50));
        let (voice, lsd) = (random.octets(VOICE_OCTETS), random.octets(DATA_OCTETS));
        let mute = random.percent(20);
        let call = delampuk::Call { mute, code, a, e, t };
        let mut line = [0; BLOCK_OCTETS];
        if sender.send(&call, &voice, &lsd, &mut line).is_ok() {
            session.extend(line);
        }
    }
    panic!("the library's sender refuses every code in {sender:?}")
}

/// Damages a recording in place, or slips it by some octets.
pub fn damage(random: &mut Random, recording: &mut Vec<u8>) {
    if random.percent(40) {
        spoil_blocks(random, recording);
    }
    if random.percent(40) {
        for _ in 0..=random.below(12) {
            let octet = random.below(recording.len());
            let any_bit = random.below(8);
            // The lowest bit is the service channel's.
            recording[octet] ^= 1 << random.pick(&[0, 0, 0, any_bit]);
        }
    }
    if random.percent(40) {
        put_message(random, recording);
    }
    if random.percent(25) {
        let place = random.below(recording.len());
        let length = 1 + random.below(200);
        let junk = random.octets(length);
        recording.splice(place..place, junk);
    }
    if random.percent(15) {
        let place = random.below(recording.len());
        let end = recording.len().min(place + 1 + random.below(200));
        recording.drain(place..end);
    }
}

/// Puts a message into a recording, which our sender never sends: an opener, and in the next block how many words follow.
fn put_message(random: &mut Random, recording: &mut [u8]) {
    let first = random.below(recording.len() / BLOCK_OCTETS);
    let opener = 0xF9 + random.below(7) as u8;
    let words = random.below(6) as u8;
    for (block, code) in recording.chunks_exact_mut(BLOCK_OCTETS).skip(first).zip([opener, words]) {
        let line = Line { octets: block.to_vec() }.word(bas::sent(code));
        block.copy_from_slice(&line.octets);
    }
}

/// Turns service bits 1 to 16 of some blocks in a row.
fn spoil_blocks(random: &mut Random, recording: &mut [u8]) {
    let blocks = recording.len() / BLOCK_OCTETS;
    let first = random.below(blocks);
    for block in first..blocks.min(first + 1 + random.below(4)) {
        for _ in 0..=random.below(4) {
            let frame = 80 * random.below(2);
            recording[BLOCK_OCTETS * block + frame + random.below(16)] ^= 1;
        }
    }
}

/// A recording: noise, or a session with something before it, damaged or cut off.
pub fn recording(random: &mut Random) -> Vec<u8> {
    if random.percent(15) {
        let length = random.below(1200);
        return random.octets(length);
    }
    let blocks = 2 + random.below(20);
    let mut recording = session(random, blocks);
    if random.percent(60) {
        damage(random, &mut recording);
    }
    if random.percent(40) {
        let length = random.below(400);
        let noise = random.octets(length);
        recording.splice(0..0, noise);
    }
    if random.percent(30) {
        recording.truncate(recording.len() - random.below(recording.len().min(170)));
    }
    recording
}

/// An octet of a recording, or one past its end, far past it too.
pub fn place(random: &mut Random, length: usize) -> usize {
    match random.below(20) {
        0 => random.pick(&[usize::MAX, usize::MAX - 160, usize::MAX - 167, 1 << 63, 1 << 32, (1 << 32) - 1]),
        1 => random.bits() as usize,
        2 | 3 => length + random.below(200),
        4..=6 => length.saturating_sub(random.below(340)),
        7..=12 => 0,
        _ => random.below(length + 1),
    }
}
