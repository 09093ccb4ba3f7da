//! Sending a block (01, "Sending a block").

use super::bits::BitReader;
use super::codes::{self, Layout, AUDIO, DATA, ESCAPE};
use super::{bas, crc};
use crate::forms::{self, Mode, Offer, SendAnswer, Sender, LINE, LSD, VOICE};

const OFF: u8 = 31;
/// First bits of the even and odd frames of blocks 1 to 8, but for T.
const EVEN_FIRSTS: [u8; 8] = [0, 0, 0, 0, 0, 1, 0, 0];
const ODD_FIRSTS: [u8; 8] = [0, 0, 1, 0, 1, 1, 0, 0];

/// Whose word goes.
#[derive(Clone, Copy, PartialEq)]
enum Turn {
    Item,
    MuteOff,
    Release,
    Offered,
}

/// Frames one block and moves the state on, or refuses.
pub fn send(state: &mut Sender, offer: &Offer, line: &mut [u8]) -> SendAnswer {
    let turn = turn(state, offer.mute);
    if let Some(number) = refusal(state, offer, line, turn) {
        return forms::send_refused(number);
    }
    let code = match turn {
        Turn::Item | Turn::Offered => offer.code,
        Turn::MuteOff => OFF,
        Turn::Release => state.chosen,
    };
    write_block(state, offer, code, line);
    let next = after_word(*state, turn, code);
    *state = Sender { block: state.block % 8 + 1, remainder: crc::of_block(line), ..next };
    match turn {
        Turn::Item | Turn::Offered => forms::SENT,
        Turn::MuteOff | Turn::Release => forms::HELD,
    }
}

fn turn(state: &Sender, mute: bool) -> Turn {
    let open = state.mode.audio != OFF;
    if state.due != 0 {
        Turn::Item
    } else if mute && open {
        Turn::MuteOff
    } else if !mute && !open && state.chosen != OFF {
        Turn::Release
    } else {
        Turn::Offered
    }
}

fn in_range(state: &Sender) -> bool {
    let follows = state.mode.audio == OFF || state.mode.audio == state.chosen;
    let chosen = Mode { audio: state.chosen, ..state.mode };
    codes::in_range(chosen) && follows && (1..=8).contains(&state.block) && state.remainder <= 15
}

fn refusal(state: &Sender, offer: &Offer, line: &[u8], turn: Turn) -> Option<u8> {
    if !in_range(state) {
        Some(1)
    } else if line.len() != LINE {
        Some(2)
    } else if offer.voice.len() != VOICE {
        Some(3)
    } else if offer.lsd.len() != LSD {
        Some(4)
    } else {
        match turn {
            Turn::Item => (codes::attribute(offer.code) == ESCAPE).then_some(6),
            Turn::MuteOff | Turn::Release => None,
            Turn::Offered => refusal_of_offered(state, offer),
        }
    }
}

fn refusal_of_offered(state: &Sender, offer: &Offer) -> Option<u8> {
    let attribute = codes::attribute(offer.code);
    if !codes::carried(offer.code) {
        Some(5)
    } else if offer.mute && attribute == AUDIO {
        Some(7)
    } else {
        overlaps(state, offer.code).then_some(8)
    }
}

fn overlaps(state: &Sender, code: u8) -> bool {
    let value = codes::value(code);
    match codes::attribute(code) {
        AUDIO => codes::overlap(Mode { audio: value, ..state.mode }),
        DATA => codes::overlap(Mode { audio: state.chosen, lsd: value }),
        _ => false,
    }
}

fn after_word(state: Sender, turn: Turn, code: u8) -> Sender {
    let next = Sender { due: 0, ..state };
    let with_audio = |audio| Sender { mode: Mode { audio, ..state.mode }, ..next };
    let value = codes::value(code);
    match (turn, codes::attribute(code)) {
        (Turn::MuteOff, _) => with_audio(OFF),
        (Turn::Release, _) => with_audio(state.chosen),
        (Turn::Offered, AUDIO) if value == 0 => Sender { chosen: OFF, mode: forms::ALL_OFF, ..next },
        (Turn::Offered, AUDIO) => Sender { chosen: value, ..with_audio(value) },
        (Turn::Offered, DATA) => Sender { mode: Mode { lsd: value, ..state.mode }, ..next },
        (Turn::Offered, ESCAPE) if value < 24 => Sender { due: 1, ..next },
        _ => next,
    }
}

fn write_block(state: &Sender, offer: &Offer, code: u8, line: &mut [u8]) {
    let [a, e, t] = offer.flags.map(u8::from);
    let block = usize::from(state.block - 1);
    let even_first = EVEN_FIRSTS[block] | if block == 7 { t } else { 0 };
    let even = even_first << 7 | 0b001_1011;
    let odd = ODD_FIRSTS[block] << 7 | 1 << 6 | a << 5 | e << 4 | state.remainder;
    let [even_word, odd_word] = bas::sent(code);
    let layout = codes::layout(state.mode);
    let mut voice = BitReader::new(offer.voice);
    let mut lsd = BitReader::new(offer.lsd);
    let (even_frame, odd_frame) = line.split_at_mut(LINE / 2);
    let voice = if offer.mute { None } else { Some(&mut voice) };
    write_frames([even_frame, odd_frame], [[even, even_word], [odd, odd_word]], layout, voice, &mut lsd);
}

fn write_frames(
    frames: [&mut [u8]; 2],
    service: [[u8; 2]; 2],
    layout: Layout,
    mut voice: Option<&mut BitReader>,
    lsd: &mut BitReader,
) {
    for (frame, service) in frames.into_iter().zip(service) {
        write_frame(frame, u16::from_be_bytes(service), layout, voice.as_deref_mut(), lsd);
    }
}

fn write_frame(frame: &mut [u8], service: u16, layout: Layout, mut voice: Option<&mut BitReader>, lsd: &mut BitReader) {
    let voice_ones = !(0xFF_u8 >> layout.voice_bits);
    // bits that nobody holds, between voice and data
    let ones = !voice_ones & (0xFE << layout.data_bits) as u8;
    for (index, octet) in frame.iter_mut().enumerate() {
        let voice_part = match &mut voice {
            Some(voice) => (u16::from(voice.take(layout.voice_bits)) << (8 - layout.voice_bits)) as u8,
            None => voice_ones,
        };
        let lsd_part = lsd.take(layout.data_bits) << 1;
        let last = if index < 16 {
            (service >> (15 - index)) as u8 & 1
        } else if (layout.first..layout.end).contains(&index) {
            lsd.take(1)
        } else {
            1
        };
        *octet = voice_part | ones | lsd_part | last;
    }
}
