//! `model session`: one fixed session of sending calls, for another implementation to be held to.

use std::io::{self, BufWriter, Write};

use super::tape::octets;
use super::{written, Options};
use model::frame::{BLOCK_OCTETS, DATA_OCTETS, VOICE_OCTETS};
use model::refusal::Refusal;
use model::sender::{send, Answer, Call, SenderState};
use model::service::Flags;
use model::text;

/// The calls: the offered code, and letters out of m (mute), a, e, t, and for calls with something wrong in them
/// l (a short line), v (short voice), d (short data), f (a forged state).
const SCRIPT: [(u8, &str); 52] = [
    // Idle; voice of 7 bits, and data that overlaps it; voice of 6 bits beside data; a code not carried; T in block 8.
    (0x1F, ""),
    (0x18, "a"),
    (0x80, ""),
    (0x18, "e"),
    (0x65, ""),
    (0x14, "ae"),
    (0x65, ""),
    (0x80, ""),
    (0x18, ""),
    (0x41, ""),
    (0x80, "t"),
    // An escape, a forbidden item, mute on the item, then mute's own "audio off".
    (0xF0, ""),
    (0xE1, ""),
    (0x18, "m"),
    (0x65, "m"),
    // Muted: audio commands are refused, data is judged against the chosen audio.
    (0x80, "m"),
    (0x14, "m"),
    (0x1F, "m"),
    (0x00, "m"),
    (0x68, "m"),
    (0x61, "m"),
    (0x80, "mt"),
    // The release holds the offered code, which is offered again.
    (0xC5, ""),
    (0xC5, "t"),
    (0x65, "a"),
    // Wrong lengths and a forged state, alone and together: the smallest number answers.
    (0x80, "l"),
    (0x80, "v"),
    (0x80, "d"),
    (0x80, "f"),
    (0x41, "lvd"),
    (0x41, "lvdf"),
    // Neutral, words without effect on the mode, data alone over all bits.
    (0x00, ""),
    (0x80, ""),
    (0xF8, "aet"),
    (0xF9, ""),
    (0x20, ""),
    (0x6E, ""),
    (0x80, "et"),
    (0x0B, ""),
    (0x60, "t"),
    // Voice of 7 bits, muted and released; then another voice, and data that overlaps it or not.
    (0x12, ""),
    (0x80, "a"),
    (0x80, "m"),
    (0x1B, ""),
    (0x1B, ""),
    (0x6A, ""),
    (0x67, "e"),
    // An escape while muted; its item comes before the release, which holds a code that is not carried.
    (0x80, "m"),
    (0xF1, "mt"),
    (0x80, ""),
    (0x41, "aet"),
    // Audio off by the caller, which mute's own is not: the chosen audio goes too.
    (0x1F, ""),
];

/// Runs the command.
pub fn run(options: Options) -> Result<(), String> {
    options.none()?;
    let mut out = BufWriter::new(io::stdout().lock());
    written(print(&mut out).and_then(|()| out.flush()))
}

fn print(out: &mut impl Write) -> io::Result<()> {
    let mut state = SenderState::FRESH;
    for (index, (code, letters)) in SCRIPT.into_iter().enumerate() {
        if letters.contains('f') {
            // A forged state is for one call alone; no session reaches a block numbered 9.
            let mut forged = SenderState { block: 9, ..state };
            print_call(out, &mut forged, index + 1, code, letters)?;
        } else {
            print_call(out, &mut state, index + 1, code, letters)?;
        }
    }
    Ok(())
}

/// Makes a call, and prints its answer, the state that it leaves, and its block where it wrote one.
fn print_call(out: &mut impl Write, state: &mut SenderState, number: usize, code: u8, letters: &str) -> io::Result<()> {
    let has = |letter| letters.contains(letter);
    let voice = octets(less(VOICE_OCTETS, has('v')), |i| (i * 7 + number * 31 + 3) % 251);
    let data = octets(less(DATA_OCTETS, has('d')), |i| (i * 13 + number * 17 + 5) % 241);
    let mut line = vec![0; less(BLOCK_OCTETS, has('l'))];
    let flags = Flags { a: has('a'), e: has('e'), t: has('t') };
    let call = Call { mute: has('m'), offered: code, flags, voice: &voice, data: &data };
    let answer = send(state, &call, &mut line);
    let shown: String = "maet".chars().map(|letter| if has(letter) { letter } else { '-' }).collect();
    writeln!(out, "{number} {code:02X} {shown} {}: {}", words(answer), told(state))?;
    match answer {
        Ok(_) => writeln!(out, "{}", text::hex(&line)),
        Err(_) => Ok(()),
    }
}

/// A length, or one octet less.
fn less(length: usize, short: bool) -> usize {
    length - usize::from(short)
}

fn words(answer: Result<Answer, Refusal>) -> String {
    match answer {
        Ok(Answer::Sent) => "sent".to_string(),
        Ok(Answer::Held) => "held".to_string(),
        Err(refusal) => format!("refused {}", refusal.number()),
    }
}

fn told(state: &SenderState) -> String {
    let SenderState { chosen, in_force, data, block, item_due, remainder } = *state;
    let due = u8::from(item_due);
    format!("chosen {chosen} in force {in_force} data {data} block {block} due {due} remainder {remainder}")
}
