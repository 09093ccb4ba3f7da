//! What can be asked: the mode, what counts, which word is due, what a code is, and the version.

use delampuk::{explain, fits, is_carried, version, Call, CodeKind, Counts, Due, Mode, Places, Preset, Reader, Sender};
use delampuk::{Block, Standing, Verdict, Word, LSD, VOICE};

use crate::common::{send, sender_after, AUDIO_OFF, CUES, ESCAPE, IDLE, SPEECH};

#[test]
fn a_sender_tells_what_it_is_at() {
    let fresh = Sender::new();
    assert_eq!((fresh.mode(), fresh.chosen(), fresh.due()), (Mode { audio: 31, lsd: 0 }, 31, Due::Plain));
    let mut sender = sender_after(&[SPEECH, CUES, ESCAPE]);
    assert_eq!((sender.mode(), sender.chosen(), sender.due()), (Mode { audio: 25, lsd: 5 }, 25, Due::Item));
    for _ in 0..2 {
        send(&mut sender, Call::offer(IDLE).muted()).expect("an item, and then a code that is held");
    }
    assert_eq!((sender.mode(), sender.chosen(), sender.due()), (Mode { audio: 31, lsd: 5 }, 25, Due::Plain));
}

/// Six blocks until the place is known, then commands and an escape.
#[test]
fn a_reader_tells_what_it_is_at() {
    let (mut sender, mut reader) = (Sender::new(), Reader::new());
    let mut read = |code: u8| {
        let (_, line) = send(&mut sender, Call::offer(code)).expect("all of them are carried");
        reader.read(&line, &mut [0; VOICE], &mut [0; LSD]).expect("the lengths are right");
        (reader.mode(), reader.next_block(), reader.due())
    };
    let off = Mode { audio: 31, lsd: 0 };
    for _ in 1..=5 {
        assert_eq!(read(IDLE), (off, None, Due::Plain));
    }
    assert_eq!(read(IDLE), (off, Some(7), Due::Plain));
    assert_eq!(read(SPEECH), (Mode { audio: 25, lsd: 0 }, Some(8), Due::Plain));
    assert_eq!(read(CUES), (Mode { audio: 25, lsd: 5 }, Some(1), Due::Plain));
    assert_eq!(read(ESCAPE), (Mode { audio: 25, lsd: 5 }, Some(2), Due::Item));
}

/// A sender opens no message, so that the states are saved ones.
#[test]
fn a_reader_tells_what_is_left_of_a_message() {
    let due = |kind: u8, words: u8| {
        let saved = [31, 0, 31, 0, 0, 1, 63, 0, kind, words, 1, 0];
        Reader::load(&saved).expect("any octets load").due()
    };
    assert_eq!([due(2, 9), due(3, 9), due(3, 0)], [Due::Length, Due::Message(9), Due::Plain]);
}

#[test]
fn a_mode_tells_what_counts() {
    let counts = |audio, lsd| Mode { audio, lsd }.counts();
    assert_eq!(counts(31, 0), Counts { voice_octets: 0, lsd_bits: 0 });
    assert_eq!(counts(25, 5), Counts { voice_octets: 120, lsd_bits: 160 });
    assert_eq!(counts(18, 1), Counts { voice_octets: 140, lsd_bits: 6 });
    assert_eq!(counts(31, 14), Counts { voice_octets: 0, lsd_bits: 8 * LSD });
    assert_eq!(counts(0, 15), Counts { voice_octets: 0, lsd_bits: 0 });
}

#[test]
fn a_code_is_explained() {
    let places =
        |first, last, first_octet, last_octet| Places { bits: first..=last, service_octets: first_octet..=last_octet };
    assert_eq!(explain(0), CodeKind::Neutral);
    assert_eq!(explain(SPEECH), CodeKind::Audio(places(1, 6, 17, 16)));
    assert_eq!(explain(AUDIO_OFF), CodeKind::Audio(places(1, 0, 17, 16)));
    assert_eq!(explain(CUES), CodeKind::Lsd(places(7, 7, 17, 16)));
    assert_eq!(explain(0x62), CodeKind::Lsd(places(8, 7, 29, 40)));
    assert_eq!([explain(ESCAPE), explain(0xF9), explain(IDLE)], [CodeKind::Escape, CodeKind::Message, CodeKind::Other]);
    assert_eq!([SPEECH, ESCAPE, IDLE, 0x01, 0xF9].map(is_carried), [true, true, true, false, false]);
}

#[test]
fn debug_shows_codes_in_hex() {
    let block = Block { standing: Standing::Read, verdict: Verdict::Good, word: Word::Mended(0x0B) };
    assert_eq!(format!("{block:?}"), "Block { standing: Read, verdict: Good, word: Mended(0x0B) }");
    assert_eq!(format!("{:?}", Word::Unreadable), "Unreadable");
    let call = "Call { mute: true, code: 0xF0, a: false, e: false, t: false }";
    assert_eq!(format!("{:?}", Call::offer(ESCAPE).muted()), call);
    let preset = Preset::read(25 << 11 | 5 << 6).expect("both values are listed and do not overlap");
    assert!(format!("{preset:?}").ends_with("offer: 0x65 }"), "{preset:?}");
}

#[test]
fn the_archive_is_of_this_crates_version() {
    assert!(fits());
    assert_eq!(version().to_string(), env!("CARGO_PKG_VERSION"));
}
