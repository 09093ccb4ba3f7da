//! Each refusal by a call that deserves it, and that such a call changes nothing.

use delampuk::{search, Call, Preset, Reader, Refusal, Sender, Walk, LINE, LSD, RECORDING_MAX, VOICE};

use crate::common::{idle_blocks, sender_after, AUDIO_OFF, CUES, ESCAPE, IDLE, SPEECH};

/// A sender out of range: there is no block 9.
const FORGED_SENDER: [u8; 6] = [31, 31, 0, 9, 0, 0];
/// A reader out of range: a run of 3 wrong words is a loss.
const FORGED_READER: [u8; 12] = [31, 0, 31, 0, 3, 0, 63, 0, 0, 0, 0, 0];

fn forged_sender() -> Sender {
    Sender::load(&FORGED_SENDER).expect("any octets load")
}

fn forged_reader() -> Reader {
    Reader::load(&FORGED_READER).expect("any octets load")
}

/// Sends with buffers of these lengths; asks that a refusal leaves the sender and the line block as they were.
fn refused(mut sender: Sender, call: Call, voice: usize, lsd: usize, line: usize) -> Refusal {
    let before = sender.clone();
    let mut block = vec![0xA5; line];
    let refusal = sender.send(&call, &vec![0; voice], &vec![0; lsd], &mut block).expect_err("the call is refused");
    assert_eq!(sender, before);
    assert_eq!(block, vec![0xA5; line]);
    refusal
}

/// Reads into buffers of these lengths; asks that a refusal leaves the reader and both buffers as they were.
fn unread(mut reader: Reader, line: usize, voice: usize, lsd: usize) -> Refusal {
    let before = reader.clone();
    let (mut heard, mut cues) = (vec![0xA5; voice], vec![0x5A; lsd]);
    let refusal = reader.read(&vec![0; line], &mut heard, &mut cues).expect_err("the call is refused");
    assert_eq!(reader, before);
    assert_eq!((heard, cues), (vec![0xA5; voice], vec![0x5A; lsd]));
    refusal
}

#[test]
fn every_number_can_be_reached() {
    let idle = Call::offer(IDLE);
    let offered = |codes: &[u8], call: Call| refused(sender_after(codes), call, VOICE, LSD, LINE);
    let all = [
        refused(forged_sender(), idle, VOICE, LSD, LINE),
        refused(Sender::new(), idle, VOICE, LSD, LINE - 1),
        refused(Sender::new(), idle, VOICE + 1, LSD, LINE),
        refused(Sender::new(), idle, VOICE, 0, LINE),
        offered(&[], Call::offer(0x20 + 1)),
        offered(&[ESCAPE], Call::offer(ESCAPE)),
        offered(&[], Call::offer(AUDIO_OFF).muted()),
        offered(&[CUES], Call::offer(0x18)),
        search(&[0; 167], 0).expect_err("168 octets are needed"),
        search(&[0; 168], 0).expect_err("zeros have no alignment"),
        Preset::read(1).expect_err("the last six bits are zeros"),
    ];
    assert_eq!(all.map(Refusal::number), [1, 2, 3, 4, 5, 6, 7, 8, 9, 10, 11]);
}

#[test]
fn a_reader_refuses_the_first_four() {
    let all = [
        unread(forged_reader(), LINE, VOICE, LSD),
        unread(Reader::new(), LINE + 1, VOICE, LSD),
        unread(Reader::new(), LINE, 0, LSD),
        unread(Reader::new(), LINE, VOICE, LSD - 1),
    ];
    assert_eq!(all.map(Refusal::number), [1, 2, 3, 4]);
}

#[test]
fn a_walk_refuses_its_own_four() {
    let recording = idle_blocks(2);
    let step = |place: usize, reader: Reader, voice: usize, lsd: usize| {
        let mut walk = Walk::from_place(&recording, place, reader);
        let before = walk.clone();
        let refusal = walk.step(&mut vec![0; voice], &mut vec![0; lsd]).expect_err("the step is refused");
        assert_eq!(walk, before);
        refusal
    };
    let all = [
        step(0, forged_reader(), VOICE, LSD),
        step(0, Reader::new(), VOICE - 1, LSD),
        step(0, Reader::new(), VOICE, LSD + 1),
        step(recording.len() + 1, Reader::new(), VOICE, LSD),
    ];
    assert_eq!(all.map(Refusal::number), [1, 3, 4, 9]);
}

#[test]
fn the_smallest_number_goes_first() {
    let audio = Call::offer(SPEECH).muted();
    assert_eq!(refused(forged_sender(), audio, 0, 0, 0), Refusal::BadState);
    assert_eq!(refused(Sender::new(), audio, 0, 0, 0), Refusal::LineLength);
    assert_eq!(refused(Sender::new(), audio, 0, 0, LINE), Refusal::VoiceLength);
    assert_eq!(refused(Sender::new(), audio, VOICE, 0, LINE), Refusal::LsdLength);
    assert_eq!(search(&vec![0; RECORDING_MAX + 1], 0), Err(Refusal::Recording));
    assert_eq!(search(&vec![0; RECORDING_MAX], 0), Err(Refusal::NoPlace));
}

#[test]
fn a_refusal_says_its_number_and_why() {
    let error: Box<dyn std::error::Error> = Refusal::AudioWhileMuted.into();
    assert_eq!(error.to_string(), "refused 7: an audio command is offered while mute is set");
}
