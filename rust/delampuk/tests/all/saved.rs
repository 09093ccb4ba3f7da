//! States as octets.

use delampuk::{Call, NoSavedForm, Reader, Sender, Step, Walk, LINE, LSD, VOICE};

use crate::common::{idle_blocks, send, sender_after, CUES, ESCAPE, IDLE, SPEECH};
use crate::walking::slipped;

/// A loaded sender goes on as the saved one does, with an item due and audio muted.
#[test]
fn a_sender_goes_on() {
    let mut saved = sender_after(&[SPEECH, CUES, ESCAPE]);
    let mut loaded = Sender::load(&saved.save()).expect("a sender was saved");
    for call in [Call::offer(IDLE).muted(), Call::offer(IDLE).muted(), Call::offer(CUES)] {
        assert_eq!(send(&mut saved, call), send(&mut loaded, call));
    }
    assert_eq!(saved.save(), loaded.save());
    assert_ne!(saved, sender_after(&[]));
}

#[test]
fn a_reader_goes_on() {
    let recording = idle_blocks(9);
    let mut saved = Reader::new();
    for line in recording.chunks(LINE) {
        let mut loaded = Reader::load(&saved.save()).expect("a reader was saved");
        let read = |reader: &mut Reader| reader.read(line, &mut [0; VOICE], &mut [0; LSD]);
        assert_eq!(read(&mut saved), read(&mut loaded));
        assert_eq!(saved, loaded);
    }
    assert_ne!(saved, Reader::new());
}

/// Every octet comes back, though no call would take some of them.
#[test]
fn no_octet_is_touched() {
    for shift in 0..=255_u8 {
        let octets: Vec<u8> = (0..Walk::OCTETS).map(|index| (31 * index) as u8 ^ shift).collect();
        let (sender, reader) = (&octets[..Sender::OCTETS], &octets[..Reader::OCTETS]);
        assert_eq!(Sender::load(sender).map(|state| state.save().to_vec()), Ok(sender.to_vec()));
        assert_eq!(Reader::load(reader).map(|state| state.save().to_vec()), Ok(reader.to_vec()));
        assert_eq!(Walk::load(&[], &octets).map(|state| state.save().to_vec()), Ok(octets));
    }
}

#[test]
fn other_lengths_are_no_saved_form() {
    let octets = [0; 40];
    for length in 0..octets.len() {
        let (saved, none) = (&octets[..length], Some(NoSavedForm { length }));
        assert_eq!(Sender::load(saved).err(), none.filter(|_| length != 6));
        assert_eq!(Reader::load(saved).err(), none.filter(|_| length != 12));
        assert_eq!(Walk::load(&[], saved).err(), none.filter(|_| length != 21));
    }
    let error: Box<dyn std::error::Error> = NoSavedForm { length: 7 }.into();
    assert_eq!(error.to_string(), "no saved form of this state has 7 octets");
}

/// The order of the octets is part of what is promised to those who saved them.
#[test]
fn fresh_octets() {
    assert_eq!(Sender::new().save(), [31, 31, 0, 1, 0, 0]);
    assert_eq!(Reader::new().save(), [31, 0, 31, 0, 0, 0, 63, 0, 0, 0, 0, 0]);
    let walk = Walk::from_place(&[], 0x0102, Reader::new());
    assert_eq!(walk.save()[12..], [0, 2, 1, 0, 0, 0, 0, 0, 0]);
}

/// States that version 0.1.0 saved, after the sessions below.
mod stored {
    pub const SENDER: [u8; 6] = [25, 31, 5, 3, 1, 5];
    pub const READER: [u8; 12] = [31, 5, 31, 5, 1, 3, 48, 0, 1, 0, 1, 14];
    pub const WALK: [u8; 21] = [31, 0, 31, 0, 0, 0, 63, 0, 0, 0, 0, 0, 1, 139, 7, 0, 0, 0, 0, 0, 0];
}

/// Six idle blocks, audio and data, mute, and an escape in the last of them; its alignment is harmed.
fn session() -> (Sender, Reader) {
    let (mut sender, mut reader) = (Sender::new(), Reader::new());
    let commands = [SPEECH, CUES].map(Call::offer);
    let muted = [IDLE, ESCAPE].map(|code| Call::offer(code).muted());
    for call in [Call::offer(IDLE); 6].into_iter().chain(commands).chain(muted) {
        let (_, mut line) = send(&mut sender, call).expect("all of them are carried");
        line[3] ^= u8::from(call.code == ESCAPE);
        reader.read(&line, &mut [0; VOICE], &mut [0; LSD]).expect("the lengths are right");
    }
    (sender, reader)
}

/// What an earlier version saved is the state that the same session leaves today.
#[test]
fn states_of_version_0_1_0_are_loaded() {
    let (sender, reader) = session();
    assert_eq!(Sender::load(&stored::SENDER), Ok(sender));
    assert_eq!(Reader::load(&stored::READER), Ok(reader));
    let recording = slipped();
    let mut walk = Walk::new(&recording).expect("there is a first place");
    for _ in 0..12 {
        walk.step(&mut [0; VOICE], &mut [0; LSD]).expect("no step is refused");
    }
    let mut loaded = Walk::load(&recording, &stored::WALK).expect("a walk was saved");
    assert_eq!(loaded, walk);
    assert_eq!(loaded.step(&mut [0; VOICE], &mut [0; LSD]), Ok(Step::Place(1938)));
}
