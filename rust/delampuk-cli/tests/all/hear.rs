//! `delampuk hear`.

use std::fs;

use delampuk::{Standing, Step, Walk, LSD, RECORDING_MAX, VOICE};

use crate::common::{in_repository, run, run_in_pieces, sent};
use crate::random::recordings;

/// The voice that a walk of the library hands out.
fn walked(recording: &[u8]) -> Vec<u8> {
    let mut heard = Vec::new();
    let mut walk = match Walk::new(recording) {
        Ok(walk) => walk,
        Err(_) => return heard,
    };
    loop {
        let (mode, mut voice) = (walk.reader().mode(), [0; VOICE]);
        match walk.step(&mut voice, &mut [0; LSD]).expect("a walk from a place that was found is not refused") {
            Step::Block(block) if block.standing == Standing::Read => {
                heard.extend(&voice[..mode.counts().voice_octets]);
            }
            Step::End(_) => return heard,
            _ => {}
        }
    }
}

#[test]
fn random_recordings_are_heard_as_the_library_walks() {
    let mut octets = 0;
    for recording in recordings(2210, 80) {
        let ran = run(&["hear"], &recording);
        assert_eq!(ran.out, walked(&recording));
        assert_eq!(run_in_pieces(&["hear"], &recording, 331), ran);
        let listed = run(&["list"], &recording);
        assert!(ran.error.starts_with(listed.text()), "the lines are those of a listing");
        assert_eq!(ran.status, listed.status);
        octets += ran.out.len();
    }
    assert!(octets > 10_000, "{octets} octets of voice");
}

#[test]
fn the_stored_recording_has_its_stored_voice() {
    let recording = in_repository("crates/hear/stdin");
    let ran = run(&["hear", recording.to_str().expect("its name is text")], b"");
    assert_eq!(ran.out, fs::read(in_repository("crates/hear/stdout")).expect("it is there"));
    assert_eq!(ran.status, 0);
}

#[test]
fn no_alignment_is_told_with_its_meaning() {
    let ran = run(&["hear"], &[0; 200_000]);
    assert_eq!((ran.status, ran.out.len()), (1, 0));
    assert_eq!(ran.error, "none 10\ndelampuk hear: refused 10: no alignment is found\n");
}

/// Longer than the library takes at once.
#[test]
fn a_long_session_comes_back_whole() {
    let voice: Vec<u8> = (0..3000 * 120).map(|i: u32| (i * 7 / 3) as u8).collect();
    let recording = sent(&["80*6", "14", "80*3000"], &voice);
    assert!(recording.len() > 7 * RECORDING_MAX);
    let ran = run(&["hear"], &recording);
    assert_eq!(ran.status, 0);
    assert!(ran.out == voice);
}

/// Samples of a tone of 440 Hz at 8 kHz, with as many of the highest bits as the audio holds.
fn tone(samples: usize, width: u32) -> Vec<u8> {
    let angle = |i: usize| std::f64::consts::TAU * 440.0 * (i as f64 + 0.5) / 8000.0;
    let mask = 0xFF_u8 << (8 - width);
    (0..samples).map(|i| (128.0 + 100.0 * angle(i).sin()) as u8 & mask).collect()
}

/// The highest bits of each octet, one after the other.
fn packed(samples: &[u8], width: usize) -> Vec<u8> {
    let bits: Vec<u8> = samples.iter().flat_map(|sample| (0..width).map(move |bit| sample >> (7 - bit) & 1)).collect();
    bits.chunks(8).map(|bits| bits.iter().fold(0, |octet, bit| octet << 1 | bit)).collect()
}

#[test]
fn a_tone_sounds_as_it_was_sent() {
    for (code, width) in [("18", 7), ("14", 6), ("1B", 4), ("0B", 1)] {
        let samples = tone(8000, width);
        let recording = sent(&["80*6", code, "80*50"], &packed(&samples, width as usize));
        let ran = run(&["hear", "--octets"], &recording);
        // the block of the command is the first that is read, and has no audio in force
        let (first, heard) = ran.out.split_at(160);
        assert_eq!(first, [0xFF; 160]);
        assert!(heard == samples, "{width} bits");
        let crossings = heard.windows(2).filter(|pair| pair[0] < 128 && pair[1] >= 128).count();
        assert!((439..=440).contains(&crossings), "{crossings} Hz with {width} bits");
    }
}

/// Mute's first block carries ones where voice would be, and then audio is off until the release.
#[test]
fn a_mute_keeps_its_time_in_octets() {
    let recording = sent(&["80*6", "18", "80*2", "80:m*3", "80*3"], &[0; 5 * 140]);
    let octets = run(&["hear", "--octets"], &recording).out;
    let blocks: Vec<&[u8]> = octets.chunks(160).collect();
    let sounds: Vec<u8> = blocks.iter().map(|block| block[0]).collect();
    assert!(blocks.iter().zip(&sounds).all(|(block, sound)| block.iter().all(|octet| octet == sound)));
    assert_eq!(sounds, [0xFF, 0, 0, 0xFE, 0xFF, 0xFF, 0xFF, 0, 0]);
    let packed = run(&["hear"], &recording).out;
    assert_eq!(packed, [[0; 140], [0; 140], [0xFF; 140], [0; 140], [0; 140]].concat());
}
