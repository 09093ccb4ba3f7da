//! The examples do what they say.

use delampuk::{list, LINE, LISTING_MAX, RECORDING_MAX};

use crate::common::idle_blocks;
use crate::walking::slipped;

#[allow(dead_code)]
#[path = "../../examples/lesson.rs"]
mod lesson;

#[allow(dead_code)]
#[path = "../../examples/stream.rs"]
mod stream;

fn text(write: impl FnOnce(&mut Vec<u8>) -> Result<(), Box<dyn std::error::Error>>) -> String {
    let mut out = Vec::new();
    write(&mut out).expect("the example goes through");
    String::from_utf8(out).expect("an example writes text")
}

fn streamed(recording: &[u8]) -> String {
    text(|out| stream::run(recording, out))
}

/// From the escape on: the item, mute's "audio off" after it, and the chosen audio again.
#[test]
fn the_lesson_keeps_the_mute() {
    let told = text(|out| lesson::run(out));
    let lines: Vec<&str> = told.lines().collect();
    assert_eq!(
        lines[9..],
        [
            "    8       F0  no    Sent    Read     Mended(0xF0)        the microphone",
            "    9       12  yes   Sent    Read     Item(0x12)          ones",
            "   10       80  yes   Held    Read     Mended(0x1F)        ones",
            "   11       80  yes   Sent    Read     Mended(0x80)        nothing",
            "   12       80  no    Held    Read     Mended(0x19)        nothing",
            "   13       80  no    Sent    Read     Mended(0x80)        the microphone",
        ]
    );
}

/// A stream that could be a recording has the listing of a recording, wherever it is cut off.
#[test]
fn a_short_stream_is_listed_as_a_recording() {
    let recording = slipped();
    for length in 0..=recording.len() {
        let mut listing = [0; LISTING_MAX];
        let end = list(&recording[..length], &mut listing).expect("there is room for every listing");
        let listed = std::str::from_utf8(&listing[..end]).expect("a listing is ASCII");
        assert_eq!(streamed(&recording[..length]), listed, "{length} octets");
    }
}

/// A thousand blocks, then octets in which no window finds a place, and nine blocks more.
#[test]
fn a_long_stream_is_found_again() {
    const NOISE: usize = 5000;
    let (before, after) = (idle_blocks(1000), idle_blocks(9));
    assert!(before.len() > RECORDING_MAX);
    let told = streamed(&[&before[..], &[0; NOISE], &after].concat());
    let lines: Vec<&str> = told.lines().collect();
    assert_eq!(lines[..2], ["found 0", "0 waiting none --"]);
    assert_eq!(lines[1000..1002], ["999 read good 80", "1000 read bad --"]);
    assert_eq!(
        lines[1003..1006],
        ["1002 lost none --", &format!("found {}", 1000 * LINE + NOISE), "1003 waiting none --"]
    );
    assert_eq!(lines[lines.len() - 2..], ["1011 read good 80", "left 0"]);
}
