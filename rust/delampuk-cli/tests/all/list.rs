//! `delampuk list`.

use std::fs;

use delampuk::{LISTING_MAX, RECORDING_MAX};

use crate::common::{in_repository, run, run_in_pieces, scratch, sent};
use crate::random::recordings;

fn listing(recording: &[u8]) -> Vec<u8> {
    let mut text = vec![0; LISTING_MAX];
    let length = delampuk::list(recording, &mut text).expect("there is room");
    text.truncate(length);
    text
}

#[test]
fn stored_recordings_have_their_stored_listings() {
    let mut count = 0;
    for entry in fs::read_dir(in_repository("tests/listings")).expect("the folder is there") {
        let file = entry.expect("it can be read").path();
        if file.extension() != Some("raw".as_ref()) || file.ends_with("too-long.raw") {
            continue;
        }
        let stored = fs::read(file.with_extension("txt")).expect("each has its listing");
        let name = file.to_str().expect("its name is text");
        let recording = fs::read(&file).expect("it can be read");
        let ran = run(&["list", name], b"");
        assert_eq!(ran.out, stored, "{name}");
        assert_eq!(ran.status, i32::from(stored.starts_with(b"none")), "{name}");
        assert_eq!(run(&["list", "-"], &recording), ran, "{name} by a pipe");
        assert_eq!(
            run_in_pieces(&["list"], &recording[..recording.len().min(2000)], 7).out,
            listing(&recording[..recording.len().min(2000)])
        );
        count += 1;
    }
    assert!(count >= 14, "{count} recordings");
}

#[test]
fn random_recordings_are_listed_as_the_library_does() {
    let (mut found_again, mut none) = (0, 0);
    for recording in recordings(221, 120) {
        let ran = run(&["list"], &recording);
        assert_eq!(ran.out, listing(&recording));
        found_again += ran.text().matches("found").count().saturating_sub(1);
        none += ran.text().matches("none 10").count();
    }
    assert!(found_again > 20 && none > 2, "{found_again} places after a loss, {none} with no place");
}

#[test]
fn none_is_told_with_its_meaning() {
    let ran = run(&["list"], &[0; 168]);
    assert_eq!((ran.status, ran.text()), (1, "none 10\n"));
    assert_eq!(ran.error, "delampuk list: refused 10: no alignment is found\n");
    let ran = run(&["list"], &[0; 167]);
    assert_eq!((ran.status, ran.text()), (1, "none 9\n"));
    assert!(ran.error.starts_with("delampuk list: refused 9: "));
}

/// Two sessions with silence between them that is longer than a recording may be for the library.
#[test]
fn a_recording_of_any_length_is_listed_whole() {
    let blocks = sent(&["80*1000"], b"");
    let recording = [&blocks[..], &vec![0; RECORDING_MAX + 7], &blocks, &[0; 5]].concat();
    let ran = run(&["list"], &recording);
    let lines: Vec<&str> = ran.text().lines().collect();
    assert_eq!((ran.status, lines.len()), (0, 1 + 1000 + 3 + 1 + 1000 + 1));
    assert_eq!(lines[..2], ["found 0", "0 waiting none --"]);
    assert_eq!(lines[1000..1004], ["999 read good 80", "1000 read bad --", "1001 read good --", "1002 lost none --"]);
    assert_eq!(lines[1004], format!("found {}", 160_000 + RECORDING_MAX + 7));
    assert_eq!(lines[2003..], ["2001 read good 80", "2002 read good 80", "left 5"]);
}

/// A search looks at a window of 65,536 octets, and the next window begins with the first place that was not tried.
#[test]
fn a_place_at_the_end_of_a_window_is_found() {
    let blocks = sent(&["80*3"], b"");
    let file = scratch("windows");
    for place in (RECORDING_MAX - 170..RECORDING_MAX - 160).chain([RECORDING_MAX, 2 * RECORDING_MAX - 334]) {
        fs::write(&file, [&vec![0; place], &blocks[..]].concat()).expect("it can be written");
        let ran = run(&["list", file.to_str().expect("its name is text")], b"");
        assert_eq!(ran.text().lines().next(), Some(format!("found {place}").as_str()));
    }
}

#[test]
fn the_longest_search_ends_with_the_octets_left() {
    let recording = [sent(&["80*10"], b""), vec![0; 1_000_000]].concat();
    let ran = run(&["list"], &recording);
    assert_eq!(ran.text().lines().last(), Some(format!("left {}", 1_000_000 - 3 * 160).as_str()));
    assert_eq!(ran.status, 0);
}

#[test]
fn words_are_told_apart_with_the_mode_in_force() {
    let recording = sent(&["80*6", "14", "65", "F0", "1F", "00", "80"], &[0; 1000]);
    let ran = run(&["list", "--words"], &recording);
    let lines: Vec<&str> = ran.text().lines().skip(6).collect();
    assert_eq!(lines[0], "5 waiting good -- not-read audio off data off");
    assert_eq!(lines[1], "6 read good 14 command audio off data off");
    assert_eq!(lines[2], "7 read good 65 command audio [20] data off");
    assert_eq!(lines[3], "8 read good F0 escape audio [20] data [5]");
    assert_eq!(lines[4], "9 read good 1F item audio [20] data [5]");
    assert_eq!(lines[5], "10 read good 00 command audio [20] data [5]");
    assert_eq!(lines[6], "11 read good 80 plain audio off data off");
}

/// Check bits of a code, by the polynomial.
fn check(code: u8) -> u8 {
    let mut rest = u16::from(code) << 8;
    for bit in (8..16).rev() {
        if rest >> bit & 1 == 1 {
            rest ^= 0x1D7 << (bit - 8);
        }
    }
    rest as u8
}

/// Lays a word into the service channel of a block, also one that a sender does not send.
fn put_word(block: &mut [u8], code: u8) {
    let places = [(code, 8, [0, 3, 2, 1, 5, 4, 6, 7]), (check(code), 88, [2, 1, 0, 4, 3, 5, 6, 7])];
    for (octet, first, order) in places {
        for (i, bit) in order.iter().enumerate() {
            block[first + i] = block[first + i] & 0xFE | octet >> (7 - bit) & 1;
        }
    }
}

#[test]
fn every_kind_of_word_has_its_name() {
    let words = [
        (0xC5, "plain"),
        (0x41, "not-followed"),
        (0x01, "not-followed"),
        (0xF0, "escape"),
        (0xF1, "forbidden"),
        (0xFA, "opens-message"),
        (0x02, "message"),
        (0x14, "message"),
        (0xF0, "message"),
        (0x00, "command"),
    ];
    let mut recording = sent(&["80*16"], b"");
    for (block, (code, _)) in recording.chunks_mut(160).skip(6).zip(words) {
        put_word(block, code);
    }
    let listed = run(&["list", "--words"], &recording);
    for (line, (code, kind)) in listed.text().lines().skip(7).zip(words) {
        assert!(line.contains(&format!(" {code:02X} {kind} audio off data off")), "{code:02X}: {line}");
    }
}

/// Each line with `--words` goes on from the one without.
#[test]
fn words_only_add_to_the_lines() {
    for recording in recordings(7, 10) {
        let (plain, words) = (run(&["list"], &recording), run(&["list", "--words"], &recording));
        assert_eq!(plain.text().lines().count(), words.text().lines().count());
        for (plain, words) in plain.text().lines().zip(words.text().lines()) {
            let is_block = plain.starts_with(|c: char| c.is_ascii_digit());
            assert_eq!(words == plain, !is_block);
            assert!(words.starts_with(plain));
        }
    }
}
