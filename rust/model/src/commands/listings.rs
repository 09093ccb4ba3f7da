//! `model listings`: recordings with their listings as files, for another implementation of the listing program.

use std::fs;
use std::path::Path;

use super::tape::{octets, Tape};
use super::Options;
use model::bas;
use model::bits;
use model::forge::idle;
use model::frame::{Half, BLOCK_OCTETS, DATA_OCTETS};
use model::listing::listing;
use model::recording::{MOST_OCTETS, SEARCH_OCTETS};
use model::service::{self, Flags};

/// Runs the command.
pub fn run(mut options: Options) -> Result<(), String> {
    let folder = options.next().ok_or("listings needs a folder")?;
    options.none()?;
    let folder = Path::new(&folder);
    fs::create_dir_all(folder).map_err(|error| format!("cannot make {folder:?}: {error}"))?;
    for (name, recording) in cases() {
        write(&folder.join(name).with_extension("txt"), listing(&recording).as_bytes())?;
        write(&folder.join(name).with_extension("raw"), &recording)?;
    }
    Ok(())
}

fn write(path: &Path, octets: &[u8]) -> Result<(), String> {
    fs::write(path, octets).map_err(|error| format!("cannot write {path:?}: {error}"))
}

fn cases() -> [(&'static str, Vec<u8>); 15] {
    [
        ("sample", idle(2)[..168].to_vec()),
        ("empty", Vec::new()),
        ("short", idle(2)[..167].to_vec()),
        ("zeros", vec![0; 168]),
        ("middle", lesson(1).octets[57..].to_vec()),
        ("within", lesson(2).octets[..17 * BLOCK_OCTETS + 159].to_vec()),
        ("losses", losses()),
        ("end-short", end_after_loss()[..14 * BLOCK_OCTETS + 167].to_vec()),
        ("end-found", end_after_loss()[..14 * BLOCK_OCTETS + 168].to_vec()),
        ("end-none", [&end_after_loss()[..14 * BLOCK_OCTETS], &[0xFF; 400]].concat()),
        ("almost", almost()),
        ("false-voice", false_in_voice()),
        ("false-data", false_in_data()),
        ("longest", longest()),
        ("too-long", vec![0; MOST_OCTETS + 1]),
    ]
}

/// A session of 30 blocks with voice, data, a mute, its release, and an item.
fn lesson(seed: usize) -> Tape {
    Tape::new(seed, "80*6 14 65:t 80*4 F0 18 80*2 80:m*3 80*3 C5 1B 68 80*5")
}

/// Octets slip in and out, alignment words are damaged, and each time the place is found again.
fn losses() -> Vec<u8> {
    let blocks = |count: usize| count * BLOCK_OCTETS;
    let tape = Tape::new(3, "80*6 14 65 80*16 1B 80*15 68 80*16 F0 18 80*22");
    // The damage comes first and what slips comes from the back, so that the places before it stay.
    tape.wrong_from(60, 7)
        .wrong(30, &[2, 4, 6])
        .drop(blocks(40) + 90, 5)
        .insert(blocks(12) + 30, &[0x55, 0xAA, 0x55])
        .octets
}

/// Block 14 is lost.
fn end_after_loss() -> Vec<u8> {
    Tape::new(4, "80*6 14 65 80*8").wrong_from(12, 3).octets
}

/// Each of the fifteen bits of a place wrong once, and then a place with all of them right.
fn almost() -> Vec<u8> {
    let place = &idle(2)[..SEARCH_OCTETS];
    let looked_at = (1..=7).chain([81]).chain(161..=167);
    let mut recording = Vec::new();
    for octet in looked_at {
        let mut turned = place.to_vec();
        turned[octet] ^= 1;
        recording.extend(turned);
    }
    recording.extend(place);
    recording
}

/// Unframed voice with octets that look like two alignment words, and then a session.
fn false_in_voice() -> Vec<u8> {
    let mut voice = octets(500, |i| i * 11 + i * i / 7);
    imitate(&mut voice, 37);
    [voice, lesson(5).octets].concat()
}

/// Makes the two blocks from `place` on have right alignment words.
fn imitate(octets: &mut [u8], place: usize) {
    for block in [place, place + BLOCK_OCTETS] {
        for (half, number, value) in service::alignment_word() {
            let frame = match half {
                Half::Even => block,
                Half::Odd => block + 80,
            };
            let octet = &mut octets[frame + number - 1];
            *octet = *octet & 0xFE | u8::from(value);
        }
    }
}

/// Data in SC 17 to 80 that looks like a service channel of its own until block 24. The recording begins behind the
/// real alignment word of block 2, so the false one is found, read, and lost when the data changes.
fn false_in_data() -> Vec<u8> {
    let plain = |call: usize| octets(DATA_OCTETS, |i| i * 13 + call * 17);
    let data = |call| if call <= 24 { service_channel_in_data(call) } else { plain(call) };
    let tape = Tape::with_data(6, "64 80*38 14 80*2", data);
    tape.octets[BLOCK_OCTETS + 10..].to_vec()
}

/// The 16 octets of data [4]: service bits, a word, and ones, for each frame.
fn service_channel_in_data(call: usize) -> Vec<u8> {
    let rows = service::rows(Flags::default(), 0);
    let word = bas::sent(0x0B);
    let mut data = vec![0xFF; DATA_OCTETS];
    for half in 0..2 {
        data[8 * half] = bits::number(&rows[(2 * call + half) % 16]) as u8;
        data[8 * half + 1] = word[half];
    }
    data
}

/// As many octets as a recording may have: 409 blocks and 96 octets of the next one.
fn longest() -> Vec<u8> {
    let round = "14:a 65 80*5 F0 18 80:m 80:mt C5:m 80 20:e 1B:t 68 80*3 EF 41 1F 6E:t 80*4 00 12 61 80*3 00 80 ";
    let script = ["80*6 ", &round.repeat(12)].concat();
    Tape::new(7, &script).octets[..MOST_OCTETS].to_vec()
}
