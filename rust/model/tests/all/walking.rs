//! Searches, walks and listings.

use model::forge::{filler, idle, mode, reading, session, spoil};
use model::frame::BLOCK_OCTETS;
use model::listing::listing;
use model::random::Random;
use model::reader::{ReaderState, Standing};
use model::recording::{search, Step, Walk};
use model::refusal::Refusal;
use model::sender::SenderState;

fn shifted(before: usize, recording: &[u8]) -> Vec<u8> {
    [vec![0; before], recording.to_vec()].concat()
}

/// The names of all steps until the end.
fn steps(recording: &[u8], place: usize, state: &mut ReaderState) -> Vec<String> {
    let mut walk = Walk::new(recording, place);
    let (mut voice, mut data) = ([0; 140], [0; 156]);
    let mut names = Vec::new();
    loop {
        assert!(names.len() < 1000, "a walk comes to its end");
        match walk.step(state, &mut voice, &mut data).expect("an answer") {
            Step::Block(answer) => names.push(format!("{:?}", answer.standing)),
            Step::Place(place) => names.push(format!("place {place}")),
            Step::End(left) => {
                names.push(format!("end {left}"));
                let again = walk.step(state, &mut voice, &mut data);
                assert_eq!(again, Ok(Step::End(left)), "the end moves nothing");
                return names;
            }
        }
    }
}

/// Three blocks with wrong alignment words, then something else.
fn three_wrong(after: &[u8]) -> Vec<u8> {
    let mut recording = idle(3);
    for block in 0..3 {
        spoil(&mut recording, block * BLOCK_OCTETS);
    }
    [recording, after.to_vec()].concat()
}

#[test]
fn the_smallest_place_from_the_start_on() {
    let recording = shifted(3, &idle(4));
    for start in 0..=3 {
        assert_eq!(search(&recording, start), Ok(3));
    }
    assert_eq!(search(&recording, 4), Ok(163));
    assert_eq!(search(&recording, 164), Ok(323));
    assert_eq!(search(&recording, 324), Err(Refusal::NoPlace));
}

#[test]
fn a_search_looks_at_fifteen_bits() {
    let recording = idle(2)[..168].to_vec();
    let fixed = [1, 2, 3, 4, 5, 6, 7, 81, 161, 162, 163, 164, 165, 166, 167];
    for bit in 0..8 * 168 {
        let mut turned = recording.clone();
        turned[bit / 8] ^= 0x80 >> (bit % 8);
        let looked_at = bit % 8 == 7 && fixed.contains(&(bit / 8));
        let expected = if looked_at { Err(Refusal::NoPlace) } else { Ok(0) };
        assert_eq!(search(&turned, 0), expected, "bit {bit}");
    }
}

/// The same search on a text of the service channel.
#[test]
fn searches_on_texts_agree() {
    let mut random = Random::new(7);
    for _ in 0..200 {
        let parts = [random.octets(60), idle(3), random.octets(300), idle(2), random.octets(9)];
        let recording = parts.concat();
        let text: String = recording.iter().map(|octet| if octet & 1 == 1 { '1' } else { '0' }).collect();
        let start = random.below(recording.len() - 168);
        let fits = |place: usize| {
            let stands = |offset: usize, bits: &str| text[place + offset..].starts_with(bits);
            stands(1, "0011011") && stands(81, "1") && stands(161, "0011011")
        };
        let place = (start..=recording.len() - 168).find(|&place| fits(place));
        assert_eq!(search(&recording, start).ok(), place);
    }
}

#[test]
fn a_place_at_the_very_end_of_the_longest_recording() {
    let recording = shifted(65_536 - 168, &idle(2)[..168]);
    assert_eq!(search(&recording, 0), Ok(65_536 - 168));
    assert_eq!(search(&shifted(1, &recording), 0), Err(Refusal::Recording));
}

#[test]
fn a_walk_ends_with_fewer_than_160_octets() {
    for left in 0..160 {
        let recording = [idle(1), vec![0; left]].concat();
        assert_eq!(steps(&recording, 0, &mut ReaderState::FRESH.clone()), ["Waiting", &format!("end {left}")]);
    }
    let at_length = steps(&idle(1), 160, &mut ReaderState::FRESH.clone());
    assert_eq!(at_length, ["end 0"]);
}

#[test]
fn after_a_lost_block_the_walk_searches() {
    let lost = ["Waiting", "Waiting", "Lost"];
    let found = steps(&three_wrong(&shifted(5, &idle(2))), 0, &mut ReaderState::FRESH.clone());
    assert_eq!(found, [&lost[..], &["place 485", "Waiting", "Waiting", "end 0"]].concat());
    for left in [0, 1, 159, 160, 167] {
        let recording = three_wrong(&idle(2)[..left]);
        let end = format!("end {left}");
        assert_eq!(steps(&recording, 0, &mut ReaderState::FRESH.clone()), [&lost[..], &[&end]].concat());
    }
    let just_enough = steps(&three_wrong(&idle(2)[..168]), 0, &mut ReaderState::FRESH.clone());
    assert_eq!(just_enough, [&lost[..], &["place 480", "Waiting", "end 8"]].concat());
    let nothing = steps(&three_wrong(&[0; 1000]), 0, &mut ReaderState::FRESH.clone());
    assert_eq!(nothing, [&lost[..], &["end 1000"]].concat());
}

#[test]
fn an_alignment_inside_the_lost_block_is_passed_over() {
    let recording = shifted(330, &idle(3));
    assert_eq!(search(&recording, 321), Ok(330));
    let names = steps(&recording, 0, &mut ReaderState::FRESH.clone());
    assert_eq!(names, ["Waiting", "Waiting", "Lost", "place 490", "Waiting", "Waiting", "end 0"]);
}

#[test]
fn a_place_and_an_end_leave_state_and_buffers_alone() {
    let (mut voice, mut data) = ([0xA5; 140], [0x5A; 156]);
    let busy = ReaderState { wrong_patterns: 1, ..reading(2, mode(20, 5)) };
    let recording = shifted(7, &idle(2));
    let mut state = busy;
    let mut walk = Walk { recording: &recording, place: 1, searching: true };
    assert_eq!(walk.step(&mut state, &mut voice, &mut data), Ok(Step::Place(7)));
    assert_eq!((walk.place, walk.searching), (7, false));
    walk.place = 200;
    assert_eq!(walk.step(&mut state, &mut voice, &mut data), Ok(Step::End(127)));
    assert_eq!((walk.place, walk.searching), (200, false));
    assert_eq!((state, voice, data), (busy, [0xA5; 140], [0x5A; 156]));
}

#[test]
fn the_mode_is_kept_over_a_loss() {
    let mut recording =
        session(SenderState::FRESH, &[0x80, 0x80, 0x80, 0x80, 0x80, 0x80, 0x14, 0x65, 0x00, 0x80, 0x80]);
    for block in 8..11 {
        spoil(&mut recording, block * BLOCK_OCTETS);
    }
    recording.extend(idle(2));
    let mut state = ReaderState::FRESH;
    let names = steps(&recording, 0, &mut state);
    assert_eq!(names[10..12], ["Lost", "place 1760"]);
    assert_eq!(state.mode, mode(20, 5), "neutral came in a bad block");
}

#[test]
fn a_walk_reads_wherever_it_begins() {
    let recording = filler(400, 21);
    let mut walk = Walk::new(&recording, 17);
    let (mut voice, mut data) = ([0; 140], [0; 156]);
    let step = walk.step(&mut reading(3, mode(20, 5)), &mut voice, &mut data);
    assert!(matches!(step, Ok(Step::Block(answer)) if answer.standing == Standing::Read));
    assert_eq!(walk.place, 177);
}

#[test]
fn listings_without_a_place() {
    assert_eq!(listing(&[]), "none 9\n");
    assert_eq!(listing(&vec![0; 65_536]), "none 10\n");
    assert_eq!(listing(&shifted(65_537 - 320, &idle(2))), "none 9\n");
}

#[test]
fn a_listing_with_a_loss() {
    let mut recording = shifted(13, &idle(12));
    for block in 7..10 {
        spoil(&mut recording, 13 + block * BLOCK_OCTETS);
    }
    recording.splice(13 + 10 * BLOCK_OCTETS..13 + 10 * BLOCK_OCTETS, [0; 50]);
    recording.extend([0; 20]);
    let expected = "found 13\n0 waiting none --\n1 waiting good --\n2 waiting good --\n3 waiting good --\n\
                    4 waiting good --\n5 waiting good --\n6 read good 1F\n7 read good 1F\n8 read bad 1F\n\
                    9 lost none --\nfound 1663\n10 waiting none --\n11 waiting good --\nleft 20\n";
    assert_eq!(listing(&recording), expected);
    let refused = &recording[..13 + 10 * BLOCK_OCTETS + 200];
    assert_eq!(listing(refused), expected.split("found 1663").next().unwrap_or("").to_string() + "left 200\n");
}

#[test]
fn a_listing_of_all_readings() {
    let mut recording =
        session(SenderState::FRESH, &[0x80, 0x80, 0x80, 0x80, 0x80, 0x80, 0x14, 0xF0, 0x41, 0x65, 0x20, 0xF8]);
    let last = recording.len() - BLOCK_OCTETS;
    for offset in (8..16).chain(88..96) {
        recording[last + offset] |= 1;
    }
    let lines =
        "6 read good 14\n7 read good F0\n8 read good 41\n9 read good 65\n10 read good 20\n11 read good --\nleft 0\n";
    assert!(listing(&recording).ends_with(lines), "{}", listing(&recording));
}
