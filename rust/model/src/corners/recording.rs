//! Corner cases of searches, walks and listings (01, "Finding alignment" and "Figures to check against").

use super::case::{Case, WalkCase};
use super::Corner;
use crate::forge::{filler, idle, mode, named, reading, session, spoil, walk};

use crate::frame::BLOCK_OCTETS;
use crate::reader::ReaderState;
use crate::recording::{Walk, MOST_OCTETS};
use crate::sender::SenderState;
use crate::slots::Due;

/// All of them.
pub fn corners() -> Vec<Corner> {
    let groups = [
        searches(),
        search_edges(),
        walk_refusals(),
        walk_ends(),
        walk_after_loss(),
        walk_states(),
        listings(),
        listings_of_losses(),
    ];
    groups.into_iter().flatten().collect()
}

fn search(id: &'static str, about: &str, recording: &[u8], start: usize) -> Corner {
    named(id, about, Case::Search(recording.to_vec(), start))
}

fn step(id: &'static str, about: &str, case: WalkCase) -> Corner {
    named(id, about, Case::Walk(case))
}

fn list(id: &'static str, about: &str, recording: &[u8]) -> Corner {
    named(id, about, Case::Listing(recording.to_vec()))
}

/// `before` octets that hold no alignment, then `recording`.
fn shifted(before: usize, recording: &[u8]) -> Vec<u8> {
    [vec![0; before], recording.to_vec()].concat()
}

fn searches() -> Vec<Corner> {
    let two = idle(2);
    let later = shifted(3, &two);
    let mut cases = vec![
        search("G7", "a place is counted from 0", &two[..168], 0),
        search("W7", "the answer counts from the recording's first octet", &later, 2),
        search("W7", "a start at the place itself", &later, 3),
        search("W7", "a start after the only place", &shifted(0, &[idle(2), vec![0; 160]].concat()), 1),
        search("W7", "a start past the end", &two, 321),
        search("W7", "the largest start", &two, usize::MAX),
        search("W7", "the smaller of two places", &idle(4), 1),
        search("W7", "167 octets from the start on", &later, 323 - 167),
        search("W7", "168 octets from the start on", &later, 323 - 168),
        search("G2", "rows 9 and 10 at once", &[0; 167], 0),
        search("G2", "row 10 alone", &[0; 168], 0),
    ];
    for offset in (0..=8).chain(80..=88).chain(160..=167) {
        let mut turned = two[..168].to_vec();
        turned[offset] ^= 1;
        cases.push(search("G7", &format!("octet {offset} with its bit 8 turned"), &turned, 0));
    }
    cases
}

fn search_edges() -> Vec<Corner> {
    let last = [vec![0; MOST_OCTETS - 168], idle(2)[..168].to_vec()].concat();
    let too_long = [last.clone(), vec![0]].concat();
    vec![
        search("W3", "65,536 octets, the place at the very end", &last, 0),
        search("W3", "65,537 octets", &too_long, MOST_OCTETS - 168),
        search("W3", "65,536 zeros", &[0; MOST_OCTETS], 0),
        search("W3", "a start at the length", &last, MOST_OCTETS),
        search("W3", "no octet at all", &[], 0),
    ]
}

fn walk_refusals() -> Vec<Corner> {
    let all = WalkCase {
        place: 321,
        voice: vec![0xA5; 139],
        data: vec![0x5A; 155],
        ..walk(idle(2), 0, reading(9, mode(20, 5)))
    };
    let three = WalkCase { state: reading(1, mode(20, 5)), ..all.clone() };
    let four = WalkCase { voice: vec![0xA5; 140], ..three.clone() };
    let nine = WalkCase { data: vec![0x5A; 156], ..four.clone() };
    let at_end = |case: WalkCase| WalkCase { place: 320, ..case };
    let searching = |case: WalkCase| WalkCase { place: 0, searching: true, ..case };
    let too_long = walk(vec![0; MOST_OCTETS + 1], 0, ReaderState::FRESH);
    vec![
        step("G2", "rows 1, 3, 4 and 9 at once", all.clone()),
        step("G2", "rows 3, 4 and 9 at once", three.clone()),
        step("G2", "rows 4 and 9 at once", four.clone()),
        step("G2", "row 9 alone", nine.clone()),
        step("W2", "row 1 where the answer would be end", at_end(all.clone())),
        step("W2", "row 3 where the answer would be end", at_end(three.clone())),
        step("W2", "row 4 where the answer would be end", at_end(four.clone())),
        step("W2", "row 1 where the answer would be a place", searching(all)),
        step("W2", "row 3 where the answer would be a place", searching(three)),
        step("W2", "row 4 where the answer would be a place", searching(four)),
        step("W3", "the place past the end, searching", WalkCase { searching: true, ..nine.clone() }),
        step("W3", "the largest place", WalkCase { place: usize::MAX, ..nine }),
        step("W3", "a recording over 65,536 octets", too_long.clone()),
        step("W3", "the same at its end", WalkCase { place: MOST_OCTETS + 1, ..too_long.clone() }),
        step("W3", "the same, searching", WalkCase { searching: true, ..too_long }),
    ]
}

fn walk_ends() -> Vec<Corner> {
    let on = reading(2, mode(20, 5));
    vec![
        step("W3", "a place equal to the length", walk(idle(2), 320, on)),
        step("W3", "no octet at all", walk(vec![], 0, on)),
        step("W3", "159 octets left", walk(idle(2), 161, on)),
        step("W3", "160 octets left", walk(idle(2), 160, on)),
        step("W3", "a full recording", walk(shifted(MOST_OCTETS - 320, &idle(2)), MOST_OCTETS - 160, on)),
    ]
}

/// A recording in which the three last wrong words are just behind `place` 480, and what comes after them.
fn three_wrong(after: &[u8]) -> Vec<u8> {
    let mut recording = idle(3);
    for block in 0..3 {
        spoil(&mut recording, block * BLOCK_OCTETS);
    }
    [recording, after.to_vec()].concat()
}

/// The steps of a whole walk as cases.
fn whole_walk(id: &'static str, about: &str, recording: &[u8], mut state: ReaderState) -> Vec<Corner> {
    let mut cases = Vec::new();
    let mut walking = Walk::new(recording, 0);
    let mut before = None;
    while before != Some(walking) {
        before = Some(walking);
        let case = WalkCase { searching: walking.searching, ..walk(recording.to_vec(), walking.place, state) };
        cases.push(step(id, &format!("{about}, step {}", cases.len() + 1), case));
        let (mut voice, mut data) = ([0; 140], [0; 156]);
        let _ = walking.step(&mut state, &mut voice, &mut data);
    }
    cases
}

fn walk_after_loss() -> Vec<Corner> {
    let searching =
        |recording: Vec<u8>, place| WalkCase { searching: true, ..walk(recording, place, ReaderState::FRESH) };
    let found = three_wrong(&shifted(5, &idle(2)));
    let mut cases = whole_walk("W1", "three wrong words, then a new place", &found, ReaderState::FRESH);
    cases.push(step("W1", "the same place without a loss reads", walk(found.clone(), 485, ReaderState::FRESH)));
    let inside = shifted(330, &idle(3));
    cases.extend(whole_walk("W4", "an alignment inside the lost block is not found", &inside, ReaderState::FRESH));
    cases.push(step("W4", "the octet after the lost block is searched, too", searching(three_wrong(&idle(2)), 480)));
    for left in [0, 1, 159, 160, 167] {
        let recording = three_wrong(&idle(2)[..left]);
        cases.push(step("W5", &format!("{left} octets left after a lost block"), searching(recording, 480)));
    }
    cases.push(step("W5", "168 octets left after a lost block", searching(three_wrong(&idle(2)[..168]), 480)));
    cases.push(step("W6", "a refused search (10) ends with many octets left", searching(three_wrong(&[0; 1000]), 480)));
    cases.extend(whole_walk("W6", "three wrong words, then no place", &three_wrong(&[0; 200]), ReaderState::FRESH));
    cases
}

fn walk_states() -> Vec<Corner> {
    let busy = ReaderState { due: Due::Message(3), wrong_patterns: 1, ..reading(2, mode(20, 5)) };
    let recording = session(SenderState::FRESH, &[0x14, 0x65, 0x1F]);
    let searching = WalkCase { searching: true, ..walk(shifted(7, &recording), 1, busy) };
    vec![
        step("W8", "a place that nobody searched is read", walk(filler(400, 4), 17, busy)),
        step("W8", "a place beside the alignment is read", walk(recording.clone(), 1, busy)),
        step("W9", "any state in range", walk(recording, 160, busy)),
        step("W9", "a new place leaves the state as it is", searching),
    ]
}

/// 01's own sample, then each of its refusals.
fn listings() -> Vec<Corner> {
    let sample = [idle(1), idle(2)[160..168].to_vec()].concat();
    let codes = [0x1F, 0x1F, 0x1F, 0x1F, 0x1F, 0x1F, 0x14, 0x65, 0xF0, 0x41, 0xF0, 0x18, 0x80];
    vec![
        list("L2", "01's sample", &sample),
        list("L1", "no octet at all", &[]),
        list("L1", "167 octets", &idle(2)[..167]),
        list("L1", "168 zeros", &[0; 168]),
        list("L1", "65,536 zeros", &[0; MOST_OCTETS]),
        list("L1", "65,537 octets", &shifted(MOST_OCTETS + 1 - 320, &idle(2))),
        list("L2", "ten idle blocks", &idle(10)),
        list("L2", "ten idle blocks after 13 octets and before 99", &shifted(13, &[idle(10), vec![1; 99]].concat())),
        list("L3", "commands, items and plain words", &session(SenderState::FRESH, &codes)),
        list("L3", "words that our sender would not send", &foreign_words()),
        list("G4", "a bad verdict stops nothing", &bad_octets()),
    ]
}

/// Idle blocks whose words are then overwritten by codes of all readings.
fn foreign_words() -> Vec<u8> {
    let words = [0x41, 0xF9, 0x02, 0x00, 0x18, 0xE0, 0xF0, 0x0A, 0xF0, 0x65];
    let mut recording = idle(6 + words.len());
    for (index, &code) in words.iter().enumerate() {
        let line = crate::forge::Line::new(1, code).octets;
        let start = (6 + index) * BLOCK_OCTETS;
        for offset in (8..16).chain(88..96) {
            recording[start + offset] = line[offset];
        }
    }
    // The last word is spoiled beyond mending.
    let start = recording.len() - BLOCK_OCTETS;
    for offset in 8..16 {
        recording[start + offset] |= 1;
        recording[start + 80 + offset] |= 1;
    }
    recording
}

fn bad_octets() -> Vec<u8> {
    let mut recording = idle(12);
    for octet in [170, 500, 1200, 1300] {
        recording[octet] ^= 0x10;
    }
    recording
}

fn listings_of_losses() -> Vec<Corner> {
    let codes = [0x1F, 0x1F, 0x1F, 0x1F, 0x1F, 0x1F, 0x14, 0x65, 0x1F, 0x60, 0x14, 0x80, 0x80];
    let mut lost = session(SenderState::FRESH, &codes);
    for block in 8..11 {
        spoil(&mut lost, block * BLOCK_OCTETS);
    }
    let again = [lost.clone(), shifted(50, &idle(8))].concat();
    let few = lost[..11 * BLOCK_OCTETS + 165].to_vec();
    let none_left = lost[..11 * BLOCK_OCTETS].to_vec();
    let no_more = [none_left.clone(), vec![0; 500]].concat();
    vec![
        list("L4", "the count goes on after a loss", &again),
        list("L6", "a later place keeps the mode", &again),
        list("L5", "the search after the loss is refused 10", &no_more),
        list("L5", "the search after the loss is refused 9", &few),
        list("L5", "nothing is left after the loss", &none_left),
        list("L4", "two losses", &[again.clone(), again].concat()),
    ]
}
