//! Walks over recordings, with a loss on the way.

use delampuk::{list, search, Refusal, Standing, Step, Streams, Walk, LINE, LISTING_MAX, LSD, VOICE};

use crate::common::idle_blocks;

const NOISE: usize = 11;
const SLIP: usize = 7;

/// Noise, nine blocks, some octets that never belonged there, and nine blocks more with an end cut off.
pub fn slipped() -> Vec<u8> {
    let blocks = idle_blocks(18);
    let (before, after) = blocks.split_at(9 * LINE);
    let end = after.len() - 5;
    [&[0xA5; NOISE], before, &[0; SLIP], &after[..end]].concat()
}

/// The first block that is out of step is at fault, two more lose alignment, and the next whole block is found.
#[test]
fn a_walk_finds_its_way_again() {
    let recording = slipped();
    let mut walk = Walk::new(&recording).expect("there is a first place");
    assert_eq!(walk.place(), NOISE);
    let mut step = || walk.step(&mut [0; VOICE], &mut [0; LSD]).expect("no step is refused");
    let standings: Vec<Standing> = (0..12)
        .map(|_| match step() {
            Step::Block(block) => block.standing,
            other => panic!("a block, not {other:?}"),
        })
        .collect();
    assert_eq!(standings[..6], [Standing::Waiting; 6]);
    assert_eq!(standings[6..11], [Standing::Read; 5]);
    assert_eq!(standings[11], Standing::Lost);
    let found = NOISE + SLIP + 12 * LINE;
    assert_eq!(step(), Step::Place(found));
    for _ in 0..5 {
        assert!(matches!(step(), Step::Block(_)));
    }
    assert_eq!([step(), step()], [Step::End(LINE - 5); 2]);
    assert_eq!(walk.place(), found + 5 * LINE);
}

/// The steps of an iteration are those of a walk step by step; the end comes once.
#[test]
fn an_iteration_is_the_same_walk() {
    let recording = slipped();
    let mut walk = Walk::new(&recording).expect("there is a first place");
    let mut steps = walk.clone().into_iter();
    loop {
        let (mut voice, mut lsd) = ([0; VOICE], [0; LSD]);
        let step = walk.step(&mut voice, &mut lsd).expect("no step is refused");
        assert_eq!(steps.next(), Some(Ok((step, Streams { voice, lsd }))));
        if let Step::End(_) = step {
            break;
        }
    }
    assert_eq!(steps.next(), None);
}

/// The mark of a lost block is saved with the walk: without it the next step would read and not search.
#[test]
fn a_walk_is_saved_after_a_loss() {
    let recording = slipped();
    let mut walk = Walk::new(&recording).expect("there is a first place");
    for _ in 0..12 {
        walk.step(&mut [0; VOICE], &mut [0; LSD]).expect("no step is refused");
    }
    let mut loaded = Walk::load(&recording, &walk.save()).expect("a walk was saved");
    assert_eq!(loaded, walk);
    assert!(matches!(loaded.step(&mut [0; VOICE], &mut [0; LSD]), Ok(Step::Place(_))));
}

#[test]
fn a_refusal_ends_an_iteration() {
    let recording = idle_blocks(2);
    let walk = Walk::load(&recording, &[0xFF; Walk::OCTETS]).expect("any octets load");
    assert_eq!(walk.into_iter().collect::<Vec<_>>(), [Err(Refusal::BadState)]);
}

#[test]
fn a_search_begins_where_it_is_told() {
    let recording = slipped();
    assert_eq!(search(&recording, 0), Ok(NOISE));
    assert_eq!(search(&recording, NOISE + 1), Ok(NOISE + LINE));
    assert_eq!(search(&recording, recording.len()), Err(Refusal::Recording));
    assert_eq!(Walk::new(&[0xFF; 200]), Err(Refusal::NoPlace));
}

/// The listing tells the same story, and a text that is too short holds its beginning.
#[test]
fn a_listing_of_the_walk() {
    let recording = slipped();
    let mut text = [0; LISTING_MAX];
    let length = list(&recording, &mut text).expect("there is room for every listing");
    let lines: Vec<&str> = std::str::from_utf8(&text[..length]).expect("a listing is ASCII").lines().collect();
    assert_eq!(lines[..2], ["found 11", "0 waiting none --"]);
    assert_eq!(lines[12..14], ["11 lost none --", "found 1938"]);
    assert_eq!(lines.last(), Some(&"left 155"));
    let mut short = [0; 7];
    assert_eq!(list(&recording, &mut short), None);
    assert_eq!(&short, b"found 1");
}
