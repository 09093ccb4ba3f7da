//! Searches and listings.

use bench::check;
use bench::contestants::{self, Contestant};
use differential::draw;
use model::random::Random;
use model::show::Octets;

fn compare_search(recording: &[u8], start: usize) {
    let wanted = contestants::yardstick().search(recording, start);
    for contestant in contestants::all() {
        let (contestant, about) = (contestant.as_ref(), format!("from {start} on of {:?}", Octets(recording.to_vec())));
        check::same(contestant, &about, &contestant.search(recording, start), &wanted)
            .unwrap_or_else(|difference| panic!("{difference}"));
    }
}

fn compare_listing(recording: &[u8]) {
    let wanted = check::list(&contestants::yardstick(), recording);
    for contestant in contestants::all() {
        let (contestant, about) = (contestant.as_ref(), format!("{:?}", Octets(recording.to_vec())));
        check::same(contestant, &about, &check::list(contestant, recording), &wanted)
            .unwrap_or_else(|difference| panic!("{difference}"));
    }
}

#[test]
fn contestants_search_alike() {
    let mut random = Random::new(5);
    for _ in 0..2_000 {
        let recording = draw::recording(&mut random);
        let start = draw::place(&mut random, recording.len());
        compare_search(&recording, start as usize);
    }
}

#[test]
fn contestants_find_a_place_wherever_it_stands() {
    let mut random = Random::new(6);
    let block = draw::session(&mut random, 2);
    for place in 0..200 {
        let mut recording = vec![0; place];
        recording.extend(&block[..168]);
        compare_search(&recording, 0);
    }
}

#[test]
fn contestants_list_alike() {
    let mut random = Random::new(7);
    for _ in 0..500 {
        compare_listing(&draw::recording(&mut random));
    }
    compare_listing(&[]);
    compare_listing(&vec![0; 65_537]);
}
