//! The inputs that the program times.

use bench::contestants::{self, Contestant};
use bench::inputs::{self, Work};
use bench::{check, forms};
use delampuk_sys::{WORD_MENDED, WORD_UNREADABLE};
use model::bas;

#[test]
fn contestants_agree_on_what_is_timed() {
    if let Err(difference) = check::all(&contestants::all(), &inputs::parts()) {
        panic!("{difference}");
    }
}

#[test]
fn a_timed_search_finds_nothing() {
    let searcher = contestants::yardstick();
    for case in inputs::parts().iter().flat_map(|part| &part.cases) {
        if let Work::Search(recordings) = &case.work {
            let nothing = forms::search_answer(Err(10));
            assert!(recordings.iter().all(|recording| searcher.search(recording, 0) == nothing), "{}", case.label);
        }
    }
}

#[test]
fn a_timed_call_is_not_refused() {
    let model = contestants::yardstick();
    for case in inputs::parts().iter().flat_map(|part| &part.cases) {
        let refused = match &case.work {
            Work::Send(inputs) => inputs.iter().any(|input| {
                let (mut state, mut line) = (input.state, [0; forms::LINE]);
                model.send(&mut state, &input.offer(), &mut line).number != 0
            }),
            Work::Read(inputs) => inputs.iter().any(|input| {
                let (mut state, mut voice, mut lsd) = (input.state, [0; forms::VOICE], [0; forms::LSD]);
                model.read(&mut state, &input.line, &mut voice, &mut lsd).number != 0
            }),
            Work::Search(_) | Work::List(_) => false,
        };
        assert!(!refused, "{}", case.label);
    }
}

#[test]
fn a_timed_word_is_harmed_as_its_case_says() {
    let (model, parts) = (contestants::yardstick(), inputs::parts());
    for (label, wrong, read) in [
        (inputs::ONE_WRONG, 1..=1, (WORD_MENDED, inputs::CODE)),
        (inputs::TWO_WRONG, 2..=2, (WORD_MENDED, inputs::CODE)),
        (inputs::UNREADABLE, 3..=16, (WORD_UNREADABLE, 0)),
    ] {
        let case = parts.iter().flat_map(|part| &part.cases).find(|case| case.label == label).expect(label);
        let Work::Read(calls) = &case.work else { panic!("{label} is no reading case") };
        for call in calls {
            let (mut state, mut voice, mut lsd) = (call.state, [0; forms::VOICE], [0; forms::LSD]);
            let block = model.read(&mut state, &call.line, &mut voice, &mut lsd).block;
            assert_eq!((block.reading, block.code), read, "{label}");
            assert!(wrong.contains(&wrong_bits(&call.line)), "{label}");
        }
    }
}

/// How many bits of a block's word are not those of the code that was offered.
fn wrong_bits(line: &[u8]) -> u32 {
    let octets = [8, 88].map(|first| line[first..first + 8].iter().fold(0, |octet, sc| octet << 1 | sc & 1));
    (u16::from_be_bytes(octets) ^ u16::from_be_bytes(bas::sent(inputs::CODE))).count_ones()
}
