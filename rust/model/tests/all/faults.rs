//! 01's five faults that look right: each wrong model is told apart by a concrete case.

use crate::common::word_of;
use model::bas;
use model::corners::case::{Case, SenderCase};
use model::corners::corners;
use model::fault::Fault;
use model::forge::{call, idle, mode, reading, sending, take, Line};
use model::sender::{Answer, SenderState};

/// The first line of an outcome.
fn answer(case: &Case, fault: Fault) -> String {
    case.outcome(fault).remove(0)
}

#[test]
fn mute_sent_where_an_item_is_due() {
    let state = SenderState { item_due: true, ..sending(24, 1) };
    let case = SenderCase { mute: true, offered: 0x80, ..call(state) };
    let (right, line, sent) = case.run(Fault::None).expect("a block");
    assert_eq!((right.in_force, word_of(&line), sent), (24, bas::sent(0x80), Answer::Sent));
    let (wrong, line, held) = case.run(Fault::MuteTakesItemSlot).expect("a block");
    assert_eq!((wrong.in_force, word_of(&line), held), (31, bas::sent(0x1F), Answer::Held));
}

#[test]
fn c_bits_taken_into_the_sum() {
    // Block 2 of an idle session is the first with C bits other than 0000.
    let second = Case::Crc(idle(2)[160..].to_vec());
    assert_eq!(answer(&second, Fault::None), "expect remainder 12");
    assert_eq!(answer(&second, Fault::SumTakesCBits), "expect remainder 1");
    let listed = Case::Listing(idle(4));
    assert!(listed.outcome(Fault::None).contains(&"> 2 waiting good --".to_string()));
    assert!(listed.outcome(Fault::SumTakesCBits).contains(&"> 2 waiting bad --".to_string()));
}

#[test]
fn check_bits_read_in_natural_order() {
    let word = Case::ReadWord(bas::sent(0x01));
    assert_eq!(answer(&word, Fault::None), "expect code 01");
    assert_eq!(answer(&word, Fault::NaturalCheckOrder), "expect unreadable");
    // This is why it looks right: the two orders of 1F are two bits apart, and those are mended away.
    let hidden = Case::ReadWord(bas::sent(0x1F));
    assert_eq!(answer(&hidden, Fault::NaturalCheckOrder), "expect code 1F");
}

#[test]
fn acting_in_the_block_that_carries_the_command() {
    let opens = SenderCase { offered: 0x18, voice: vec![0; 140], ..call(sending(31, 0)) };
    let octet_20 = |fault| opens.run(fault).expect("a block").1[19];
    assert_eq!(octet_20(Fault::None), 0xFF);
    assert_eq!(octet_20(Fault::ActsAtOnce), 0x01);
    let reads = Case::Reader(take(reading(3, mode(31, 0)), Line::new(3, 0x18)));
    let voice_line = |fault| reads.outcome(fault)[2].clone();
    assert_eq!(voice_line(Fault::None), "voice 00*140");
    assert_ne!(voice_line(Fault::ActsAtOnce), "voice 00*140");
}

#[test]
fn a_mode_learned_during_the_three_bad_blocks_kept() {
    let mut state = reading(2, mode(20, 1));
    for block in [2, 3] {
        state = take(state, Line::new(block, 0x65).wrong(1)).state_after();
    }
    let third = Case::Reader(take(state, Line::new(4, 0x80).wrong(1)));
    assert_eq!(answer(&third, Fault::None), "expect lost none not_read");
    assert!(third.outcome(Fault::None)[1].starts_with("state mode=20,1 kept=20,1 "));
    assert!(third.outcome(Fault::KeepsLearnedMode)[1].starts_with("state mode=20,5 kept=20,5 "));
}

#[test]
fn the_corner_cases_tell_every_fault_apart() {
    for fault in Fault::ALL {
        let told_apart = |case: &Case| case.outcome(fault) != case.outcome(Fault::None);
        assert!(corners().iter().any(|corner| told_apart(&corner.case)), "{fault:?}");
    }
}
