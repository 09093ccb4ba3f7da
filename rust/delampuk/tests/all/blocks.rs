//! What a call puts into a block, and what comes out of it.

use delampuk::{Call, Reader, Sender, LINE, LSD, VOICE};

use crate::common::{send, sender_after, CUES, IDLE, SPEECH, SPEECH_OCTETS};

/// The octets of a data buffer that count with data in bit 7 alone.
const CUE_OCTETS: usize = 20;

#[test]
fn voice_and_data_come_back_beside_each_other() {
    let (voice, lsd): ([u8; VOICE], [u8; LSD]) = (std::array::from_fn(|i| i as u8), std::array::from_fn(|i| !i as u8));
    let (mut heard, mut cues) = ([0xA5; VOICE], [0xA5; LSD]);
    let (mut sender, mut reader, mut line) = (Sender::new(), Reader::new(), [0; LINE]);
    for code in [IDLE, IDLE, IDLE, IDLE, IDLE, IDLE, SPEECH, CUES, IDLE] {
        sender.send(&Call::offer(code), &voice, &lsd, &mut line).expect("all of them are carried");
        reader.read(&line, &mut heard, &mut cues).expect("the lengths are right");
    }
    assert_eq!(heard[..SPEECH_OCTETS], voice[..SPEECH_OCTETS]);
    assert_eq!(cues[..CUE_OCTETS], lsd[..CUE_OCTETS]);
    assert_eq!(heard[SPEECH_OCTETS..], [0; VOICE - SPEECH_OCTETS]);
    assert_eq!(cues[CUE_OCTETS..], [0; LSD - CUE_OCTETS]);
}

/// A and E stand in service bits 3 and 4 of the odd frame, T in bit 1 of the last block's even frame. The lowest bit of
/// an octet is the service channel's.
#[test]
fn each_switch_has_its_own_bit() {
    let last_of_eight = sender_after(&[IDLE; 7]);
    let turned = |call: Call| {
        let line = |call| send(&mut last_of_eight.clone(), call).expect("idle blocks are carried").1;
        let (with, without) = (line(call), line(Call::offer(IDLE)));
        (0..LINE).filter(|&octet| with[octet] != without[octet]).collect::<Vec<_>>()
    };
    let idle = Call::offer(IDLE);
    assert_eq!(turned(Call { a: true, ..idle }), [82]);
    assert_eq!(turned(Call { e: true, ..idle }), [83]);
    assert_eq!(turned(Call { t: true, ..idle }), [0]);
    assert_eq!(turned(idle.muted()), []);
}
