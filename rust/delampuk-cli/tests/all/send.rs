//! `delampuk send`.

use std::fs;

use delampuk::{Call, Preset, Sender, LINE, LSD, VOICE};

use crate::common::{in_repository, run, scratch, sent};

fn name(path: &std::path::Path) -> &str {
    path.to_str().expect("its name is text")
}

#[test]
fn the_stored_session_is_sent() {
    let words = fs::read_to_string(in_repository("crates/speak/args")).expect("it is there");
    let words: Vec<&str> = std::iter::once("send").chain(words.lines()).collect();
    let ran = run(&words, &fs::read(in_repository("crates/speak/stdin")).expect("it is there"));
    assert!(ran.out == fs::read(in_repository("crates/speak/stdout")).expect("it is there"));
    assert_eq!(ran.status, 1);
}

#[test]
fn each_call_has_a_line() {
    let ran = run(&["send", "80*2", "14", "80:m", "80", "80", "41", "80:aet", "01"], &[1; 600]);
    let lines: Vec<&str> = ran.error.lines().collect();
    assert_eq!(lines[..3], ["call 1: 80 sent in block 1", "call 2: 80 sent in block 2", "call 3: 14 sent in block 3"]);
    assert_eq!(lines[3..5], ["call 4: 80 held, 1F went in block 4", "call 5: 80 held, 14 went in block 5"]);
    assert_eq!(lines[5..7], ["call 6: 80 sent in block 6", "call 7: 41 refused 5"]);
    assert_eq!(lines[7..9], ["call 8: 80 sent in block 7", "call 9: 01 refused 5"]);
    let meaning = "delampuk send: 2 calls refused 5: the offered code is not carried as a plain word";
    assert_eq!(lines[9..], [meaning]);
    assert_eq!((ran.status, ran.out.len()), (1, 7 * LINE));
}

#[test]
fn missing_voice_is_zero_and_told() {
    let whole = run(&["send", "14", "80*3"], &[[7; 200].as_slice(), &[0; 160]].concat());
    let short = run(&["send", "14", "80*3"], &[7; 200]);
    assert_eq!(whole.out, short.out);
    assert_eq!((whole.status, short.status), (0, 0));
    assert!(!whole.error.contains("missing"));
    assert_eq!(
        short.error,
        whole.error + "standard input has ended: 160 octets of voice are missing and sent as zero\n"
    );
}

#[test]
fn data_is_sent_beside_voice() {
    let file = scratch("cues");
    fs::write(&file, [0xA5; 30]).expect("it can be written");
    let recording = sent(&["--data", name(&file), "14", "65", "80*2"], &[0x3C; 360]);
    let (mut sender, mut line, mut expected) = (Sender::new(), [0; LINE], Vec::new());
    // data [5] holds a bit of each octet, 20 octets a block
    let mut cues = [[0; LSD]; 4];
    cues[2][..20].fill(0xA5);
    cues[3][..10].fill(0xA5);
    for (code, lsd) in [0x14, 0x65, 0x80, 0x80].iter().zip(cues) {
        sender.send(&Call::offer(*code), &[0x3C; VOICE], &lsd, &mut line).expect("all are carried");
        expected.extend(line);
    }
    assert_eq!(recording, expected);
    let told = run(&["send", &format!("--data={}", name(&file)), "14", "65", "80*2"], &[0x3C; 360]).error;
    assert!(told.ends_with("has ended: 10 octets of data are missing and sent as zero\n"), "{told}");
}

#[test]
fn a_session_goes_on_from_a_saved_state() {
    let voice: Vec<u8> = (0..4 * 120).map(|i| i as u8).collect();
    let whole = sent(&["80*3", "14", "80*4"], &voice);
    let file = scratch("sender");
    let first = sent(&["--save", name(&file), "80*3", "14", "80"], &voice[..120]);
    let ran = run(&["send", "--state", name(&file), "80*3"], &voice[120..]);
    assert_eq!([first, ran.out].concat(), whole);
    assert!(ran.error.starts_with("call 1: 80 sent in block 6\n"), "{}", ran.error);
}

#[test]
fn a_state_that_is_none_is_told() {
    let (short, wrong) = (scratch("short"), scratch("wrong"));
    fs::write(&short, [0; 3]).expect("it can be written");
    let ran = run(&["send", "--state", name(&short), "80"], b"");
    assert_eq!((ran.status, ran.out.len()), (1, 0));
    assert!(ran.error.ends_with("no saved form of this state has 3 octets\n"), "{}", ran.error);
    fs::write(&wrong, [0xFF; Sender::OCTETS]).expect("it can be written");
    let ran = run(&["send", "--state", name(&wrong), "80"], b"");
    assert_eq!((ran.status, ran.out.len()), (1, 0));
    let told = "call 1: 80 refused 1\ndelampuk send: 1 call refused 1: the state is out of range\n";
    assert_eq!(ran.error, told);
}

#[test]
fn a_preset_begins_a_session() {
    let ran = run(&["send", "--preset", "C100", "64"], b"");
    assert!(ran.error.starts_with("preset C100: offer 64 for its data\n"), "{}", ran.error);
    let (mut preset, mut line) = (Preset::read(0xC100).expect("it is one"), [0; LINE]);
    preset.sender.send(&Call::offer(0x64), &[0; VOICE], &[0; LSD], &mut line).expect("it is accepted");
    assert_eq!(ran.out, line);
    let ran = run(&["send", "--preset", "C101", "64"], b"");
    assert_eq!((ran.status, ran.out.len()), (1, 0));
    assert_eq!(ran.error, "delampuk send: refused 11: the sixteen bits are no preset\n");
}
