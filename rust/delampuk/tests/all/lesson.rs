//! A lesson with mute pressed on an escape: the word after an escape is an item, so "audio off" must not go there.

use delampuk::{Call, Reader, Sender, Sent, Standing, Word, LINE, LSD, VOICE};

use crate::common::{AUDIO_OFF, ESCAPE, IDLE, SPEECH, SPEECH_OCTETS};

/// An item that the escape asks for; as a command it would be audio of seven bits.
const TABLE_ITEM: u8 = 0x12;

/// What the far end has to hear of a block.
#[derive(Clone, Copy, Debug)]
enum Hears {
    Nothing,
    Ones,
    Microphone,
}

/// What is offered, what becomes of it, and what the far end reads and hears.
type Scene = (Call, Sent, Word, Hears);

const fn open(code: u8, hears: Hears) -> Scene {
    (Call::offer(code), Sent::Sent, Word::Mended(code), hears)
}

/// After the six blocks in which the reader finds its place.
const SCENES: [Scene; 10] = [
    open(SPEECH, Hears::Nothing),
    open(IDLE, Hears::Microphone),
    open(ESCAPE, Hears::Microphone),
    (Call::offer(TABLE_ITEM).muted(), Sent::Sent, Word::Item(TABLE_ITEM), Hears::Ones),
    (Call::offer(IDLE).muted(), Sent::Held, Word::Mended(AUDIO_OFF), Hears::Ones),
    (Call::offer(IDLE).muted(), Sent::Sent, Word::Mended(IDLE), Hears::Nothing),
    (Call::offer(IDLE), Sent::Held, Word::Mended(SPEECH), Hears::Nothing),
    open(IDLE, Hears::Microphone),
    open(AUDIO_OFF, Hears::Microphone),
    open(IDLE, Hears::Nothing),
];

/// Six idle blocks, then the scenes; the microphone has an octet for each block.
fn framed(microphone: impl Fn(usize) -> u8) -> Vec<[u8; LINE]> {
    let mut sender = Sender::new();
    let scenes = [open(IDLE, Hears::Nothing); 6].into_iter().chain(SCENES);
    let block = |(number, (call, fate, ..)): (usize, Scene)| {
        let mut line = [0; LINE];
        let sent = sender.send(&call, &[microphone(number); VOICE], &[0; LSD], &mut line);
        assert_eq!(sent, Ok(fate), "block {number}");
        line
    };
    scenes.enumerate().map(block).collect()
}

#[test]
fn the_far_end_hears_the_lesson_and_nothing_of_the_mute() {
    let microphone = |number: usize| 0x11 * number as u8;
    let mut reader = Reader::new();
    let mut voice = [0; VOICE];
    for (number, line) in framed(microphone).iter().enumerate() {
        let block = reader.read(line, &mut voice, &mut [0; LSD]).expect("a framed block is read");
        if number < 6 {
            assert_eq!((block.standing, block.word), (Standing::Waiting, Word::NotRead), "block {number}");
            continue;
        }
        let (_, _, word, hears) = SCENES[number - 6];
        assert_eq!((block.standing, block.word), (Standing::Read, word), "block {number}");
        let heard = match hears {
            Hears::Nothing => 0,
            Hears::Ones => 0xFF,
            Hears::Microphone => microphone(number),
        };
        assert_eq!(voice[..SPEECH_OCTETS], [heard; SPEECH_OCTETS], "block {number}");
        assert_eq!(voice[SPEECH_OCTETS..], [0; VOICE - SPEECH_OCTETS], "block {number}");
    }
}

/// What is said in blocks that are muted, or in which no audio is in force, leaves no trace on the line.
#[test]
fn the_line_knows_the_microphone_of_open_blocks_alone() {
    let is_open = |number: usize| matches!(number.checked_sub(6).map(|scene| SCENES[scene].3), Some(Hears::Microphone));
    let quiet = framed(|_| 0x3C);
    assert_eq!(quiet, framed(|number| if is_open(number) { 0x3C } else { 0x99 }));
    assert_ne!(quiet, framed(|number| if is_open(number) { 0x99 } else { 0x3C }));
}
