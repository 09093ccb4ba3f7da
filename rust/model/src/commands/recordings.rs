//! `model recordings`: a fixed collection of recordings, for another implementation's reader to be held to.
//!
//! A recording begins with a fresh sender's first block, so a reader finds the place in block 6 and reads block 7
//! as its first. `TALK` sends its two commands there.

use std::io::{self, BufWriter, Write};

use super::tape::Tape;
use super::{written, Options};
use model::frame::BLOCK_OCTETS;

/// Eight blocks after which voice of 6 bits and data of one bit are in force.
const TALK: &str = "80*6 14 65 ";

/// Three bits of a word that leave no code word near.
const UNREADABLE: [usize; 3] = [1, 2, 9];

/// Runs the command.
pub fn run(options: Options) -> Result<(), String> {
    options.none()?;
    let mut out = BufWriter::new(io::stdout().lock());
    written(print(&mut out).and_then(|()| out.flush()))
}

/// Each recording is one octet with the number of its blocks, and then the blocks.
fn print(out: &mut impl Write) -> io::Result<()> {
    for Tape { octets } in collection() {
        let blocks = u8::try_from(octets.len() / BLOCK_OCTETS).expect("a recording has at most 255 blocks");
        out.write_all(&[blocks])?;
        out.write_all(&octets)?;
    }
    Ok(())
}

fn collection() -> [Tape; 17] {
    [
        clean(),
        every_mode(),
        one_wrong(),
        two_wrong(),
        three_wrong(),
        wrong_while_waiting(),
        wrong_bits_of_eight(),
        wrong_bits_of_sixteen(),
        slipped(),
        items(),
        messages(),
        unreadable_count(),
        message_lost(),
        three_patterns(),
        two_patterns(),
        false_place(),
        not_followed_and_overlaps(),
    ]
}

/// The session with the calls of `TALK` and then those of `script`.
fn talk(seed: usize, script: &str) -> Tape {
    Tape::new(seed, &[TALK, script].concat())
}

/// Nothing wrong: A, E and T, a mute, its release, another voice, other data.
fn clean() -> Tape {
    Tape::new(
        1,
        "80 80:a 80:e 80:ae 80 80:t 14:a 65:t 80:ae 20:e
         80:m 80:mt C5:ma 80 C5:e 80:t 1B 68:a 80 80:e",
    )
}

/// Every audio and every data value comes into force.
fn every_mode() -> Tape {
    Tape::new(
        2,
        "80*6 12 61 13 62 18 63 64 14 65 15 66 19 67 1B 68:t 69
         1C 6A 1D 6B 0B 6C 1F 6D 6E 80",
    )
}

/// Wrong alignment words, each between right ones, in the even frame with a command in its block, and in the odd one.
fn one_wrong() -> Tape {
    talk(3, "80 60 80 65 80 80").wrong(10, &[3]).wrong(13, &[8])
}

/// Two in a row, with a command in each: what was learned stands.
fn two_wrong() -> Tape {
    talk(4, "80 60 1B 80 68 80").wrong(10, &[1]).wrong(11, &[8])
}

/// Three in a row. The mode goes back to what the right block 10 left, not further, and the place is found again
/// in block 22.
fn three_wrong() -> Tape {
    talk(5, "80 66 60 1B 68 80*9 80 00 14 80").wrong_from(11, 3)
}

/// Five in a row while the place is unknown: lost in block 4, and a new run of two.
fn wrong_while_waiting() -> Tape {
    Tape::new(6, "80*14 14 80").wrong_from(2, 5)
}

/// Two wrong alignment bits let the word be read; three or all eight do not. So the item after the escape of block 17
/// is taken as a command, and the one of block 20 fills its slot unread.
fn wrong_bits_of_eight() -> Tape {
    talk(7, "60 80 65 80 60 80 65 80 F0 18 F1 60 1B 80")
        .wrong(9, &[1, 5])
        .wrong(11, &[3, 8])
        .wrong(13, &[2, 4, 7])
        .wrong(15, &[1, 6, 8])
        .wrong(17, &[1, 2, 3, 4, 5, 6, 7, 8])
        .wrong(20, &[5, 6, 7])
}

/// One and two wrong bits of a BAS word are mended; three are not, or give another code: block 16 has 18 for 14.
fn wrong_bits_of_sixteen() -> Tape {
    talk(8, "60 65 1B 60 65 60 80 14 80")
        .blur(9, &[1])
        .blur(10, &[16])
        .blur(11, &[10, 14])
        .blur(12, &[2, 7])
        .blur(13, &[3, 12])
        .blur(14, &UNREADABLE)
        .blur(16, &[5, 6, 10])
}

/// An octet of block 12 is missing: nothing is right again, and every third block is lost.
fn slipped() -> Tape {
    talk(9, "80*11").drop(11 * BLOCK_OCTETS + 100, 1).whole_blocks()
}

/// Items that look like commands, forbidden and unreadable ones, an escape that our sender does not carry, and
/// (111)[24], which stands alone. Commands between them show that a slot is over.
fn items() -> Tape {
    talk(10, "F0 18 EF 60 F1 80 60 F2 80 65 F3 1F 1B 80 14 80 F8 1C")
        .say(14, &[0xE1])
        .say(17, &[0xFF])
        .blur(20, &UNREADABLE)
        .say(22, &[0xE0])
}

/// Messages of three words that look like commands, of none, of two with an unreadable one and an escape, of one.
fn messages() -> Tape {
    talk(11, "80*6 80 80 60 80*4 65 80*4")
        .say(9, &[0xF9, 3, 0x60, 0x1F, 0xFF])
        .say(15, &[0xFF, 0])
        .say(18, &[0xFA, 2, 0x80, 0xF0])
        .blur(20, &UNREADABLE)
        .say(23, &[0xFD, 1, 0])
        .blur(24, &[4])
}

/// An unreadable N counts 255, so nothing is followed any more, until wrong patterns lose the place in block 30.
fn unreadable_count() -> Tape {
    let unheard = "60 1B 68 00 14 65 F0 18 1F 61 12 80:m 80:m 80 00 6E 80 60 0B 80 80";
    talk(12, &["80 80 ", unheard].concat()).say(9, &[0xFB]).blur(10, &UNREADABLE).miss(&[12, 22, 28])
}

/// N is 255, and three wrong alignment words end the message; a command is followed once the place is found again.
fn message_lost() -> Tape {
    talk(13, "80 80 60 80*3 80*8 61").say(9, &[0xF9, 255]).wrong_from(12, 3)
}

/// Wrong patterns in three multiframes in a row: the place is lost in block 30, whose command is still followed, and
/// the mode is kept; the place is found again in block 38. The command of block 32 is not read.
fn three_patterns() -> Tape {
    talk(14, "80*21 1B 80 60 80*6 1C 80").miss(&[9, 19, 21, 30])
}

/// Wrong patterns in two multiframes in a row, then a right one.
fn two_patterns() -> Tape {
    talk(15, "80*5 60 80*7 65 80*8").miss(&[11, 20])
}

/// First bits that spell the pattern in block 8, so that the place is found wrongly; a pattern that does not fit in
/// block 16, and three wrong alignment words, which end that run too.
fn false_place() -> Tape {
    Tape::new(16, "80*8 14 65 80*10").miss(&[3, 6, 7, 8]).wrong_from(17, 3)
}

/// Words of attributes 000 to 011 that are not carried; commands that turn the other stream off, and one that does
/// not; words without effect on the mode; neutral.
fn not_followed_and_overlaps() -> Tape {
    let not_followed = [0x01, 0x1E, 0x21, 0x3F, 0x40, 0x5F, 0x6F, 0x7F];
    let overlaps = [0x18, 0x6D, 0x14, 0x61];
    talk(17, "80*17").say(9, &not_followed).say(17, &overlaps).say(21, &[0x20, 0x9F, 0xDF, 0x00])
}
