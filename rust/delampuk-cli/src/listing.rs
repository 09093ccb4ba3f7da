//! The lines of a listing.

use delampuk::{explain, Block, CodeKind, Mode, Standing, Verdict, Word};

use crate::walk::{Step, Taken};

/// Writes the steps of a walk as lines, and counts its blocks.
pub struct Listing {
    blocks: u64,
    words: bool,
}

impl Listing {
    /// A listing before its first line; `words` asks for what each word is, and for the mode in force.
    pub fn new(words: bool) -> Listing {
        Listing { blocks: 0, words }
    }

    /// The line of a step, with its newline.
    pub fn line(&mut self, step: &Step) -> String {
        match step {
            Step::Found(place) => format!("found {place}\n"),
            Step::None(refusal) => format!("none {}\n", refusal.number()),
            Step::End(left) => format!("left {left}\n"),
            Step::Block(taken) => {
                self.blocks += 1;
                let words = if self.words { words(taken) } else { String::new() };
                format!("{} {}{words}\n", self.blocks - 1, told(&taken.block))
            }
        }
    }
}

fn told(block: &Block) -> String {
    let standing = match block.standing {
        Standing::Waiting => "waiting",
        Standing::Read => "read",
        Standing::Lost => "lost",
    };
    let verdict = match block.verdict {
        Verdict::None => "none",
        Verdict::Good => "good",
        Verdict::Bad => "bad",
    };
    match block.word.code() {
        Some(code) => format!("{standing} {verdict} {code:02X}"),
        None => format!("{standing} {verdict} --"),
    }
}

fn words(taken: &Taken) -> String {
    let Mode { audio, lsd } = taken.mode;
    format!(" {} audio {} data {}", kind(taken.block.word), value(audio, 31), value(lsd, 0))
}

/// What a word is taken for. A plain word is told by what its code says.
fn kind(word: Word) -> &'static str {
    match word {
        Word::Item(_) => "item",
        Word::Message(_) => "message",
        Word::ForbiddenItem(_) => "forbidden",
        Word::NotFollowed(_) => "not-followed",
        Word::Unreadable => "unreadable",
        Word::NotRead => "not-read",
        Word::Mended(code) => match explain(code) {
            CodeKind::Neutral | CodeKind::Audio(_) | CodeKind::Lsd(_) => "command",
            CodeKind::Escape => "escape",
            CodeKind::Message => "opens-message",
            CodeKind::Other => "plain",
        },
    }
}

/// A value of the mode in H.221's writing, or that it is off.
fn value(value: u8, off: u8) -> String {
    if value == off {
        return "off".to_string();
    }
    format!("[{value}]")
}
