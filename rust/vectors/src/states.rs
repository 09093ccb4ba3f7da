//! States as the cases have them: numbers, of which any can stand anywhere, so that nothing of a state is hidden.

use crate::json::Json;
use crate::part::Part;
use crate::told::Told;
use crate::unfit::Unfit;

/// A sender's state.
#[derive(Clone, Copy, Debug, PartialEq, Eq)]
pub struct Sender {
    /// The chosen audio.
    pub chosen: u8,
    /// The audio in force.
    pub in_force: u8,
    /// The data in force.
    pub lsd: u8,
    /// The next block.
    pub block: u8,
    /// What is due, as a number of [`SENDER_DUE`].
    pub due: u8,
    /// The remainder of the block before.
    pub remainder: u8,
}

/// A reader's state.
#[derive(Clone, Copy, Debug, PartialEq, Eq)]
pub struct Reader {
    /// Audio and data in force.
    pub mode: [u8; 2],
    /// Audio and data that a loss goes back to.
    pub kept: [u8; 2],
    /// The next block; none where it is unknown.
    pub place: Option<u8>,
    /// What is due, as a number of [`READER_DUE`], and how many words of a message are left.
    pub due: [u8; 2],
    /// Wrong alignment words in a row.
    pub align_run: u8,
    /// Wrong multiframe patterns in a row.
    pub pattern_run: u8,
    /// The last six first bits, the newest lowest.
    pub firsts: u8,
    /// Whether there is a block before, as a number.
    pub has_before: u8,
    /// The remainder of the block before.
    pub remainder: u8,
}

/// The cases' names for what a sender's next word is.
pub const SENDER_DUE: [&str; 2] = ["none", "item"];

/// The cases' names for what a reader's next word is.
pub const READER_DUE: [&str; 4] = ["none", "item", "count", "message"];

/// The number of a message in [`READER_DUE`].
pub const MESSAGE: u8 = 3;

/// What stands in a number that only a later request knows.
const NOTHING: Json = Json::Number(0);

const SENDER_FIELDS: [&str; 11] =
    ["chosen", "in_force", "data", "block", "due", "remainder", "ecs", "chosen_iso", "force_iso", "restricted", "kept"];

const READER_FIELDS: [&str; 11] = [
    "mode",
    "kept",
    "place",
    "due",
    "align_run",
    "pattern_run",
    "firsts",
    "has_before",
    "remainder",
    "standing",
    "restricted",
];

/// What stands in a reader's `standing` before a request brings it.
fn standing() -> Json {
    Json::List(vec![Json::Number(1), Json::Number(0)])
}

/// The number of a name; another one is a later request's.
fn due(part: &Part, names: &[&str]) -> Result<u8, Unfit> {
    let name = part.text()?;
    match names.iter().position(|known| *known == name) {
        Some(number) => Ok(number as u8),
        None => Err(part.unfit(&format!("is {name}, which only a later request knows"))),
    }
}

/// The name of a number. One that has none is told as it is.
fn due_told(number: u8, names: &[&str]) -> Told {
    match names.get(usize::from(number)) {
        Some(name) => Told::from(*name),
        None => Told::from(number),
    }
}

impl Sender {
    /// The state that a part of a case has.
    pub fn read(part: &Part) -> Result<Sender, Unfit> {
        let [chosen, in_force, lsd, block, word, remainder, ecs, chosen_iso, force_iso, restricted, kept] =
            part.fields(SENDER_FIELDS)?;
        for later in [ecs, chosen_iso, force_iso, restricted] {
            later.later(&NOTHING)?;
        }
        kept.later(&Json::Null)?;
        Ok(Sender {
            chosen: chosen.octet()?,
            in_force: in_force.octet()?,
            lsd: lsd.octet()?,
            block: block.octet()?,
            due: due(&word, &SENDER_DUE)?,
            remainder: remainder.octet()?,
        })
    }

    /// The state as a case has it.
    pub fn told(&self) -> Told {
        let later = || Told::Later(NOTHING);
        let values = [
            self.chosen.into(),
            self.in_force.into(),
            self.lsd.into(),
            self.block.into(),
            due_told(self.due, &SENDER_DUE),
            self.remainder.into(),
            later(),
            later(),
            later(),
            later(),
            Told::Later(Json::Null),
        ];
        Told::Fields(SENDER_FIELDS.into_iter().zip(values).collect())
    }
}

impl Reader {
    /// The state that a part of a case has.
    pub fn read(part: &Part) -> Result<Reader, Unfit> {
        let [mode, kept, place, due, align_run, pattern_run, firsts, has_before, remainder, used, restricted] =
            part.fields(READER_FIELDS)?;
        used.later(&standing())?;
        restricted.later(&NOTHING)?;
        Ok(Reader {
            mode: mode_read(&mode)?,
            kept: mode_read(&kept)?,
            place: place_read(&place)?,
            due: reader_due(&due)?,
            align_run: align_run.octet()?,
            pattern_run: pattern_run.octet()?,
            firsts: firsts.octet()?,
            has_before: has_before.octet()?,
            remainder: remainder.octet()?,
        })
    }

    /// The state as a case has it.
    pub fn told(&self) -> Told {
        let [kind, words] = self.due;
        let later = || Told::Later(NOTHING);
        let due = vec![due_told(kind, &READER_DUE), words.into(), later(), later(), later()];
        let values = [
            mode_told(self.mode),
            mode_told(self.kept),
            self.place.into(),
            Told::List(due),
            self.align_run.into(),
            self.pattern_run.into(),
            self.firsts.into(),
            self.has_before.into(),
            self.remainder.into(),
            Told::Later(standing()),
            later(),
        ];
        Told::Fields(READER_FIELDS.into_iter().zip(values).collect())
    }
}

fn mode_read(part: &Part) -> Result<[u8; 2], Unfit> {
    let [audio, lsd, ecs, iso] = part.items()?;
    ecs.later(&NOTHING)?;
    iso.later(&NOTHING)?;
    Ok([audio.octet()?, lsd.octet()?])
}

fn mode_told([audio, lsd]: [u8; 2]) -> Told {
    let later = || Told::Later(NOTHING);
    Told::List(vec![audio.into(), lsd.into(), later(), later()])
}

fn place_read(part: &Part) -> Result<Option<u8>, Unfit> {
    match part.value {
        Json::Null => Ok(None),
        _ => part.octet().map(Some),
    }
}

fn reader_due(part: &Part) -> Result<[u8; 2], Unfit> {
    let [kind, words, opener, all, broken] = part.items()?;
    for later in [opener, all, broken] {
        later.later(&NOTHING)?;
    }
    let kind = due(&kind, &READER_DUE)?;
    if kind != MESSAGE {
        // a later request tells items apart here
        words.later(&NOTHING)?;
    }
    Ok([kind, words.octet()?])
}
