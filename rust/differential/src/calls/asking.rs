//! `delampuk_about`, and the calls that tell: `delampuk_tell_sender`, `delampuk_tell_reader`, `delampuk_count` and
//! `delampuk_explain`.

use std::mem::size_of;
use std::{io, slice};

use delampuk::{CodeKind, Due};
use model::codes::{self, Kind, Mode};
use model::slots;

use super::Call;
use crate::server::{Answer, Request};
use crate::smaller::Field;
use crate::states::{self, Reader, Sender};

/// `delampuk_about`.
#[derive(Clone, Debug)]
pub struct About;

/// What `delampuk_about` answers.
#[derive(Debug, PartialEq)]
pub struct AboutLeft {
    /// 10000 major + 100 minor + patch.
    pub version: u32,
    /// The octets of a sender, a reader and a walk, and 0.
    pub sizes: [usize; 4],
}

impl Call for About {
    type Left = AboutLeft;

    fn request(&self, request: &mut Request) {
        request.octets(b"V");
    }

    fn left(&self, answer: &mut Answer) -> io::Result<AboutLeft> {
        let version = u32::from_le_bytes(answer.array()?);
        let [s0, s1, r0, r1, w0, w1, z0, z1] = answer.array()?;
        let sizes = [[s0, s1], [r0, r1], [w0, w1], [z0, z1]].map(|size| u16::from_le_bytes(size).into());
        Ok(AboutLeft { version, sizes })
    }

    /// The wrapper's types hold the states, and a walk its recording besides.
    fn linked(&self) -> AboutLeft {
        let delampuk::Version { major, minor, patch } = delampuk::version();
        let walk = size_of::<delampuk::Walk>() - size_of::<&[u8]>();
        let sizes = [size_of::<delampuk::Sender>(), size_of::<delampuk::Reader>(), walk, 0];
        AboutLeft { version: 10_000 * major + 100 * minor + patch, sizes }
    }

    /// The library and this package have one version.
    fn expected(&self) -> AboutLeft {
        let parts = env!("CARGO_PKG_VERSION").split('.');
        let version = parts.fold(0, |sum, part| 100 * sum + part.parse::<u32>().expect("a version is numbers"));
        AboutLeft { version, sizes: [6, 12, 24, 0] }
    }

    fn fields(&mut self) -> Vec<Field<'_>> {
        Vec::new()
    }
}

/// `delampuk_tell_sender`.
#[derive(Clone, Debug)]
pub struct TellSender {
    /// The state.
    pub state: Sender,
}

impl Call for TellSender {
    /// Mode (audio, lsd), chosen audio, due.
    type Left = [u8; 4];

    fn request(&self, request: &mut Request) {
        request.octets(b"N").octets(&self.state);
    }

    fn left(&self, answer: &mut Answer) -> io::Result<Self::Left> {
        answer.array()
    }

    fn linked(&self) -> Self::Left {
        let sender = states::linked_sender(self.state);
        let [due, _] = due_by_wrapper(sender.due());
        [sender.mode().audio, sender.mode().lsd, sender.chosen(), due]
    }

    fn expected(&self) -> Self::Left {
        let state = states::sender(self.state);
        [state.in_force, state.data, state.chosen, state.item_due.into()]
    }

    fn fields(&mut self) -> Vec<Field<'_>> {
        vec![Field::Octets(&mut self.state, states::fresh_sender().into())]
    }

    fn outcome(&[_, _, _, due]: &Self::Left) -> Vec<String> {
        vec![format!("due {due}")]
    }
}

/// `delampuk_tell_reader`.
#[derive(Clone, Debug)]
pub struct TellReader {
    /// The state.
    pub state: Reader,
}

impl Call for TellReader {
    /// Mode (audio, lsd), block, due, words.
    type Left = [u8; 5];

    fn request(&self, request: &mut Request) {
        request.octets(b"O").octets(&self.state);
    }

    fn left(&self, answer: &mut Answer) -> io::Result<Self::Left> {
        answer.array()
    }

    fn linked(&self) -> Self::Left {
        let reader = states::linked_reader(self.state);
        let [due, words] = due_by_wrapper(reader.due());
        [reader.mode().audio, reader.mode().lsd, reader.next_block().unwrap_or(0), due, words]
    }

    fn expected(&self) -> Self::Left {
        let state = states::reader(self.state);
        let [due, words] = match state.due {
            slots::Due::Nothing | slots::Due::Message(0) => [0, 0],
            slots::Due::Item => [1, 0],
            slots::Due::Count => [2, 0],
            slots::Due::Message(words) => [3, words as u8],
        };
        [state.mode.audio, state.mode.data, state.block.unwrap_or(0), due, words]
    }

    fn fields(&mut self) -> Vec<Field<'_>> {
        vec![Field::Octets(&mut self.state, states::fresh_reader().into())]
    }

    fn outcome(&[_, _, _, due, _]: &Self::Left) -> Vec<String> {
        vec![format!("due {due}")]
    }
}

fn due_by_wrapper(due: Due) -> [u8; 2] {
    match due {
        Due::Plain => [0, 0],
        Due::Item => [1, 0],
        Due::Length => [2, 0],
        Due::Message(words) => [3, words],
    }
}

/// `delampuk_count`.
#[derive(Clone, Debug)]
pub struct Count {
    /// Audio and lsd.
    pub mode: [u8; 2],
}

impl Call for Count {
    /// Octets of voice, bits of data.
    type Left = [usize; 2];

    fn request(&self, request: &mut Request) {
        request.octets(b"C").octets(&self.mode);
    }

    fn left(&self, answer: &mut Answer) -> io::Result<Self::Left> {
        let [v0, v1, l0, l1] = answer.array()?;
        Ok([[v0, v1], [l0, l1]].map(|count| u16::from_le_bytes(count).into()))
    }

    fn linked(&self) -> Self::Left {
        let [audio, lsd] = self.mode;
        let counts = delampuk::Mode { audio, lsd }.counts();
        [counts.voice_octets, counts.lsd_bits]
    }

    fn expected(&self) -> Self::Left {
        let [audio, data] = self.mode;
        let mode = Mode { audio, data };
        [mode.voice_octets(), mode.data_bits()]
    }

    fn fields(&mut self) -> Vec<Field<'_>> {
        vec![Field::Octets(&mut self.mode, vec![31, 0])]
    }
}

/// `delampuk_explain`.
#[derive(Clone, Debug)]
pub struct Explain {
    /// The code.
    pub code: u8,
}

/// Octet bits and SC octets, first and last of each, where a code holds none.
const NO_PLACES: [u8; 4] = [1, 0, 17, 16];

impl Call for Explain {
    /// Kind, whether it is carried, and the octet bits and SC octets, first and last of each.
    type Left = [u8; 6];

    fn request(&self, request: &mut Request) {
        request.octets(b"E").octets(&[self.code]);
    }

    fn left(&self, answer: &mut Answer) -> io::Result<Self::Left> {
        answer.array()
    }

    fn linked(&self) -> Self::Left {
        let of = |places: delampuk::Places| {
            let (bits, octets) = (places.bits, places.service_octets);
            [*bits.start(), *bits.end(), *octets.start(), *octets.end()]
        };
        let (kind, places) = match delampuk::explain(self.code) {
            CodeKind::Other => (0, NO_PLACES),
            CodeKind::Neutral => (1, NO_PLACES),
            CodeKind::Audio(places) => (2, of(places)),
            CodeKind::Lsd(places) => (3, of(places)),
            CodeKind::Escape => (4, NO_PLACES),
            CodeKind::Message => (5, NO_PLACES),
        };
        explained(kind, delampuk::is_carried(self.code), places)
    }

    fn expected(&self) -> Self::Left {
        let kind = codes::kind(self.code);
        // data begins from the right, audio from the left (F4)
        let no_bits = if kind == Kind::Data { [8, 7] } else { [1, 0] };
        let [first_bit, last_bit] = ends(&codes::octet_bits(self.code)).unwrap_or(no_bits);
        let [first_sc, last_sc] = ends(&codes::service_octets(self.code)).unwrap_or([17, 16]);
        let number = match kind {
            Kind::Other => 0,
            Kind::Neutral => 1,
            Kind::Audio => 2,
            Kind::Data => 3,
            Kind::Escape => 4,
            Kind::Message => 5,
        };
        explained(number, codes::carried(self.code), [first_bit, last_bit, first_sc, last_sc])
    }

    fn fields(&mut self) -> Vec<Field<'_>> {
        vec![Field::Octets(slice::from_mut(&mut self.code), vec![0x80])]
    }
}

fn explained(kind: u8, carried: bool, [first_bit, last_bit, first_sc, last_sc]: [u8; 4]) -> [u8; 6] {
    [kind, carried.into(), first_bit, last_bit, first_sc, last_sc]
}

/// The first and the last of some numbers.
fn ends(numbers: &[usize]) -> Option<[u8; 2]> {
    Some([*numbers.first()? as u8, *numbers.last()? as u8])
}
