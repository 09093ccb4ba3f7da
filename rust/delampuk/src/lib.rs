//! One 64 kbit/s channel framed by ITU-T Recommendation H.221: voice, a trickle of data, and BAS words that tell the far
//! end how to cut the bits apart.
//!
//! A [`Sender`] frames blocks of 20 ms, a [`Reader`] takes them apart again, and a [`Walk`] goes over a recording of the
//! line block by block. The work is done by a library that is proved: it takes any octets, lengths and saved states, and
//! refuses by a numbered list ([`Refusal`]) and only then. `delampuk-sys` links its archive, which `sh tools/native`
//! writes; this crate adds types and no rules. Both need the standard library alone and allocate nothing. An archive of
//! another version than this crate's is not run: the first call panics ([`fits`] asks without that).
//!
//! A code is an octet, written (attribute)\[value\] in H.221: the highest three bits and the lower five. (000)\[25\], the
//! octet 19 in hex, sets audio of six bits in each octet of the line, and 80 says nothing that changes the mode.
//!
//! ```
//! use delampuk::{Block, Call, Reader, Sender, Standing, Verdict, Word, LINE, LSD, VOICE};
//!
//! let (voice, lsd) = ([0x5A; VOICE], [0; LSD]);
//! let (mut heard, mut cues) = ([0; VOICE], [0; LSD]);
//! let mut line = [0; LINE];
//! let mut sender = Sender::new();
//! let mut reader = Reader::new();
//!
//! // The reader knows its place after six blocks, and audio is in force from the block after its command on.
//! for code in [0x80, 0x80, 0x80, 0x80, 0x80, 0x80, 0x19] {
//!     sender.send(&Call::offer(code), &voice, &lsd, &mut line)?;
//!     reader.read(&line, &mut heard, &mut cues)?;
//! }
//! sender.send(&Call::offer(0x80), &voice, &lsd, &mut line)?;
//! let block = reader.read(&line, &mut heard, &mut cues)?;
//!
//! assert_eq!(block, Block { standing: Standing::Read, verdict: Verdict::Good, word: Word::Mended(0x80) });
//! assert_eq!(heard[..120], voice[..120]);
//! # Ok::<(), delampuk::Refusal>(())
//! ```

mod code;
mod ffi;
mod mode;
mod preset;
mod reader;
mod recording;
mod refusal;
mod saved;
mod sender;
mod version;

pub use code::{explain, is_carried, CodeKind, Places};
pub use delampuk_sys::{
    OCTETS_LINE as LINE, OCTETS_LISTING as LISTING_MAX, OCTETS_LSD as LSD, OCTETS_RECORDING as RECORDING_MAX,
    OCTETS_VOICE as VOICE,
};
pub use mode::{Counts, Due, Mode};
pub use preset::Preset;
pub use reader::{Block, Reader, Standing, Verdict, Word};
pub use recording::{list, search, Step, Steps, Streams, Walk};
pub use refusal::Refusal;
pub use saved::NoSavedForm;
pub use sender::{Call, Sender, Sent};
pub use version::{fits, version, Version};
