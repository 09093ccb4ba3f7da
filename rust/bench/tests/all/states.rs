//! States as octets, as they are drawn, and as the structs that cross to C.

use bench::forms::{Mode, Reader, Sender, Slot};

pub fn sender(octets: differential::states::Sender) -> Sender {
    let [chosen, audio, lsd, block, due, remainder] = octets;
    Sender { chosen, mode: Mode { audio, lsd }, block, due, remainder }
}

pub fn reader(octets: differential::states::Reader) -> Reader {
    let [audio, lsd, kept_audio, kept_lsd, wrong, block, firsts, misses, kind, words, before, remainder] = octets;
    Reader {
        mode: Mode { audio, lsd },
        kept: Mode { audio: kept_audio, lsd: kept_lsd },
        wrong,
        block,
        firsts,
        misses,
        slot: Slot { kind, words },
        before,
        remainder,
    }
}

/// Every mode that a state may hold.
pub fn modes() -> impl Iterator<Item = Mode> {
    let pairs = (0..32).flat_map(|audio| (0..15).map(move |lsd| Mode { audio, lsd }));
    pairs.filter(|mode| model::codes::Mode { audio: mode.audio, data: mode.lsd }.in_range())
}
