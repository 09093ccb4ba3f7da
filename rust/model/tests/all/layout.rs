//! Bit places: a second formulation by octets and a table, against the owner of each place.

use crate::common::{Reader, Sender};
use model::codes::{self, Kind, Mode};
use model::forge::{filler, mode, reading, sending};
use model::frame::{self, Owner};

/// Width of each audio value.
pub const WIDTHS: [(u8, usize); 11] =
    [(11, 1), (29, 2), (28, 3), (27, 4), (20, 6), (21, 6), (25, 6), (18, 7), (19, 7), (24, 7), (31, 0)];

/// First of the bits up to 7 (8 for none), first and last SC octet (81 and 80 for none), bits per frame.
pub const DATA: [(usize, usize, usize, usize); 15] = [
    (8, 81, 80, 0),
    (8, 38, 40, 3),
    (8, 29, 40, 12),
    (8, 33, 80, 48),
    (8, 17, 80, 64),
    (7, 81, 80, 80),
    (7, 25, 40, 96),
    (7, 17, 80, 144),
    (6, 81, 80, 160),
    (5, 81, 80, 240),
    (4, 81, 80, 320),
    (3, 81, 80, 400),
    (2, 81, 80, 480),
    (1, 81, 80, 560),
    (1, 17, 80, 624),
];

fn free_pairs() -> Vec<(u8, usize, u8)> {
    let mut pairs = Vec::new();
    for (audio, width) in WIDTHS {
        for data in 0..=14 {
            if !codes::overlap(audio, data) {
                pairs.push((audio, width, data));
            }
        }
    }
    pairs
}

fn count(mode: Mode, wanted: Owner) -> usize {
    frame::places().filter(|place| frame::owner(mode, place.octet, place.bit) == wanted).count()
}

#[test]
fn bits_per_frame() {
    for (audio, width) in WIDTHS {
        assert_eq!(codes::width(audio), Some(width));
        assert_eq!(count(mode(audio, 0), Owner::Voice), 160 * width, "audio [{audio}]");
    }
    for (data, (.., bits)) in DATA.into_iter().enumerate() {
        assert_eq!(count(mode(31, data as u8), Owner::Data), 2 * bits, "data [{data}]");
    }
    assert_eq!((0..=255).filter(|&audio| codes::held_audio(audio)).count(), WIDTHS.len());
    assert_eq!((0..=255).filter(|&data| codes::listed_data(data)).count(), DATA.len());
}

#[test]
fn what_counts_of_the_buffers() {
    let mut counted = 0;
    for audio in 0..=255 {
        for data in 0..=255 {
            let width = WIDTHS.iter().find(|&&(value, _)| value == audio).map_or(0, |&(_, width)| width);
            let bits = DATA.get(usize::from(data)).map_or(0, |&(.., bits)| bits);
            let mode = Mode { audio, data };
            assert_eq!((mode.voice_octets(), mode.data_bits()), (20 * width, 2 * bits), "{mode:?}");
            counted += usize::from(mode.voice_octets() > 0 && mode.data_bits() > 0);
        }
    }
    assert_eq!(counted, 10 * 14);
}

/// The places of a stream are one range of octet bits and one of octets, as the table has them.
#[test]
fn what_a_code_holds() {
    for code in 0..=255_u8 {
        let value = codes::value(code);
        let (bits, octets) = match codes::kind(code) {
            Kind::Audio => {
                let width = WIDTHS.iter().find(|&&(audio, _)| audio == value).expect("it is listed").1;
                (1..width + 1, 0..0)
            }
            Kind::Data => {
                let (first, sc_first, sc_last, _) = DATA[usize::from(value)];
                (first..8, sc_first..sc_last + 1)
            }
            _ => (0..0, 0..0),
        };
        assert_eq!(codes::octet_bits(code), bits.collect::<Vec<_>>(), "{code:02X}");
        assert_eq!(codes::service_octets(code), octets.collect::<Vec<_>>(), "{code:02X}");
    }
}

#[test]
fn kinds_of_codes() {
    let of_kind = |kind| (0..=255).filter(|&code| codes::kind(code) == kind).collect::<Vec<u8>>();
    assert_eq!(of_kind(Kind::Neutral), [0]);
    assert_eq!(of_kind(Kind::Audio), [11, 18, 19, 20, 21, 24, 25, 27, 28, 29, 31]);
    assert_eq!(of_kind(Kind::Data), (0x60..=0x6E).collect::<Vec<_>>());
    assert_eq!(of_kind(Kind::Escape), (0xE0..=0xF7).collect::<Vec<_>>());
    assert_eq!(of_kind(Kind::Message), (0xF9..=0xFF).collect::<Vec<_>>());
}

#[test]
fn overlaps_by_the_lowest_bit_of_data() {
    let pairs = free_pairs();
    assert_eq!(pairs.len(), 100);
    for (audio, width) in WIDTHS {
        for (data, (first, ..)) in DATA.into_iter().enumerate() {
            let overlap = width >= first;
            assert_eq!(codes::overlap(audio, data as u8), overlap, "audio [{audio}], data [{data}]");
        }
    }
}

#[test]
fn service_bits_and_bas_belong_to_nobody_else() {
    for (audio, _, data) in free_pairs() {
        for octet in 1..=8 {
            assert_eq!(frame::owner(mode(audio, data), octet, 8), Owner::Service(octet));
            assert_eq!(frame::owner(mode(audio, data), octet + 8, 8), Owner::Bas(octet + 8));
        }
    }
}

/// The first `count` bits of a buffer, taken from the front.
struct Stream {
    digits: std::vec::IntoIter<bool>,
}

impl Stream {
    fn new(octets: &[u8]) -> Stream {
        let digits: String = octets.iter().map(|octet| format!("{octet:08b}")).collect();
        Stream { digits: digits.chars().map(|digit| digit == '1').collect::<Vec<_>>().into_iter() }
    }

    fn take(&mut self, count: usize) -> u32 {
        self.digits.by_ref().take(count).fold(0, |sum, bit| sum * 2 + u32::from(bit))
    }
}

/// Bits 1 to 8 of an octet put together from its parts: voice, ones, data; bit 8 of octets 1 to 16 left as 0.
fn octet(number: usize, width: usize, data: u8, voice: &mut Stream, stream: &mut Stream) -> u8 {
    let (first, sc_first, sc_last, _) = DATA[usize::from(data)];
    let gap = first - width - 1;
    let mut octet = voice.take(width);
    octet = octet << gap | ((1 << gap) - 1);
    octet = octet << (8 - first) | stream.take(8 - first);
    let last = match number {
        1..=16 => 0,
        _ if (sc_first..=sc_last).contains(&number) => stream.take(1),
        _ => 1,
    };
    (octet << 1 | last) as u8
}

#[test]
fn blocks_put_together_octet_by_octet() {
    for (audio, width, data) in free_pairs() {
        let mut sender = Sender::new(sending(audio, data));
        sender.voice = filler(140, 11);
        sender.data = filler(156, 12);
        let (mut voice, mut stream) = (Stream::new(&sender.voice), Stream::new(&sender.data));
        sender.offer(0x80).expect("a block");
        for index in 0..160 {
            let number = index % 80 + 1;
            let expected = octet(number, width, data, &mut voice, &mut stream);
            let kept = if number <= 16 { 0xFE } else { 0xFF };
            assert_eq!(sender.line[index] & kept, expected, "audio [{audio}], data [{data}], octet {number}");
        }
        assert_eq!(voice.digits.len(), 1120 - 160 * width, "so many voice bits are left");
        assert_eq!(stream.digits.len(), 1248 - 2 * DATA[usize::from(data)].3, "so many data bits are left");
    }
}

#[test]
fn what_was_sent_is_handed_out() {
    for (audio, width, data) in free_pairs() {
        let mut sender = Sender::new(sending(audio, data));
        sender.voice = filler(140, 13);
        sender.data = filler(156, 14);
        sender.offer(0x80).expect("a block");
        let mut reader = Reader::new(reading(3, mode(audio, data)));
        reader.take(&sender.line);
        let bits = 2 * DATA[usize::from(data)].3;
        assert_eq!(reader.voice, first_bits_of(&sender.voice, 160 * width));
        assert_eq!(reader.data, first_bits_of(&sender.data, bits));
    }
}

/// A buffer with all but its first `count` bits zero.
pub fn first_bits_of(buffer: &[u8], count: usize) -> Vec<u8> {
    let keep = |index: usize| 0xFF00_u32 >> count.saturating_sub(8 * index).min(8);
    buffer.iter().enumerate().map(|(index, octet)| octet & keep(index) as u8).collect()
}

/// The number of data bits in a block.
pub fn data_bits(data: u8) -> usize {
    2 * DATA[usize::from(data)].3
}
