//! Recordings drawn from a seed: sessions that are damaged and cut.

use delampuk::{Call, Sender, LINE, LSD, RECORDING_MAX, VOICE};

/// Marsaglia's generator of 64 bits.
struct Random(u64);

impl Random {
    fn next(&mut self) -> u64 {
        self.0 ^= self.0 << 13;
        self.0 ^= self.0 >> 7;
        self.0 ^= self.0 << 17;
        self.0
    }

    fn below(&mut self, bound: usize) -> usize {
        (self.next() % bound as u64) as usize
    }

    fn octets(&mut self, length: usize) -> Vec<u8> {
        (0..length).map(|_| self.next() as u8).collect()
    }

    /// Blocks of a session that offers any codes, and mutes now and then.
    fn session(&mut self, blocks: usize) -> Vec<u8> {
        let (mut sender, mut line, mut recording) = (Sender::new(), [0; LINE], Vec::new());
        while recording.len() < blocks * LINE {
            let call = Call { mute: self.below(4) == 0, ..Call::offer(self.next() as u8) };
            let (voice, lsd) = (self.octets(VOICE), self.octets(LSD));
            if sender.send(&call, &voice, &lsd, &mut line).is_ok() {
                recording.extend(line);
            }
        }
        recording
    }

    /// A session in which bits are flipped, octets left out, and others put in.
    fn recording(&mut self) -> Vec<u8> {
        let blocks = self.below(120);
        let mut recording = self.session(blocks);
        for _ in 0..self.below(5) {
            let (place, length) = (self.below(recording.len() + 1), self.below(700));
            let end = recording.len().min(place + length);
            let change = match self.below(3) {
                0 => Vec::new(),
                1 => self.octets(length),
                _ => vec![0; end - place],
            };
            recording.splice(place..end, change);
        }
        for _ in 0..self.below(40) {
            if !recording.is_empty() {
                let place = self.below(recording.len());
                recording[place] ^= 1 << self.below(8);
            }
        }
        recording
    }
}

/// So many recordings, none too long for the library.
pub fn recordings(seed: u64, count: usize) -> Vec<Vec<u8>> {
    let mut random = Random(seed);
    let drawn: Vec<Vec<u8>> = (0..count).map(|_| random.recording()).collect();
    assert!(drawn.iter().all(|recording| recording.len() <= RECORDING_MAX));
    drawn
}
