//! Bits taken out of octets and put into them, most significant first, through an accumulator.

/// Takes bits out of a buffer.
pub struct BitReader<'a> {
    octets: std::slice::Iter<'a, u8>,
    held: u32,
    count: u32,
}

impl<'a> BitReader<'a> {
    pub fn new(octets: &'a [u8]) -> BitReader<'a> {
        BitReader { octets: octets.iter(), held: 0, count: 0 }
    }

    /// The next bits, at most eight, as a number; zeros past the end.
    #[inline]
    pub fn take(&mut self, bits: u32) -> u8 {
        if self.count < bits {
            let next = self.octets.next().copied().unwrap_or(0);
            self.held = self.held << 8 | u32::from(next);
            self.count += 8;
        }
        self.count -= bits;
        (self.held >> self.count & ((1 << bits) - 1)) as u8
    }
}

/// Puts bits into a buffer.
pub struct BitWriter<'a> {
    octets: &'a mut [u8],
    next: usize,
    held: u32,
    count: u32,
}

impl<'a> BitWriter<'a> {
    pub fn new(octets: &'a mut [u8]) -> BitWriter<'a> {
        BitWriter { octets, next: 0, held: 0, count: 0 }
    }

    /// Puts the low bits of a number, at most eight.
    #[inline]
    pub fn put(&mut self, bits: u32, value: u8) {
        self.held = self.held << bits | u32::from(value) & ((1 << bits) - 1);
        self.count += bits;
        if self.count >= 8 {
            self.count -= 8;
            self.octets[self.next] = (self.held >> self.count) as u8;
            self.next += 1;
        }
    }

    /// Fills what is left with zeros.
    pub fn finish(mut self) {
        if self.count > 0 {
            self.put(8 - self.count, 0);
        }
        self.octets[self.next..].fill(0);
    }
}
