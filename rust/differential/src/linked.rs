//! The library in this process, through the wrapper.

use std::ops::Range;

use crate::calls::{Call, Octets};
use crate::library::Library;

/// The library that is linked into this process.
pub struct Linked;

impl Library for Linked {
    const TEST: &'static str = "linked";
    const CASES: u64 = 100_000;

    fn start() -> Linked {
        Linked
    }

    fn call<C: Call>(&mut self, call: &C) -> C::Left {
        call.linked()
    }
}

/// The octets between buffers, and what stands there.
const FENCE: [u8; 61] = [0xC3; 61];

/// Buffers that lie one behind the other with a fence around each; a copy tells what a call changed.
pub struct Room<const N: usize> {
    octets: Vec<u8>,
    before: Vec<u8>,
    places: [Range<usize>; N],
}

impl<const N: usize> Room<N> {
    /// A room for these buffers.
    pub fn of(buffers: [&Octets; N]) -> Room<N> {
        let mut octets = FENCE.to_vec();
        let places = buffers.map(|buffer| {
            let start = octets.len();
            octets.extend(&buffer.0);
            octets.extend(FENCE);
            start..start + buffer.0.len()
        });
        Room { before: octets.clone(), octets, places }
    }

    /// The buffers, to be lent.
    pub fn lend(&mut self) -> [&mut [u8]; N] {
        self.octets.get_disjoint_mut(self.places.clone()).expect("a fence parts any two buffers")
    }

    /// 1 where nothing changed but perhaps the buffers of these numbers.
    pub fn kept<const M: usize>(&self, written: [usize; M]) -> u8 {
        let mut allowed = self.before.clone();
        for number in written {
            let place = self.places[number].clone();
            allowed[place.clone()].copy_from_slice(&self.octets[place]);
        }
        (allowed == self.octets).into()
    }

    /// What stands in the buffer of a number.
    pub fn buffer(&self, number: usize) -> Octets {
        Octets(self.octets[self.places[number].clone()].to_vec())
    }
}
