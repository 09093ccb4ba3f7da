//! Makes a call that shows a difference smaller.

use std::cmp::Ordering;
use std::iter;
use std::ops::Range;

use model::frame::BLOCK_OCTETS;

use crate::calls::{Call, Octets};

/// The most calls that are tried for one difference.
const TRIES: usize = 20_000;

/// The most parts of one size in a buffer. What is left of a longer buffer is divided further.
const PARTS: usize = 1024;

/// What of an octet stays: nothing, the service channel's bit, all bits but one.
const MASKS: [u8; 10] = [0x00, 0x01, 0xFE, 0xFD, 0xFB, 0xF7, 0xEF, 0xDF, 0xBF, 0x7F];

/// A part of what a call is given.
pub enum Field<'a> {
    /// A state, switches or a code, and the simplest octets that can stand there.
    Octets(&'a mut [u8], Vec<u8>),
    /// A buffer.
    Buffer(&'a mut Octets),
    /// A recording, and the place in it from which on it is used.
    Recording(&'a mut Octets, &'a mut usize),
}

/// A change that makes a field smaller.
enum Edit {
    /// These octets stand in the field.
    Octets(Vec<u8>),
    /// The place is this one.
    Place(usize),
    /// The part of a buffer is left out.
    Without(Range<usize>),
    /// Of each octet in the part of a buffer the bits of a mask stay.
    Masked(Range<usize>, u8),
}

/// The smallest form of `call` that is still `wrong`, and what is wrong with it. Each edit that leaves the call wrong is
/// kept, and the search goes on with the edits that follow it, until a call is right after every edit.
pub fn smallest<C: Call, W>(call: C, why: W, mut wrong: impl FnMut(&C) -> Option<W>) -> (C, W) {
    let (mut smallest, mut why) = (call, why);
    let (mut tries, mut from) = (TRIES, 0);
    'search: loop {
        for (index, (field, edit)) in edits(smallest.fields()).into_iter().enumerate().skip(from).take(tries) {
            tries -= 1;
            let mut call = smallest.clone();
            call.fields().swap_remove(field).make(edit);
            if let Some(wrong) = wrong(&call) {
                (from, smallest, why) = (index, call, wrong);
                continue 'search;
            }
        }
        if from == 0 || tries == 0 {
            return (smallest, why);
        }
        // the edits before this one were tried in larger calls alone
        from = 0;
    }
}

/// The edits of all fields, each with the field's number.
fn edits(fields: Vec<Field>) -> Vec<(usize, Edit)> {
    let of_field = |(number, field): (usize, Field)| field.edits().into_iter().map(move |edit| (number, edit));
    fields.into_iter().enumerate().flat_map(of_field).collect()
}

impl Field<'_> {
    fn edits(&self) -> Vec<Edit> {
        match self {
            Field::Octets(octets, simplest) => nearer(octets, simplest).into_iter().map(Edit::Octets).collect(),
            Field::Buffer(buffer) => cuts(&buffer.0),
            Field::Recording(recording, place) => {
                let places = numbers(**place, 0).map(Edit::Place);
                cuts(&recording.0).into_iter().chain(places).collect()
            }
        }
    }

    fn make(self, edit: Edit) {
        match (self, edit) {
            (Field::Octets(octets, _), Edit::Octets(smaller)) => octets.copy_from_slice(&smaller),
            (Field::Recording(_, place), Edit::Place(smaller)) => *place = smaller,
            (Field::Buffer(buffer) | Field::Recording(buffer, _), Edit::Masked(part, mask)) => {
                buffer.0[part].iter_mut().for_each(|octet| *octet &= mask);
            }
            (Field::Buffer(buffer), Edit::Without(part)) => drop(buffer.0.drain(part)),
            (Field::Recording(recording, place), Edit::Without(part)) => {
                // the place stays at its octet
                if part.end <= *place && *place <= recording.0.len() {
                    *place -= part.len();
                }
                recording.0.drain(part);
            }
            _ => unreachable!("an edit is made in a field that gave it"),
        }
    }
}

/// Numbers nearer to `simplest` than `number` is: itself, the one half way, the next one.
fn numbers(number: usize, simplest: usize) -> impl Iterator<Item = usize> {
    let next = match number.cmp(&simplest) {
        Ordering::Less => number + 1,
        Ordering::Equal => number,
        Ordering::Greater => number - 1,
    };
    [simplest, number.midpoint(simplest), next].into_iter().filter(move |&nearer| nearer != number)
}

/// Rows of octets nearer to `simplest` than `octets` is: itself, and those with one octet nearer.
fn nearer(octets: &[u8], simplest: &[u8]) -> Vec<Vec<u8>> {
    let mut rows = Vec::new();
    if octets != simplest {
        rows.push(simplest.to_vec());
    }
    for (index, (&octet, &simple)) in octets.iter().zip(simplest).enumerate() {
        for number in numbers(octet.into(), simple.into()) {
            let mut row = octets.to_vec();
            row[index] = number as u8;
            rows.push(row);
        }
    }
    rows
}

/// Parts of a buffer that are left out, and then parts that lose ones.
fn cuts(buffer: &[u8]) -> Vec<Edit> {
    let mut cuts: Vec<_> = parts(buffer.len()).map(Edit::Without).collect();
    for part in parts(buffer.len()) {
        let ones = buffer[part.clone()].iter().fold(0, |ones, octet| ones | octet);
        let masks = MASKS.into_iter().filter(|mask| ones & !mask != 0);
        cuts.extend(masks.map(|mask| Edit::Masked(part.clone(), mask)));
    }
    cuts
}

/// The parts of a buffer with `length` octets: the whole, its halves, and so on. Large parts are whole blocks, so that a
/// recording without one of them stays in step.
fn parts(length: usize) -> impl Iterator<Item = Range<usize>> {
    let half = |size: &usize| match size / 2 {
        half if half > BLOCK_OCTETS => Some(half - half % BLOCK_OCTETS),
        half => Some(half),
    };
    let sizes = iter::successors(Some(length), half).take_while(move |size| *size > length / PARTS);
    sizes.flat_map(move |size| (0..length).step_by(size).map(move |start| start..length.min(start + size)))
}
