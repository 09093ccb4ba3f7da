//! What a difference prints is small: a stand-in for the library errs on purpose, and the call that comes out has nothing
//! but what makes it err.

use std::fmt::{self, Debug};
use std::io;

use delampuk::LISTING_MAX;
use differential::calls::{Call, List, Octets, WalkStep};
use differential::cases::{self, Trial};
use differential::linked::Linked;
use differential::server::{Answer, Request};
use differential::smaller::Field;
use differential::{draw, states};
use model::frame::{DATA_OCTETS, VOICE_OCTETS};
use model::recording::MOST_OCTETS;

/// A call of the stand-in, which leaves what the model leaves after `err` has changed it.
#[derive(Clone)]
struct Erring<C, E> {
    call: C,
    err: E,
}

fn erring<C: Call, E: Fn(&C, &mut C::Left) + Clone>(call: C, err: E) -> Erring<C, E> {
    Erring { call, err }
}

impl<C: Debug, E> Debug for Erring<C, E> {
    fn fmt(&self, out: &mut fmt::Formatter) -> fmt::Result {
        self.call.fmt(out)
    }
}

impl<C: Call, E: Fn(&C, &mut C::Left) + Clone> Call for Erring<C, E> {
    type Left = C::Left;

    fn request(&self, _: &mut Request) {
        unreachable!("the stand-in is no server")
    }

    fn left(&self, _: &mut Answer) -> io::Result<C::Left> {
        unreachable!("the stand-in is no server")
    }

    fn linked(&self) -> C::Left {
        let mut left = self.call.expected();
        (self.err)(&self.call, &mut left);
        left
    }

    fn expected(&self) -> C::Left {
        self.call.expected()
    }

    fn fields(&mut self) -> Vec<Field<'_>> {
        self.call.fields()
    }
}

/// Makes `calls` again and again, until one of them shows a difference.
fn run(calls: impl Fn(&mut Trial<Linked>)) {
    cases::run("smaller", u64::MAX, |trial| (0..1000).for_each(|_| calls(trial)));
}

/// Of a session one call is left, with the block number and the switch that count.
#[test]
#[should_panic(expected = "
call:    Send { state: [31, 31, 0, 5, 0, 0], mute: 0, code: 128, flags: [0, 1, 0], voice: 140:00*140, lsd: 156:00*156, line: 160:00*160 }
")]
fn a_session_becomes_a_call() {
    run(|trial| {
        let mut state = states::fresh_sender();
        for _ in 0..20 {
            let call = draw::send_on(&mut trial.random, state);
            let left = trial.call(&erring(call, |call, left| {
                if left.number == 0 && call.state[3] > 4 && call.flags[1] != 0 {
                    left.line.0[80] ^= 1;
                }
            }));
            state = left.state;
        }
    });
}

/// Of a line block one bit is left, the one that is handed out as the voice's bit that counts.
#[test]
#[should_panic(expected = "
call:    Read { state: [24, 0, 31, 0, 0, 1, 63, 0, 0, 0, 0, 0], line: 160:00*10+04+00*149, voice: 140:00*140, lsd: 156:00*156 }
")]
fn a_line_block_becomes_a_bit() {
    run(|trial| {
        let call = draw::read(&mut trial.random);
        trial.call(&erring(call, |call, left| {
            if left.kind == 0 && call.state[0] == 24 && left.voice.0[9] & 0x10 != 0 {
                left.voice.0[9] ^= 0x10;
            }
        }));
    });
}

/// Of the longest recording the block that is read is left, with the octet that counts.
#[test]
#[should_panic(expected = "
call:    WalkStep { state: [31, 0, 31, 0, 0, 0, 63, 0, 0, 0, 0, 0], lost: 0, place: 0, recording: 160:00*21+5A+00*138, voice: 140:00*140, lsd: 156:00*156 }
")]
fn a_recording_becomes_a_block() {
    run(|trial| {
        let mut recording = trial.random.octets(MOST_OCTETS);
        recording[60_021] = 0x5A;
        let call = WalkStep {
            state: draw::reader_in_range(&mut trial.random),
            lost: 0,
            place: 60_000,
            recording: Octets(recording),
            voice: Octets(trial.random.octets(VOICE_OCTETS)),
            lsd: Octets(trial.random.octets(DATA_OCTETS)),
        };
        trial.call(&erring(call, |call, left| {
            if left.kind == 0 && call.recording.0[call.place + 21] == 0x5A {
                left.place += 1;
            }
        }));
    });
}

/// Of a recording the octets of one alignment are left, and of the text the place for what counts.
#[test]
#[should_panic(expected = "
call:    List { recording: 168:0000000101000101+00*73+01+00*81+0101000101, text: 6:000000000000 }
")]
fn a_listing_becomes_a_word() {
    run(|trial| {
        let recording = Octets(draw::recording(&mut trial.random));
        let text = Octets(trial.random.octets(LISTING_MAX));
        trial.call(&erring(List { recording, text }, |_, left| {
            if left.text.0.starts_with(b"found ") {
                left.text.0[0] = b'F';
            }
        }));
    });
}
