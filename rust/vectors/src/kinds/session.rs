//! Sending calls one after the other, from a fresh sender or from a preset's.

use super::{preset_read, refused, sender, unrestricted};
use crate::json::Json;
use crate::part::Part;
use crate::states::Reader;
use crate::subject::{Call, Subject};
use crate::told::Told;
use crate::unfit::Unfit;

pub fn tell<S: Subject>(given: &Part) -> Result<Told, Unfit> {
    let [restricted, preset, calls] = given.fields(["restricted", "preset", "calls"])?;
    unrestricted(&restricted)?;
    let mut sender = match preset.value {
        Json::Null => S::fresh_sender(),
        _ => match S::read_preset(preset_read::octets(&preset)?) {
            Ok((sender, _)) => sender,
            Err(number) => return Ok(refused(number, [])),
        },
    };
    let calls: Result<Vec<_>, Unfit> = calls.list()?.iter().map(|call| one::<S>(&mut sender, call)).collect();
    Ok(Told::Fields(vec![("calls", Told::List(calls?))]))
}

fn one<S: Subject>(sender: &mut S::Sender, call: &Part) -> Result<Told, Unfit> {
    let [mute, code, a, e, t, voice, lsd, ecs] = call.items()?;
    ecs.later_buffer(sender::ECS)?;
    let call = Call::read([&mute, &code, &a, &e, &t, &voice, &lsd])?;
    // octets that no block is made of, so that one that is not written shows
    let mut line = vec![0xA5; delampuk::LINE];
    Ok(match sender::send::<S>(sender, &call, &mut line) {
        Ok(answer) => Told::Fields(vec![
            ("answer", Told::from(answer)),
            ("word", Told::from(word::<S>(&line))),
            ("line", Told::Octets(line)),
        ]),
        Err(refused) => refused,
    })
}

/// The code that went. A sender does not tell it, but a reader of its own side does, one that knows its place.
fn word<S: Subject>(line: &[u8]) -> Option<u8> {
    let fresh = S::reader_state(&S::fresh_reader());
    let mut reader = S::forged_reader(&Reader { place: Some(1), ..fresh });
    let (mut voice, mut lsd) = ([0; delampuk::VOICE], [0; delampuk::LSD]);
    S::read(&mut reader, line, &mut voice, &mut lsd).ok()?.code
}
