//! `model send`: frames standard input into a recording.

use std::fs::{self, File};
use std::io::{self, BufWriter, Read, Write};

use super::{unknown, written, Options};
use model::codes;
use model::frame::{self, Owner, BLOCK_OCTETS, DATA_OCTETS, VOICE_OCTETS};
use model::preset;
use model::sender::{send, Answer, Call, SenderState};
use model::service::Flags;

/// The inputs of one call that the user gives.
#[derive(Clone, Copy, Debug, PartialEq, Eq)]
pub struct Offer {
    code: u8,
    mute: bool,
    flags: Flags,
}

/// What the arguments ask for.
struct Plan {
    state: SenderState,
    offers: Vec<Offer>,
    data: Option<File>,
}

/// Runs the command.
pub fn run(options: Options) -> Result<(), String> {
    let mut plan = plan(options)?;
    if plan.offers.is_empty() {
        return Err("nothing to send: give --offer LIST or --script FILE".to_string());
    }
    let mut out = BufWriter::new(io::stdout().lock());
    for (index, offer) in plan.offers.iter().enumerate() {
        let line = one_call(&mut plan.state, offer, plan.data.as_mut(), index + 1)?;
        written(out.write_all(&line))?;
    }
    written(out.flush())
}

fn plan(mut options: Options) -> Result<Plan, String> {
    let mut plan = Plan { state: SenderState::FRESH, offers: Vec::new(), data: None };
    while let Some(argument) = options.next() {
        match argument.as_str() {
            "--offer" => plan.offers.extend(offers(&options.value("--offer")?)?),
            "--script" => {
                let name = options.value("--script")?;
                let script = fs::read_to_string(&name).map_err(|e| cannot("read", &name, e))?;
                plan.offers.extend(offers(&script)?);
            }
            "--data" => {
                let name = options.value("--data")?;
                plan.data = Some(File::open(&name).map_err(|e| cannot("open", &name, e))?);
            }
            "--preset" => plan.state = from_preset(&options.value("--preset")?)?,
            other => return Err(unknown(other)),
        }
    }
    Ok(plan)
}

fn cannot(what: &str, name: &str, error: io::Error) -> String {
    format!("cannot {what} \"{name}\": {error}")
}

fn from_preset(text: &str) -> Result<SenderState, String> {
    let wrong = || format!("a preset is four hex digits, not \"{text}\"");
    if text.len() != 4 || !text.chars().all(|digit| digit.is_ascii_hexdigit()) {
        return Err(wrong());
    }
    let bits = u16::from_str_radix(text, 16).map_err(|_| wrong())?;
    let (state, offer) = preset::read(bits).map_err(|refusal| format!("preset {text} refused {}", refusal.number()))?;
    eprintln!("preset {text}: offer {offer:02X} for its data");
    Ok(state)
}

/// The calls of a list: `HH`, `HH:FLAGS`, `HH*N` or `HH:FLAGS*N`, parted by commas, spaces or new lines.
pub fn offers(text: &str) -> Result<Vec<Offer>, String> {
    let mut offers = Vec::new();
    for line in text.lines() {
        let list = line.split('#').next().unwrap_or("");
        for word in list.split([',', ' ', '\t', '\r']).filter(|word| !word.is_empty()) {
            offers.extend(offer(word)?);
        }
    }
    Ok(offers)
}

fn offer(word: &str) -> Result<Vec<Offer>, String> {
    let wrong = || format!("\"{word}\" is no call: write HH, HH:FLAGS, HH*N or HH:FLAGS*N");
    let (call, times) = match word.split_once('*') {
        Some((call, times)) => (call, times.parse().map_err(|_| wrong())?),
        None => (word, 1),
    };
    let (code, letters) = call.split_once(':').unwrap_or((call, ""));
    if code.len() != 2 || !code.chars().all(|digit| digit.is_ascii_hexdigit()) {
        return Err(wrong());
    }
    if times > 100_000 || !letters.chars().all(|letter| "maet".contains(letter)) {
        return Err(wrong());
    }
    let offer = Offer {
        code: u8::from_str_radix(code, 16).map_err(|_| wrong())?,
        mute: letters.contains('m'),
        flags: Flags { a: letters.contains('a'), e: letters.contains('e'), t: letters.contains('t') },
    };
    Ok(vec![offer; times])
}

/// Makes one call, reports its answer, and gives the block back, or nothing where it was refused.
fn one_call(state: &mut SenderState, offer: &Offer, data: Option<&mut File>, number: usize) -> Result<Vec<u8>, String> {
    let mut line = vec![0; BLOCK_OCTETS];
    let (mut voice, mut data_buffer) = ([0; VOICE_OCTETS], [0; DATA_OCTETS]);
    // A trial on a copy of the state: a call that is refused shall take no voice and no data.
    if let Err(refusal) = send(&mut state.clone(), &call(offer, &voice, &data_buffer), &mut line) {
        eprintln!("call {number}: {:02X} refused {}", offer.code, refusal.number());
        return Ok(Vec::new());
    }
    if !offer.mute {
        fill(&mut voice[..octets_of(state, Owner::Voice)], io::stdin())?;
    }
    if let Some(file) = data {
        fill(&mut data_buffer[..octets_of(state, Owner::Data)], file)?;
    }
    let block = state.block;
    match send(state, &call(offer, &voice, &data_buffer), &mut line) {
        Ok(Answer::Sent) => eprintln!("call {number}: {:02X} sent in block {block}", offer.code),
        Ok(Answer::Held) => {
            // Mute's off and the release both command what is in force after them.
            let went = codes::code(codes::AUDIO, state.in_force);
            eprintln!("call {number}: {:02X} held, {went:02X} went in block {block}", offer.code);
        }
        Err(refusal) => return Err(format!("call {number}: refused {}", refusal.number())),
    }
    Ok(line)
}

/// The call of an offer with its two buffers.
pub fn call<'a>(offer: &Offer, voice: &'a [u8], data: &'a [u8]) -> Call<'a> {
    Call { mute: offer.mute, offered: offer.code, flags: offer.flags, voice, data }
}

/// The octets of a stream's buffer that count in the next block, a last part of one taken whole.
fn octets_of(state: &SenderState, stream: Owner) -> usize {
    let bits = frame::places().filter(|place| frame::owner(state.mode(), place.octet, place.bit) == stream).count();
    bits.div_ceil(8)
}

/// Takes as many octets as there are; what is missing stays zero.
fn fill(buffer: &mut [u8], source: impl Read) -> Result<(), String> {
    let mut octets = Vec::new();
    source
        .take(buffer.len() as u64)
        .read_to_end(&mut octets)
        .map_err(|error| format!("cannot read the input: {error}"))?;
    buffer[..octets.len()].copy_from_slice(&octets);
    Ok(())
}
