//! A plain model of document 01 as a program: corner cases, sending, listing.

mod commands;

use std::process::ExitCode;

use commands::{Options, Stop};

const HELP: &str = "\
A plain model of document 01: one framed 64 kbit/s channel, its BAS words and its CRC-4.

model corners DIR
    Writes the corner cases with their outcomes into the folder DIR, a file for each part: sender, reader,
    search, walk, listing, preset, bas, crc, service.

model send [--offer LIST] [--script FILE] [--data FILE] [--preset HHHH] < VOICE > RECORDING
    Frames one block per call. A call is HH, HH:FLAGS, HH*N or HH:FLAGS*N: HH is the offered code in hex,
    FLAGS are letters out of m (mute), a, e, t, and N repeats the call. LIST parts calls by commas; a FILE
    of a script by commas, spaces or new lines, and # begins a comment. Both may be given several times.
    Voice comes from standard input: each unmuted block takes the 20w octets that its audio in force needs
    (w bits of each octet), so none while audio is off; a muted block takes none. Data comes from --data in
    the same way, as many octets as hold twice the bits per frame. Missing octets are zeros.
    --preset begins with a preset instead of a fresh state.
    Standard error tells what became of each call: sent, held (another word went; offer the code again) or
    refused with its number (no block).

model session
    Prints one fixed session of 52 sending calls with every rule of sending and refusals 1 to 8: each call's
    number, offered code, flags, answer and the state that it leaves, and then the block that it wrote.

model recordings > COLLECTION
    Writes a fixed collection of recordings with every rule of reading. Each is one octet with the number of
    its blocks, 1 to 255, and then these blocks of 160 octets.

model reading < COLLECTION
    Prints for each recording what a fresh reader answers to its blocks, handed to it one after another with no
    search: standing, verdict, reading; voice and data up to their last octet that is not zero; and the state
    left, where an unknown block is 0, firsts are the first bits as a number, and due is 0 0 (nothing), 1 0
    (item), 2 0 (N) or 3 and the words left. Then come six calls that are refused.
    A collection that ends within a recording is told on standard error, with status 1.

model list < RECORDING
    Prints 01's listing of standard input.

model read < RECORDING
    Prints each step of a walk from the first place found: the answer, the octets of voice and data that
    count, and the reader's state.

model listings DIR
    Writes recordings NAME.raw with their listings NAME.txt into the folder DIR.

model --help
    Prints this.
";

fn main() -> ExitCode {
    match run(std::env::args_os().skip(1).collect()) {
        Ok(()) => ExitCode::SUCCESS,
        Err(Stop::Call(message)) => {
            eprintln!("model: {message}\nmodel --help explains the commands.");
            ExitCode::from(2)
        }
        Err(Stop::Input(message)) => {
            eprintln!("model: {message}");
            ExitCode::from(1)
        }
    }
}

fn run(arguments: Vec<std::ffi::OsString>) -> Result<(), Stop> {
    let mut words = Vec::new();
    for argument in arguments {
        words.push(argument.into_string().map_err(|a| format!("argument {a:?} is not text"))?);
    }
    if words.iter().any(|word| word == "--help" || word == "-h" || word == "help") {
        return Ok(commands::written(print_help())?);
    }
    if words.is_empty() {
        return Err(Stop::Call("no command".to_string()));
    }
    let command = words.remove(0);
    let options = Options::new(words);
    match command.as_str() {
        "corners" => commands::corners::run(options)?,
        "send" => commands::send::run(options)?,
        "session" => commands::session::run(options)?,
        "recordings" => commands::recordings::run(options)?,
        "reading" => commands::reading::run(options)?,
        "list" => commands::list::run(options)?,
        "listings" => commands::listings::run(options)?,
        "read" => commands::read::run(options)?,
        other => return Err(Stop::Call(format!("unknown command \"{other}\""))),
    }
    Ok(())
}

fn print_help() -> std::io::Result<()> {
    use std::io::Write;
    std::io::stdout().write_all(HELP.as_bytes())
}
