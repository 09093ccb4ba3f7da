//! The built command, run with words and an input.

use std::io::Write;
use std::path::{Path, PathBuf};
use std::process::{Child, Command, Output, Stdio};
use std::thread;

/// What a run left.
#[derive(Debug, PartialEq, Eq)]
pub struct Ran {
    pub status: i32,
    pub out: Vec<u8>,
    pub error: String,
}

impl Ran {
    pub fn text(&self) -> &str {
        std::str::from_utf8(&self.out).expect("the output is text")
    }
}

pub fn command(words: &[&str]) -> Command {
    let mut command = Command::new(env!("CARGO_BIN_EXE_delampuk"));
    command.args(words).stdin(Stdio::null()).stdout(Stdio::piped()).stderr(Stdio::piped());
    command
}

pub fn finished(child: Child) -> Ran {
    ran(child.wait_with_output().expect("the command ends"))
}

fn ran(output: Output) -> Ran {
    let status = output.status.code().expect("no signal ends the command");
    let error = String::from_utf8(output.stderr).expect("messages are text");
    Ran { status, out: output.stdout, error }
}

/// Runs it on an input that comes by a pipe, in pieces of so many octets.
pub fn run_in_pieces(words: &[&str], input: &[u8], piece: usize) -> Ran {
    let mut child = command(words).stdin(Stdio::piped()).spawn().expect("the command is built");
    let mut pipe = child.stdin.take().expect("its input is a pipe");
    let input = input.to_vec();
    let writer = thread::spawn(move || {
        for octets in input.chunks(piece) {
            // a command that has seen enough may have ended
            if pipe.write_all(octets).is_err() {
                return;
            }
        }
    });
    let ran = finished(child);
    writer.join().expect("the input is written");
    ran
}

pub fn run(words: &[&str], input: &[u8]) -> Ran {
    run_in_pieces(words, input, 1 << 16)
}

/// A recording that standard error says nothing wrong of.
pub fn sent(words: &[&str], voice: &[u8]) -> Vec<u8> {
    let ran = run(&[&["send"], words].concat(), voice);
    assert_eq!(ran.status, 0, "{}", ran.error);
    ran.out
}

/// A file of the repository.
pub fn in_repository(name: &str) -> PathBuf {
    Path::new(env!("CARGO_MANIFEST_DIR")).join("../..").join(name)
}

/// A file for one test, in a folder that the tests have for themselves.
pub fn scratch(name: &str) -> PathBuf {
    Path::new(env!("CARGO_TARGET_TMPDIR")).join(name)
}
