//! Streams that cannot be read or written, and inputs that are empty or huge.

use std::fs::{File, OpenOptions};
use std::io::{BufRead, BufReader, Write};
use std::process::{Command, Stdio};
use std::sync::mpsc;
use std::thread;
use std::time::Duration;

use crate::common::{command, finished, in_repository, run, sent};

fn full() -> File {
    OpenOptions::new().write(true).open("/dev/full").expect("this system has /dev/full")
}

const WRITING: [&[&str]; 6] = [
    &["--help"],
    &["list", "--version"],
    &["send", "80"],
    &["list", "SAMPLE"],
    &["hear", "--octets", "SAMPLE"],
    &["hear", "SAMPLE"],
];

/// A recording with voice, as a file.
fn with_sample<T>(words: &[&str], call: impl FnOnce(&[&str]) -> T) -> T {
    let file = in_repository("crates/hear/stdin");
    let name = file.to_str().expect("its name is text");
    let words: Vec<&str> = words.iter().map(|word| if *word == "SAMPLE" { name } else { word }).collect();
    call(&words)
}

#[test]
fn a_full_disk_is_told() {
    for words in WRITING {
        let ran = with_sample(words, |words| finished(command(words).stdout(full()).spawn().expect("it is built")));
        assert_eq!(ran.status, 1, "{words:?}");
        assert!(ran.error.contains("the output cannot be written: No space left"), "{words:?}: {}", ran.error);
    }
}

#[test]
fn messages_that_cannot_be_written_are_a_fault() {
    for words in [&["send", "80"], &["hear", "SAMPLE"]] {
        let ran = with_sample(words, |words| finished(command(words).stderr(full()).spawn().expect("it is built")));
        assert_eq!(ran.status, 1, "{words:?}");
    }
}

/// The command waits for its input until nobody reads its output any more. It writes more than a pipe holds: a process that another test is just
/// starting may still have the other end.
#[test]
fn a_closed_pipe_ends_it_quietly() {
    let recording = sent(&["80*6", "14", "80*6000"], &[0; 720_000]);
    for words in [&["list"][..], &["hear"], &["send", "14", "80*6000"]] {
        let mut child = command(words).stdin(Stdio::piped()).spawn().expect("it is built");
        drop(child.stdout.take());
        let mut pipe = child.stdin.take().expect("its input is a pipe");
        // send may have ended by its first block
        let _ = pipe.write_all(&recording);
        drop(pipe);
        let ran = finished(child);
        assert_eq!(ran.status, 141, "{words:?}");
        assert!(!ran.error.contains("delampuk"), "{words:?}: {}", ran.error);
    }
}

#[test]
fn an_input_that_cannot_be_read_is_told() {
    let folder = in_repository("tests");
    let folder_name = folder.to_str().expect("its name is text");
    for words in [&["list"][..], &["hear"], &["send", "14", "80"]] {
        let input = File::open(&folder).expect("a folder can be opened");
        let ran = finished(command(words).stdin(input).spawn().expect("it is built"));
        assert_eq!(ran.status, 1, "{words:?}");
        assert!(ran.error.contains("standard input cannot be read: Is a directory"), "{words:?}: {}", ran.error);
    }
    for words in [&["list"][..], &["hear"], &["send", "65", "80", "--data"], &["send", "80", "--state"]] {
        for (name, reason) in [(folder_name, "Is a directory"), ("/nowhere/at/all", "No such file")] {
            let ran = run(&[words, &[name]].concat(), b"");
            assert_eq!(ran.status, 1, "{words:?} {name}");
            assert!(ran.error.contains(&format!("{name} cannot be read: {reason}")), "{words:?}: {}", ran.error);
        }
    }
    let ran = run(&["send", "80", "--save", folder_name], b"");
    assert_eq!(ran.status, 1);
    assert!(ran.error.contains(&format!("{folder_name} cannot be written: ")), "{}", ran.error);
}

#[test]
fn an_empty_input_has_no_alignment() {
    assert_eq!(run(&["list"], b"").text(), "none 9\n");
    let heard = run(&["hear"], b"");
    assert_eq!((heard.status, heard.out.len()), (1, 0));
    assert!(heard.error.starts_with("none 9\ndelampuk hear: refused 9: "), "{}", heard.error);
}

/// 50 MB by a pipe, in a process that may not take as much memory.
#[test]
fn a_huge_input_needs_little_memory() {
    for subcommand in ["list", "hear"] {
        let mut child = Command::new("sh")
            .args(["-c", "ulimit -v 32768 && exec \"$0\" \"$1\"", env!("CARGO_BIN_EXE_delampuk"), subcommand])
            .stdin(Stdio::piped())
            .stdout(Stdio::piped())
            .stderr(Stdio::piped())
            .spawn()
            .expect("there is a shell");
        let mut pipe = child.stdin.take().expect("its input is a pipe");
        let writer = thread::spawn(move || (0..50).try_for_each(|_| pipe.write_all(&[0; 1_000_000])));
        let ran = finished(child);
        writer.join().expect("no panic").expect("all of it is read");
        assert_eq!(ran.status, 1);
        assert!(ran.error.ends_with("refused 10: no alignment is found\n"), "{}", ran.error);
    }
}

/// A line is there as soon as its block is, while the recording goes on.
#[test]
fn blocks_are_told_as_they_come() {
    let recording = sent(&["80*3"], b"");
    let mut child = command(&["list"]).stdin(Stdio::piped()).spawn().expect("it is built");
    let mut pipe = child.stdin.take().expect("its input is a pipe");
    let lines = BufReader::new(child.stdout.take().expect("its output is a pipe")).lines();
    let (teller, told) = mpsc::channel();
    thread::spawn(move || lines.map_while(Result::ok).try_for_each(|line| teller.send(line)));
    let next = || told.recv_timeout(Duration::from_secs(20)).expect("a line comes in time");
    pipe.write_all(&recording[..200]).expect("it is read");
    assert_eq!([next(), next()], ["found 0", "0 waiting none --"]);
    pipe.write_all(&recording[200..320]).expect("it is read");
    assert_eq!(next(), "1 waiting good --");
    drop(pipe);
    assert_eq!(next(), "left 0");
    assert_eq!(finished(child).status, 0);
}
