//! The process that calls the library. The form of requests and answers is told in `c/serve.c`.

use std::io::{self, BufReader, Read, Write};
use std::path::Path;
use std::process::{Child, ChildStdin, ChildStdout, Command, Stdio};

use crate::calls::Call;
use crate::library::Library;

/// A running server.
pub struct Server {
    child: Child,
    to: Option<ChildStdin>,
    from: BufReader<ChildStdout>,
}

impl Library for Server {
    const TEST: &'static str = "server";
    const CASES: u64 = 30_000;

    /// Starts `tools/serve`, or the script or program that `DELAMPUK_SERVE` names.
    ///
    /// Without a server there is nothing to compare with, and a test that cannot compare has failed.
    fn start() -> Server {
        let root = Path::new(env!("CARGO_MANIFEST_DIR")).join("../..");
        let mut command = match std::env::var_os("DELAMPUK_SERVE") {
            Some(program) => Command::new(program),
            None => {
                let mut shell = Command::new("sh");
                shell.arg("tools/serve");
                shell
            }
        };
        command.current_dir(root).stdin(Stdio::piped()).stdout(Stdio::piped());
        let mut child = command.spawn().expect("the server starts");
        let to = child.stdin.take();
        let from = BufReader::new(child.stdout.take().expect("the server's output is a pipe"));
        Server { child, to, from }
    }

    fn call<C: Call>(&mut self, call: &C) -> C::Left {
        self.exchange(call).unwrap_or_else(|error| {
            panic!("the server does not answer ({error}); `sh tools/serve build` builds it\n{call:?}")
        })
    }
}

impl Server {
    fn exchange<C: Call>(&mut self, call: &C) -> io::Result<C::Left> {
        let mut request = Request::default();
        call.request(&mut request);
        let to = self.to.as_mut().expect("the server's input is open until it is dropped");
        to.write_all(&request.octets)?;
        call.left(&mut Answer { from: &mut self.from })
    }
}

impl Drop for Server {
    fn drop(&mut self) {
        // The end of its input ends the server.
        self.to = None;
        let _ = self.child.wait();
    }
}

/// A request as it is put together.
#[derive(Default)]
pub struct Request {
    octets: Vec<u8>,
}

impl Request {
    /// Adds octets.
    pub fn octets(&mut self, octets: &[u8]) -> &mut Request {
        self.octets.extend(octets);
        self
    }

    /// Adds a number of eight octets.
    pub fn number(&mut self, number: usize) -> &mut Request {
        self.octets(&number.to_le_bytes())
    }

    /// Adds the lengths of all buffers, then their octets.
    pub fn buffers(&mut self, buffers: &[&[u8]]) -> &mut Request {
        for buffer in buffers {
            let length = u32::try_from(buffer.len()).expect("no buffer of a case has 4 GB");
            self.octets(&length.to_le_bytes());
        }
        for buffer in buffers {
            self.octets(buffer);
        }
        self
    }
}

/// An answer as it comes in.
pub struct Answer<'a> {
    from: &'a mut BufReader<ChildStdout>,
}

impl Answer<'_> {
    /// The next octets, as many as are asked for.
    pub fn array<const N: usize>(&mut self) -> io::Result<[u8; N]> {
        let mut octets = [0; N];
        self.from.read_exact(&mut octets)?;
        Ok(octets)
    }

    /// The next octet.
    pub fn octet(&mut self) -> io::Result<u8> {
        self.array().map(|[octet]| octet)
    }

    /// The next number of eight octets.
    pub fn number(&mut self) -> io::Result<usize> {
        self.array().map(usize::from_le_bytes)
    }

    /// A buffer of so many octets.
    pub fn buffer(&mut self, length: usize) -> io::Result<Vec<u8>> {
        let mut octets = vec![0; length];
        self.from.read_exact(&mut octets)?;
        Ok(octets)
    }
}
