//! The proved program ca_answers, which is asked through pipes.

use std::io::{BufRead, BufReader, Write};
use std::process::{ChildStdin, ChildStdout, Command, Stdio};
use std::thread;

/// The program, running.
pub struct Answers {
    input: ChildStdin,
    output: BufReader<ChildStdout>,
}

impl Answers {
    /// Starts the program whose path stands in the variable `ANSWERS`. It ends when this is dropped, at the end of its input.
    pub fn start() -> Answers {
        let path = std::env::var_os("ANSWERS").expect("ANSWERS names the program ca_answers");
        let mut child = Command::new(path).stdin(Stdio::piped()).stdout(Stdio::piped()).spawn().expect("ca_answers starts");
        let (input, output) = (child.stdin.take().expect("its input"), child.stdout.take().expect("its output"));
        Answers { input, output: BufReader::with_capacity(1 << 16, output) }
    }

    /// The answers to some calls, in order. They are written while answers are read, so that neither side waits for good.
    pub fn ask(&mut self, calls: &[String]) -> Vec<Vec<u8>> {
        assert!(calls.iter().all(|call| !call.contains('\n') && !call.contains(" => ")), "a call is one line without an answer");
        let lines = calls.iter().flat_map(|call| [call.as_bytes(), b"\n"].concat()).collect::<Vec<u8>>();
        let (input, output) = (&mut self.input, &mut self.output);
        thread::scope(|scope| {
            scope.spawn(move || input.write_all(&lines).expect("ca_answers takes calls"));
            calls.iter().map(|_| line(output)).collect()
        })
    }
}

fn line(output: &mut BufReader<ChildStdout>) -> Vec<u8> {
    let mut line = Vec::new();
    output.read_until(b'\n', &mut line).expect("ca_answers writes answers");
    assert_eq!(line.pop(), Some(b'\n'), "ca_answers answers each call");
    line
}

#[allow(dead_code)] // some of the programs only read bytes
pub fn hex(bytes: &[u8]) -> String {
    let digit = |half: u8| char::from(b"0123456789abcdef"[usize::from(half)]);
    bytes.iter().flat_map(|byte| [digit(byte >> 4), digit(byte & 15)]).collect()
}

#[allow(dead_code)] // and some only write them
pub fn bytes_of(hex: &str) -> Vec<u8> {
    (0..hex.len()).step_by(2).map(|at| u8::from_str_radix(&hex[at..at + 2], 16).expect("hexadecimal")).collect()
}
