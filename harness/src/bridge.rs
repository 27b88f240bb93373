//! The calls of the library, made by another program over its pipes.
//!
//! For a host that cannot link the archive. `SGDMA_BRIDGE` is the command that
//! starts the program of `bridge/bridge.c`, which also says what a frame is.
//! Lent slices travel with their canaries and come back with them, so that what
//! the library did beside a slice over there is seen here.

use crate::call::{Argument, Call, Lent, CANARY};
use crate::library::Library;
use std::cell::RefCell;
use std::env;
use std::io::{self, BufReader, Read, Write};
use std::process::{Child, ChildStdout, Command, Stdio};

/// The most that any one call takes, which gives each frame the same head.
const SLICES: usize = 6;
const NUMBERS: usize = 7;

thread_local! {
    /// One program for each thread, so that tests do not wait for one another.
    static BRIDGE: RefCell<Bridge> = RefCell::new(Bridge::start());
}

pub(crate) fn answer(library: Library, call: &mut Call) -> u32 {
    let asked = BRIDGE.with_borrow_mut(|bridge| bridge.ask(library, call));
    asked.unwrap_or_else(|error| panic!("the bridge broke down ({error}) on\n{call}"))
}

struct Bridge {
    program: Child,
    answers: BufReader<ChildStdout>,
}

impl Bridge {
    fn start() -> Bridge {
        let line = env::var("SGDMA_BRIDGE").expect("SGDMA_BRIDGE says how to start the bridge");
        let mut words = line.split_whitespace();
        let mut program = Command::new(words.next().expect("SGDMA_BRIDGE names a program"))
            .args(words)
            .stdin(Stdio::piped())
            .stdout(Stdio::piped())
            .spawn()
            .unwrap_or_else(|error| panic!("cannot start {line}: {error}"));
        let answers = BufReader::new(program.stdout.take().expect("stdout is a pipe"));
        Bridge { program, answers }
    }

    fn ask(&mut self, library: Library, call: &mut Call) -> io::Result<u32> {
        let requests = self.program.stdin.as_mut().expect("stdin is a pipe");
        requests.write_all(&frame(library, call))?;
        let mut returned = [0; 4];
        self.answers.read_exact(&mut returned)?;
        for slice in lent(call) {
            self.answers.read_exact(slice.guarded_mut())?;
        }
        Ok(u32::from_le_bytes(returned))
    }
}

impl Drop for Bridge {
    /// Waiting closes the program's stdin first, at which it ends.
    fn drop(&mut self) {
        // A program that broke down has been reported by the call it failed.
        let _ = self.program.wait();
    }
}

fn lent(call: &mut Call) -> impl Iterator<Item = &mut Lent> {
    let arguments = call.arguments().into_iter();
    arguments.filter_map(|argument| match argument {
        Argument::Lent(_, lent) => Some(lent),
        _ => None,
    })
}

fn frame(library: Library, call: &mut Call) -> Vec<u8> {
    let function = call.function() as u64;
    let numbers: Vec<u64> = call
        .arguments()
        .iter()
        .filter_map(Argument::number)
        .collect();
    let slices: Vec<&mut Lent> = lent(call).collect();
    let shapes = slices.iter().flat_map(|slice| {
        let null = library.lends_null_for(slice);
        [slice.len() as u64, u64::from(null)]
    });
    let head = [function, CANARY.len() as u64, slices.len() as u64];
    let fields = head
        .into_iter()
        .chain(padded(numbers.iter().copied(), NUMBERS))
        .chain(padded(shapes, 2 * SLICES));
    let mut frame: Vec<u8> = fields.flat_map(u64::to_le_bytes).collect();
    for slice in slices {
        frame.extend_from_slice(slice.guarded_mut());
    }
    frame
}

fn padded(given: impl Iterator<Item = u64>, length: usize) -> impl Iterator<Item = u64> {
    given.chain(std::iter::repeat(0)).take(length)
}
