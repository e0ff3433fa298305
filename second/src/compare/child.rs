//! Running another program on a day. A thread of its own feeds the day, so
//! that neither side waits for the other with a full pipe.

use crate::make::rng::Rng;
use std::io::{self, Write};
use std::path::Path;
use std::process::{Child, ChildStdin, Command, Output, Stdio};
use std::thread;
use std::time::{Duration, Instant};

#[derive(Clone, Copy)]
pub enum Pace {
    Whole,
    /// In single bytes or odd sizes drawn from this seed, to catch a program
    /// that takes a piece's end for a cut.
    Trickle(u64),
}

/// A program is a path, or else words such as `second day`.
fn spawned(program: &str, arguments: &[&Path]) -> io::Result<Child> {
    let mut words = program.split_whitespace();
    let mut command = if Path::new(program).is_file() {
        Command::new(program)
    } else {
        let mut command = Command::new(words.next().unwrap_or(""));
        command.args(words);
        command
    };
    command.args(arguments);
    command
        .stdin(Stdio::piped())
        .stdout(Stdio::piped())
        .stderr(Stdio::piped());
    command.spawn()
}

pub fn ask(program: &str, arguments: &[&Path], input: &[u8], pace: Pace) -> io::Result<Output> {
    let mut child = spawned(program, arguments)?;
    let stdin = child.stdin.take();
    thread::scope(|scope| {
        scope.spawn(move || stdin.map(|stdin| feed(stdin, input, pace)));
        child.wait_with_output()
    })
}

/// How long a program may take that needn't read anything.
const PATIENCE: Duration = Duration::from_secs(20);

/// Standard input stays open and empty: a program that waits for it would
/// never end, and is ended here. It prints less than a pipe holds.
pub fn ask_held(program: &str, arguments: &[&Path]) -> io::Result<Output> {
    let mut child = spawned(program, arguments)?;
    let stdin = child.stdin.take();
    let start = Instant::now();
    while child.try_wait()?.is_none() {
        if start.elapsed() > PATIENCE {
            child.kill()?;
            child.wait()?;
            return Err(io::Error::new(
                io::ErrorKind::Other,
                "it waits for standard input",
            ));
        }
        thread::sleep(Duration::from_millis(1));
    }
    drop(stdin);
    child.wait_with_output()
}

/// A program may stop reading once it knows its answer, so a closed pipe is
/// no fault here; its output tells.
fn feed(mut stdin: ChildStdin, input: &[u8], pace: Pace) {
    let _ = match pace {
        Pace::Whole => stdin.write_all(input),
        Pace::Trickle(seed) => trickle(&mut stdin, input, Rng::new(seed, 0x7121)),
    };
}

/// Without a pause the pipe would gather the pieces again.
fn trickle(stdin: &mut ChildStdin, input: &[u8], mut rng: Rng) -> io::Result<()> {
    let most = if rng.one_in(2) {
        1
    } else {
        rng.pick(&[3, 7, 13, 71])
    };
    let most = most.max(input.len() as u64 / 700);
    let mut left = input;
    thread::sleep(Duration::from_millis(3));
    while !left.is_empty() {
        let size = (rng.between(1, most) as usize).min(left.len());
        stdin.write_all(&left[..size])?;
        stdin.flush()?;
        left = &left[size..];
        thread::sleep(Duration::from_micros(20));
    }
    Ok(())
}
