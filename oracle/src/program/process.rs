//! One run of a program on one input.

use std::io::{ErrorKind, Read, Write};
use std::os::fd::OwnedFd;
use std::os::unix::net::UnixStream;
use std::process::{Child, Command};
use std::thread::sleep;
use std::time::{Duration, Instant};

use super::cases::Run;
use super::Program;

pub struct Ran {
    /// What came on standard output and standard error.
    pub said: Vec<u8>,
    /// That it ended with status 0, by no signal and in time; or how it did not.
    pub ended: Result<(), String>,
    pub took: Duration,
}

/// More than the longest answer; nothing is read past it.
const ENOUGH: usize = 4_096;

/// Between the parts of an input that comes in parts: long enough for the program to be waiting for the next.
const PAUSE: Duration = Duration::from_millis(2);

pub fn run(program: &Program, run: &Run) -> Ran {
    let Program { words, limit } = *program;
    let (mut near, far) = UnixStream::pair().expect("a pair of sockets");
    let (mut heard, spoken) = UnixStream::pair().expect("a pair of sockets");
    if run.input.failed {
        // What the near end leaves unread when it is closed makes the far end's read fail, once all bytes were read.
        (&far).write_all(&[0]).expect("room for a byte");
    }
    let (at_once, later) = run.input.bytes.split_at(run.at_once);
    near.set_write_timeout(Some(limit)).expect("a time limit");
    near.write_all(at_once).expect("room for a job");
    let began = Instant::now();
    let mut child = Command::new(words[0])
        .args(&words[1..])
        .stdin(OwnedFd::from(far))
        .stdout(OwnedFd::from(spoken.try_clone().expect("a second handle")))
        .stderr(OwnedFd::from(spoken))
        .spawn()
        .expect("the program is there");
    for part in later.chunks(later.len().div_ceil(3).max(1)) {
        sleep(PAUSE);
        // A program that reads no further has closed its end.
        let _ = near.write_all(part);
    }
    drop(near);
    let said = listen(&mut heard, began + limit);
    let ended = end_of(&mut child, began + limit);
    Ran {
        said,
        ended,
        took: began.elapsed(),
    }
}

/// What is said until the other end is closed or the time is over.
fn listen(heard: &mut UnixStream, until: Instant) -> Vec<u8> {
    let mut said = vec![0; ENOUGH];
    let mut count = 0;
    loop {
        let left = until.saturating_duration_since(Instant::now());
        heard
            .set_read_timeout(Some(left.max(Duration::from_millis(1))))
            .expect("a time limit");
        match heard.read(&mut said[count..]) {
            Ok(0) => break,
            Ok(more) => count += more,
            Err(error) if error.kind() == ErrorKind::Interrupted => (),
            Err(_) => break,
        }
    }
    said.truncate(count);
    said
}

/// A program that does not end in time is killed.
fn end_of(child: &mut Child, until: Instant) -> Result<(), String> {
    loop {
        match child.try_wait().expect("a child") {
            Some(status) if status.success() => return Ok(()),
            Some(status) => return Err(status.to_string()),
            None if Instant::now() >= until => break,
            None => sleep(Duration::from_micros(20)),
        }
    }
    child.kill().expect("a child");
    child.wait().expect("a child");
    Err("not ended in time".to_string())
}
