//! Runs a program on a text that arrives in pieces, each of which the program has read before the next is written; and on
//! inputs and outputs that fail.

use crate::outcome::Ran;
use std::fs::File;
use std::io::{pipe, PipeWriter, Read, Write};
use std::os::fd::AsRawFd;
use std::process::{Child, Command, Stdio};
use std::time::{Duration, Instant};

extern "C" {
    fn ioctl(fd: i32, request: u64, count: *mut i32) -> i32;
    fn fcntl(fd: i32, command: i32, flags: i32) -> i32;
}

// Linux: how many bytes wait in a pipe; the flags of a descriptor
const FIONREAD: u64 = 0x541B;
const F_SETFL: i32 = 4;
const O_NONBLOCK: i32 = 0o4000;

/// Between two pieces: wait until the program has read the first, or write on at once.
#[derive(Clone, Copy, PartialEq)]
pub enum Between {
    Read,
    Nothing,
}

/// What the program printed on a file, read in one go.
pub fn on_file(program: &str, path: &str) -> std::io::Result<Ran> {
    let child = Command::new(program).stdin(File::open(path)?).stdout(Stdio::piped()).stderr(Stdio::piped()).spawn()?;
    finished(child)
}

/// What it printed on the same bytes from a pipe, in these pieces.
pub fn on_pieces<'a>(program: &str, pieces: impl Iterator<Item = &'a [u8]>, between: Between) -> std::io::Result<Ran> {
    let (reader, mut writer) = pipe()?;
    let mut child = Command::new(program).stdin(reader).stdout(Stdio::piped()).stderr(Stdio::piped()).spawn()?;
    for piece in pieces {
        // a program may end before it has read all, past 65,536 bytes: a broken pipe is no fault
        if writer.write_all(piece).is_err() {
            break;
        }
        if between == Between::Read {
            drained(&writer, &mut child)?;
        }
    }
    drop(writer);
    finished(child)
}

/// Waits until no byte is left in the pipe, or the program has ended.
fn drained(writer: &PipeWriter, child: &mut Child) -> std::io::Result<()> {
    let start = Instant::now();
    loop {
        let mut left: i32 = 0;
        if unsafe { ioctl(writer.as_raw_fd(), FIONREAD, &mut left) } < 0 {
            return Err(std::io::Error::last_os_error());
        }
        if left == 0 || child.try_wait()?.is_some() {
            return Ok(());
        }
        if start.elapsed() > Duration::from_secs(10) {
            return Err(std::io::Error::other("the program does not read"));
        }
        std::thread::yield_now();
    }
}

/// What it printed where the read after these bytes fails: the pipe has no more, has not ended, and does not wait.
pub fn on_failing_read(program: &str, text: &[u8]) -> std::io::Result<Ran> {
    let (reader, mut writer) = pipe()?;
    writer.write_all(text)?;
    if unsafe { fcntl(reader.as_raw_fd(), F_SETFL, O_NONBLOCK) } < 0 {
        return Err(std::io::Error::last_os_error());
    }
    let child = Command::new(program).stdin(reader).stdout(Stdio::piped()).stderr(Stdio::piped()).spawn()?;
    let ran = finished(child);
    drop(writer);
    ran
}

/// What it printed under a shell's redirections, as `<&-`.
pub fn in_shell(program: &str, line: &str) -> std::io::Result<Ran> {
    let mut command = Command::new("/bin/sh");
    command.args(["-c", &format!("exec \"$0\" {line}"), program]);
    finished(command.stdin(Stdio::null()).stdout(Stdio::piped()).stderr(Stdio::piped()).spawn()?)
}

/// What it did where nobody reads its output any more; with the signal ignored the write fails instead.
pub fn on_closed_pipe(program: &str, text: &[u8], ignored: bool) -> std::io::Result<Ran> {
    let trap = if ignored { "trap '' PIPE; " } else { "" };
    let mut command = Command::new("/bin/sh");
    command.args(["-c", &format!("{trap}exec \"$0\""), program]);
    let mut child = command.stdin(Stdio::piped()).stdout(Stdio::piped()).stderr(Stdio::piped()).spawn()?;
    drop(child.stdout.take());
    child.stdin.take().expect("piped").write_all(text)?;
    finished(child)
}

fn finished(mut child: Child) -> std::io::Result<Ran> {
    let mut output = Vec::new();
    let mut errors = Vec::new();
    if let Some(mut stdout) = child.stdout.take() {
        stdout.read_to_end(&mut output)?;
    }
    child.stderr.take().expect("piped").read_to_end(&mut errors)?;
    Ok(Ran { output, errors, status: child.wait()?.code() })
}
