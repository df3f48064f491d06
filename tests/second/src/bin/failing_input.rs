//! Runs a program with a standard input that hands out a file's bytes and then fails, where a pipe would end: failing_input FILE PROGRAM.

use std::env;
use std::fs;
use std::io::{Result, Write};
use std::os::fd::OwnedFd;
use std::os::unix::net::UnixStream;
use std::process::{exit, Command};
use std::time::Duration;

fn main() {
    let arguments: Vec<String> = env::args().skip(1).collect();
    let [file, program] = arguments.as_slice() else {
        eprintln!("usage: failing_input FILE PROGRAM");
        exit(2);
    };
    if let Err(error) = run(file, program) {
        eprintln!("failing_input {file} {program}: {error}");
        exit(125);
    }
}

/// A socket whose other end was closed with a byte unread gives what it holds, and then an error. The file must fit into it.
fn run(file: &str, program: &str) -> Result<()> {
    let (mut ours, mut theirs) = UnixStream::pair()?;
    theirs.write_all(&[0])?;
    ours.set_write_timeout(Some(Duration::from_secs(5)))?;
    ours.write_all(&fs::read(file)?)?;
    drop(ours);
    let status = Command::new(program).stdin(OwnedFd::from(theirs)).status()?;
    exit(status.code().unwrap_or(126))
}
