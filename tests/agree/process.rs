//! Processes: the time limit of this one, and running others with given input.

use std::io::Write;
use std::process::{Command, Stdio};

extern "C" {
    fn alarm(seconds: u32) -> u32;
}

/// The time that one book or text may take.
pub const MOST_SECONDS: u32 = 150;

/// Lets the system stop this process (signal 14) if it doesn't come back here within the time; 0 takes the limit away.
pub fn allow_seconds(seconds: u32) {
    unsafe { alarm(seconds) };
}

/// Runs a program on the input and answers what it printed and its exit status.
pub fn run(program: &str, arguments: &[&str], input: &[u8]) -> Result<(Vec<u8>, i32), String> {
    let mut child = Command::new(program)
        .args(arguments)
        .stdin(Stdio::piped())
        .stdout(Stdio::piped())
        .stderr(Stdio::piped())
        .spawn()
        .map_err(|error| format!("{program} does not start: {error}"))?;
    let mut stdin = child.stdin.take().expect("the standard input is a pipe");
    // A program that has seen enough may stop reading; what it prints is looked at in any case.
    let _ = stdin.write_all(input);
    drop(stdin);
    let output = child.wait_with_output().map_err(|error| format!("{program}: {error}"))?;
    match output.status.code() {
        Some(status) => Ok((output.stdout, status)),
        None => Err(format!("{program} was stopped: {}", output.status)),
    }
}
