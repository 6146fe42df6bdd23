//! Runs the programs under test.

use crate::batch::{self, Asked, Came};
use std::io::{ErrorKind, Write};
use std::process::{Command, Stdio};

/// Runs a program, one word of whose command is its path, on an input; gives what it wrote.
pub fn output_of(command: &[String], input: &[u8]) -> Result<Vec<u8>, String> {
    let said = |what: &str, error: std::io::Error| format!("{}: {what}: {error}", command[0]);
    let mut child = Command::new(&command[0])
        .args(&command[1..])
        .stdin(Stdio::piped())
        .stdout(Stdio::piped())
        .spawn()
        .map_err(|error| said("cannot be run", error))?;
    let mut pipe = child.stdin.take().expect("standard input is piped");
    // fed by a thread of its own, since a program may write more than a pipe holds before it has read its input
    let (fed, output) = std::thread::scope(|scope| {
        let feeder = scope.spawn(move || pipe.write_all(input));
        let output = child.wait_with_output();
        (feeder.join().expect("the feeder ends"), output)
    });
    let output = output.map_err(|error| said("does not end", error))?;
    match fed {
        // the desk takes 8,192 bytes and may leave the rest
        Err(error) if error.kind() != ErrorKind::BrokenPipe => return Err(said("takes no input", error)),
        _ => {}
    }
    if !output.status.success() {
        return Err(format!("{} ended with {}", command[0], output.status));
    }
    Ok(output.stdout)
}

/// What the host makes of some cases, in one process.
pub fn host_on(command: &[String], asked: &[Asked]) -> Result<Vec<Came>, String> {
    let mut input = Vec::new();
    for asked in asked {
        batch::put(&mut input, asked);
    }
    let output = output_of(command, &input)?;
    let mut rest = &output[..];
    let came: Option<Vec<Came>> = asked.iter().map(|asked| batch::take(&mut rest, asked.lent)).collect();
    let came = came.ok_or("the host's output breaks off")?;
    if rest.is_empty() { Ok(came) } else { Err("the host writes more than it was asked for".to_string()) }
}
