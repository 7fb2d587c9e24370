//! Running a program of another implementation on an input.

use std::io::{Read, Write};
use std::process::{Child, Command, Stdio};
use std::thread;
use std::time::{Duration, Instant};

/// How long a program may take on one input.
const PATIENCE: Duration = Duration::from_secs(120);

/// What the program writes for this input, or why it gave nothing whole.
pub fn ask(program: &str, input: &[u8]) -> Result<Vec<u8>, String> {
    let mut child = Command::new(program)
        .stdin(Stdio::piped())
        .stdout(Stdio::piped())
        .stderr(Stdio::null())
        .spawn()
        .map_err(|why| format!("{program} does not start: {why}"))?;
    let mut stdin = child.stdin.take().ok_or("no standard input")?;
    let mut stdout = child.stdout.take().ok_or("no standard output")?;
    let input = input.to_vec();
    // A program that stops reading early is not at fault for that.
    let writer = thread::spawn(move || drop(stdin.write_all(&input)));
    let reader = thread::spawn(move || {
        let mut output = Vec::new();
        stdout.read_to_end(&mut output).map(|_| output)
    });
    let ended = wait(&mut child);
    let output = reader.join().map_err(|_| "reading failed")?.map_err(|why| why.to_string())?;
    writer.join().map_err(|_| "writing failed")?;
    ended.map(|()| output)
}

/// Waits for the program's end; ends it when it takes too long.
fn wait(child: &mut Child) -> Result<(), String> {
    let start = Instant::now();
    let mut pause = Duration::from_micros(200);
    loop {
        match child.try_wait().map_err(|why| why.to_string())? {
            // Document 01 names no exit status: only a crash counts.
            Some(status) if status.code().is_some_and(|code| code < 100) => return Ok(()),
            Some(status) => return Err(format!("ended with {status}")),
            None if start.elapsed() > PATIENCE => {
                drop(child.kill());
                drop(child.wait());
                return Err("took too long".to_string());
            }
            None => thread::sleep(pause),
        }
        pause = (pause * 2).min(Duration::from_millis(20));
    }
}
