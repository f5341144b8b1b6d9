//! Runs a program of the port on one job.

use std::io::Read;
use std::io::Write;
use std::process::Command;
use std::process::Stdio;
use std::sync::mpsc;
use std::thread;
use std::time::Duration;

const LONGEST_RUN: Duration = Duration::from_secs(60);

/// What the program writes; a line that begins with `!` says how it failed.
pub fn run(program: &str, job: &[u8]) -> String {
    let started = Command::new(program)
        .stdin(Stdio::piped())
        .stdout(Stdio::piped())
        .stderr(Stdio::null())
        .spawn();
    let mut child = match started {
        Ok(child) => child,
        Err(e) => {
            eprintln!("{program}: {e}");
            std::process::exit(2);
        }
    };
    let mut input = child.stdin.take().expect("a pipe");
    let mut output = child.stdout.take().expect("a pipe");
    let job = job.to_vec();
    let writer = thread::spawn(move || {
        let _ = input.write_all(&job);
    });
    let (done, wait) = mpsc::channel();
    let reader = thread::spawn(move || {
        let mut text = Vec::new();
        let _ = output.read_to_end(&mut text);
        let _ = done.send(());
        text
    });
    let in_time = wait.recv_timeout(LONGEST_RUN).is_ok();
    if !in_time {
        let _ = child.kill();
    }
    let status = child.wait();
    let _ = writer.join();
    let text = String::from_utf8_lossy(&reader.join().unwrap_or_default()).into_owned();
    match status {
        _ if !in_time => format!("{text}!stopped after {} s\n", LONGEST_RUN.as_secs()),
        Ok(s) if s.code().is_some() => text,
        other => format!("{text}!ended by {other:?}\n"),
    }
}
