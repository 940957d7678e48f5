//! A conversation with the trial program, or with another that replies to each request:
//! requests are written and replies read without waiting for one another.

use std::io::{BufRead, BufReader, BufWriter, Read, Write};
use std::process::{Child, ChildStdin, ChildStdout, Command, Stdio};
use std::sync::mpsc::{channel, Receiver, RecvTimeoutError, Sender};
use std::thread;
use std::time::{Duration, Instant};

/// What is put to the program.
pub trait Sent {
    fn sent(&self) -> Vec<u8>;
}

/// What has to come back.
pub trait Awaited {
    /// Reads the reply and tells in which words it differs; or why it cannot be read.
    fn heard(&self, from: &mut impl Read) -> Result<Vec<String>, String>;
}

enum Heard<T> {
    Answer(T, Vec<String>),
    Fault(String),
}

/// Starts the trial, puts every request to it and calls `answered` for each
/// reply with the differences found. What is wrong with the conversation
/// itself comes back as a list, empty if all went well.
pub fn question<T: Send + 'static, S: Sent, A: Awaited + Send + 'static>(
    command: &[String],
    requests: impl Iterator<Item = (T, S, A)> + Send + 'static,
    patience: Duration,
    answered: impl FnMut(T, Vec<String>),
) -> Vec<String> {
    let mut child = match start(command) {
        Ok(child) => child,
        Err(error) => return vec![format!("it cannot be started: {error}")],
    };
    let (Some(stdin), Some(stdout)) = (child.stdin.take(), child.stdout.take()) else {
        return vec!["its input or output is not open".to_string()];
    };
    let (hear, heard) = channel();
    // Without a bound: a trial that keeps its replies back until its input
    // ends must not stop the writer.
    let (ask, asked) = channel();
    let hear_writer = hear.clone();
    thread::spawn(move || write_all(stdin, requests, ask, hear_writer));
    thread::spawn(move || read_all(stdout, asked, hear));
    let mut faults = listen(heard, patience, answered);
    faults.extend(end(&mut child, patience.min(Duration::from_secs(10))));
    faults
}

pub fn start(command: &[String]) -> std::io::Result<Child> {
    Command::new(&command[0])
        .args(&command[1..])
        .stdin(Stdio::piped())
        .stdout(Stdio::piped())
        .spawn()
}

fn write_all<T, S: Sent, A>(
    stdin: ChildStdin,
    requests: impl Iterator<Item = (T, S, A)>,
    ask: Sender<(T, A)>,
    hear: Sender<Heard<T>>,
) {
    let mut stdin = BufWriter::new(stdin);
    for (about, request, expected) in requests {
        // Asked before it is written, so that the reader knows every request
        // whose reply can come. If it has given up, it has told why.
        if ask.send((about, expected)).is_err() {
            return;
        }
        if let Err(error) = stdin.write_all(&request.sent()) {
            let _ = hear.send(Heard::Fault(format!("a request cannot be written: {error}")));
            return;
        }
    }
    if let Err(error) = stdin.flush() {
        let _ = hear.send(Heard::Fault(format!("the last requests cannot be written: {error}")));
    }
}

/// Output is taken as soon as it comes, and only then is its request looked
/// up: a trial that says too much would otherwise fill its pipe, stop reading,
/// and hold up the writer as well.
fn read_all<T, A: Awaited>(stdout: ChildStdout, asked: Receiver<(T, A)>, hear: Sender<Heard<T>>) {
    let mut stdout = BufReader::new(stdout);
    loop {
        let more = matches!(stdout.fill_buf(), Ok(bytes) if !bytes.is_empty());
        let next = if more { asked.try_recv().ok() } else { asked.recv().ok() };
        let Some((about, expected)) = next else {
            if more {
                let _ = hear.send(Heard::Fault("it sent bytes no request asked for".to_string()));
            }
            return;
        };
        match expected.heard(&mut stdout) {
            Ok(differences) => {
                let _ = hear.send(Heard::Answer(about, differences));
            }
            Err(why) => {
                let _ = hear.send(Heard::Fault(why));
                return;
            }
        }
    }
}

fn listen<T>(
    heard: Receiver<Heard<T>>,
    patience: Duration,
    mut answered: impl FnMut(T, Vec<String>),
) -> Vec<String> {
    let mut faults = Vec::new();
    loop {
        match heard.recv_timeout(patience) {
            Ok(Heard::Answer(about, differences)) => answered(about, differences),
            Ok(Heard::Fault(fault)) => faults.push(fault),
            Err(RecvTimeoutError::Disconnected) => return faults,
            Err(RecvTimeoutError::Timeout) => {
                faults.push(format!("nothing was heard for {} seconds", patience.as_secs()));
                return faults;
            }
        }
    }
}

pub fn end(child: &mut Child, patience: Duration) -> Option<String> {
    let until = Instant::now() + patience;
    loop {
        match child.try_wait() {
            Ok(Some(status)) if status.success() => return None,
            Ok(Some(status)) => return Some(format!("it ended with {status}")),
            Ok(None) if Instant::now() < until => thread::sleep(Duration::from_millis(5)),
            _ => {
                let _ = child.kill();
                let _ = child.wait();
                return Some("it did not end by itself and was stopped".to_string());
            }
        }
    }
}
