//! A conversation with the trial program in which each request waits for the reply
//! to the one before, so that a reply can be timed.

use std::io::Write;
use std::process::{Child, ChildStdin, ChildStdout};
use std::time::Duration;

use crate::trial::conversation::{end, start};
use crate::trial::request::{read_reply, Reply};

pub struct Talk {
    child: Child,
    input: ChildStdin,
    output: ChildStdout,
}

impl Talk {
    pub fn open(command: &[String]) -> Result<Talk, String> {
        let mut child = start(command).map_err(|error| format!("it cannot be started: {error}"))?;
        match (child.stdin.take(), child.stdout.take()) {
            (Some(input), Some(output)) => Ok(Talk { child, input, output }),
            _ => Err("its input or output is not open".to_string()),
        }
    }

    /// A request's bytes. It is read whole before the reply is written, so neither
    /// side waits for the other to make room.
    pub fn ask(&mut self, request: &[u8], out_len: usize) -> Result<Reply, String> {
        let written = self.input.write_all(request);
        written.map_err(|error| format!("a request cannot be written: {error}"))?;
        read_reply(&mut self.output, out_len)
    }

    pub fn close(self) -> Result<(), String> {
        let Talk { mut child, input, output } = self;
        drop((input, output));
        end(&mut child, Duration::from_secs(10)).map_or(Ok(()), Err)
    }
}
