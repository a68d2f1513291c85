//! The program that makes the calls (caller.c), started once and asked over its standard input and
//! output. The library may be code for another processor than the one this harness runs on.

use super::array::Array;
use std::io::{Error, Read, Write};
use std::process::{Child, ChildStdin, ChildStdout, Command, Stdio};

pub struct Caller {
    command: Vec<String>,
    process: Child,
    requests: ChildStdin,
    replies: ChildStdout,
}

/// A call by its number, and the statement and the turns that are asked, for a call that asks them.
#[derive(Clone, Copy)]
pub struct Request {
    pub call: u32,
    pub asked: (u32, u32),
}

/// The two numbers of an answer, and the bytes of every array after the call.
pub struct Reply {
    pub refusal: u32,
    pub value: u32,
    pub arrays: Vec<Vec<u8>>,
}

impl Caller {
    /// Starts the caller: the command is a program and its words.
    pub fn start(command: &[String]) -> Result<Self, String> {
        let mut process = Command::new(&command[0])
            .args(&command[1..])
            .stdin(Stdio::piped())
            .stdout(Stdio::piped())
            .spawn()
            .map_err(|error| format!("{} does not start: {error}", command[0]))?;
        let requests = process.stdin.take().ok_or("no standard input")?;
        let replies = process.stdout.take().ok_or("no standard output")?;
        Ok(Caller {
            command: command.to_vec(),
            process,
            requests,
            replies,
        })
    }

    /// Makes one call. A call that ends the caller is an error, and the next call finds a new one.
    pub fn call(&mut self, request: Request, arrays: &[Array]) -> Result<Reply, String> {
        self.exchange(request, arrays).or_else(|error| {
            let ended = self.process.wait();
            *self = Caller::start(&self.command)?;
            match ended {
                Ok(status) => Err(format!("the caller ended in the call, {status}")),
                Err(_) => Err(format!("the caller is gone: {error}")),
            }
        })
    }

    fn exchange(&mut self, request: Request, arrays: &[Array]) -> Result<Reply, Error> {
        let Request { call, asked } = request;
        let mut bytes = Vec::new();
        put(&mut bytes, &[call, asked.0, asked.1, arrays.len() as u32]);
        for array in arrays {
            put(&mut bytes, &array.shape());
            bytes.extend(array.bytes());
        }
        self.requests.write_all(&bytes)?;
        let refusal = self.take_number()?;
        let value = self.take_number()?;
        let mut after = Vec::new();
        for array in arrays {
            let mut bytes = array.bytes();
            self.replies.read_exact(&mut bytes)?;
            after.push(bytes);
        }
        Ok(Reply {
            refusal,
            value,
            arrays: after,
        })
    }

    fn take_number(&mut self) -> Result<u32, Error> {
        let mut bytes = [0; 4];
        self.replies.read_exact(&mut bytes)?;
        Ok(u32::from_le_bytes(bytes))
    }
}

fn put(bytes: &mut Vec<u8>, numbers: &[u32]) {
    for number in numbers {
        bytes.extend_from_slice(&number.to_le_bytes());
    }
}
