//! The player: a program linked with the library (player.c) that plays the steps it is sent on one
//! of two nodes, and replies to each.

use std::io::{self, BufReader, Read, Write};
use std::process::{Child, ChildStdin, ChildStdout, Command, ExitStatus, Stdio};
use std::thread;

use crate::calls::Call;

pub enum Step<'a> {
    /// All the node's bytes become this one.
    Fill(u8),
    Load(&'a [u8]),
    /// One byte of the node, counted round its end, becomes another.
    Damage(u32, u8),
    Call(&'a Call),
    /// The node's bytes are the reply.
    Dump,
}

/// On which node, and what.
pub type NodeStep<'a> = (u8, Step<'a>);

/// The marks of a reply: what changed in memory during the step.
pub const AROUND: u8 = 1;
pub const NODE: u8 = 2;
pub const DATA: u8 = 4;

#[derive(Debug)]
pub struct Reply {
    pub answer: u32,
    pub marks: u8,
    pub lent: Vec<u8>,
}

pub struct Player {
    child: Child,
    input: ChildStdin,
    output: BufReader<ChildStdout>,
    /// Bytes of a node, which the player says when it starts.
    node: usize,
}

impl Player {
    /// The command is split at spaces.
    pub fn start(command: &str) -> io::Result<Player> {
        let mut words = command.split_whitespace();
        let mut child = Command::new(words.next().unwrap_or_default())
            .args(words)
            .stdin(Stdio::piped())
            .stdout(Stdio::piped())
            .spawn()?;
        let input = child.stdin.take().expect("standard input is a pipe");
        let output = child.stdout.take().expect("standard output is a pipe");
        let mut output = BufReader::new(output);
        let node = word(&mut output)? as usize;
        Ok(Player {
            child,
            input,
            output,
            node,
        })
    }

    pub fn play(&mut self, steps: &[NodeStep]) -> io::Result<Vec<Reply>> {
        let mut bytes = Vec::new();
        for step in steps {
            put_step(&mut bytes, step);
        }
        bytes.push(b'E');
        let (input, output, node) = (&mut self.input, &mut self.output, self.node);
        thread::scope(|scope| {
            // A thread writes while this one reads, so that neither program waits for the other.
            let writing = scope.spawn(move || input.write_all(&bytes));
            let replies = steps
                .iter()
                .map(|(_, step)| reply(output, lent_length(step, node)))
                .collect();
            writing.join().expect("writing does not panic")?;
            replies
        })
    }

    /// Lets the player end by itself.
    pub fn end(self) -> io::Result<ExitStatus> {
        let Player {
            mut child, input, ..
        } = self;
        drop(input);
        child.wait()
    }
}

/// A letter, the node, and what the step brings; numbers little-endian, a length before bytes.
fn put_step(bytes: &mut Vec<u8>, (node, step): &NodeStep) {
    let letter = match step {
        Step::Fill(_) => b'Z',
        Step::Load(_) => b'L',
        Step::Damage(..) => b'P',
        Step::Call(call) => b"SIACFDXR"[call.kind()],
        Step::Dump => b'N',
    };
    bytes.extend([letter, *node]);
    match step {
        Step::Fill(byte) => bytes.push(*byte),
        Step::Load(file) => put_bytes(bytes, file),
        Step::Damage(place, byte) => {
            bytes.extend(place.to_le_bytes());
            bytes.push(*byte);
        }
        Step::Call(call) => put_call(bytes, call),
        Step::Dump => (),
    }
}

fn put_call(bytes: &mut Vec<u8>, call: &Call) {
    if let Some(number) = call.message().or(call.frame()) {
        bytes.extend(number.to_le_bytes());
    }
    match call {
        Call::Send { value, .. } => bytes.extend(value.to_le_bytes()),
        Call::Assemble { buffer, .. } => put_bytes(bytes, buffer),
        Call::ReadFlag { place, .. } => bytes.push(*place),
        Call::Deliver { valid, data, .. } => {
            bytes.push(*valid);
            put_bytes(bytes, data);
        }
        Call::Receive { place, .. } => bytes.extend(place.to_le_bytes()),
        Call::Invalidate { .. } | Call::Consumed { .. } | Call::Close => (),
    }
}

fn put_bytes(bytes: &mut Vec<u8>, data: &[u8]) {
    bytes.extend((data.len() as u32).to_le_bytes());
    bytes.extend(data);
}

/// How many bytes of the caller's memory, or of the node, the reply holds.
fn lent_length(step: &Step, node: usize) -> usize {
    match step {
        Step::Call(call) => call.lent().len(),
        Step::Dump => node,
        Step::Fill(_) | Step::Load(_) | Step::Damage(..) => 0,
    }
}

fn reply(output: &mut impl Read, lent: usize) -> io::Result<Reply> {
    let answer = word(output)?;
    let mut bytes = vec![0; 1 + lent];
    output.read_exact(&mut bytes)?;
    let lent = bytes.split_off(1);
    let marks = bytes[0];
    Ok(Reply {
        answer,
        marks,
        lent,
    })
}

fn word(output: &mut impl Read) -> io::Result<u32> {
    let mut bytes = [0; 4];
    output.read_exact(&mut bytes)?;
    Ok(u32::from_le_bytes(bytes))
}
