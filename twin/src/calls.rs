//! A call with all that its caller brings, what it leads to, and how it is shown.

use std::fmt;

use crate::node::{Node, OK};

#[derive(Clone, Debug, PartialEq)]
pub enum Call {
    Send {
        message: u64,
        value: i64,
    },
    Invalidate {
        message: u64,
    },
    Assemble {
        frame: u64,
        buffer: Vec<u8>,
    },
    Consumed {
        frame: u64,
    },
    ReadFlag {
        message: u64,
        place: u8,
    },
    Deliver {
        frame: u64,
        valid: u8,
        data: Vec<u8>,
    },
    Close,
    Receive {
        message: u64,
        place: i64,
    },
}

/// The names of the calls, in the order of `Call::kind`.
pub const NAMES: [&str; 8] = [
    "send",
    "invalidate",
    "assemble",
    "consumed",
    "read flag",
    "deliver",
    "close",
    "receive",
];

/// The answer, and the caller's buffer or place afterwards.
#[derive(Clone, Debug, Default, PartialEq)]
pub struct Outcome {
    pub answer: u8,
    pub lent: Vec<u8>,
}

impl Call {
    pub fn kind(&self) -> usize {
        match self {
            Call::Send { .. } => 0,
            Call::Invalidate { .. } => 1,
            Call::Assemble { .. } => 2,
            Call::Consumed { .. } => 3,
            Call::ReadFlag { .. } => 4,
            Call::Deliver { .. } => 5,
            Call::Close => 6,
            Call::Receive { .. } => 7,
        }
    }

    pub fn message(&self) -> Option<u64> {
        match *self {
            Call::Send { message, .. }
            | Call::Invalidate { message }
            | Call::ReadFlag { message, .. }
            | Call::Receive { message, .. } => Some(message),
            _ => None,
        }
    }

    pub fn frame(&self) -> Option<u64> {
        match *self {
            Call::Assemble { frame, .. }
            | Call::Consumed { frame }
            | Call::Deliver { frame, .. } => Some(frame),
            _ => None,
        }
    }

    /// What the call writes into, as the caller brings it: the buffer of an assembly, the place of
    /// a flag or a value.
    pub fn lent(&self) -> Vec<u8> {
        match self {
            Call::Assemble { buffer, .. } => buffer.clone(),
            Call::ReadFlag { place, .. } => vec![*place],
            Call::Receive { place, .. } => place.to_le_bytes().to_vec(),
            _ => Vec::new(),
        }
    }

    /// The values that the call puts to filters, with their messages; the node is as it was before.
    pub fn puts(&self, node: &Node, answer: u8) -> Vec<(usize, i64)> {
        match *self {
            Call::Send { message, value } if answer == OK => vec![(message as usize, value)],
            Call::Close => {
                let agreed = |number| Some((number, node.agreed(number).ok()?));
                (0..node.states.len()).filter_map(agreed).collect()
            }
            _ => Vec::new(),
        }
    }

    pub fn play(&self, node: &mut Node) -> Outcome {
        let mut lent = self.lent();
        let answer = match *self {
            Call::Send { message, value } => node.send(message, value),
            Call::Invalidate { message } => node.invalidate(message),
            Call::Assemble { frame, .. } => node.assemble(frame, &mut lent),
            Call::Consumed { frame } => node.consumed(frame),
            Call::ReadFlag { message, .. } => node.read_flag(message, &mut lent[0]),
            Call::Deliver {
                frame,
                valid,
                ref data,
            } => node.deliver(frame, valid != 0, data),
            Call::Close => node.close(),
            Call::Receive { message, mut place } => {
                let answer = node.receive(message, &mut place);
                lent = place.to_le_bytes().to_vec();
                answer
            }
        };
        Outcome { answer, lent }
    }
}

impl fmt::Display for Call {
    fn fmt(&self, f: &mut fmt::Formatter) -> fmt::Result {
        f.write_str(NAMES[self.kind()])?;
        match self {
            Call::Send { message, value } => write!(f, " message {message} value {value}"),
            Call::Invalidate { message }
            | Call::ReadFlag { message, .. }
            | Call::Receive { message, .. } => write!(f, " message {message}"),
            Call::Assemble { frame, buffer } => write!(f, " frame {frame} buffer {}", hex(buffer)),
            Call::Consumed { frame } => write!(f, " frame {frame}"),
            Call::Deliver { frame, valid, data } => {
                write!(f, " frame {frame} status {valid} data {}", hex(data))
            }
            Call::Close => Ok(()),
        }
    }
}

impl fmt::Display for Outcome {
    fn fmt(&self, f: &mut fmt::Formatter) -> fmt::Result {
        write!(f, "answer {}", self.answer)?;
        match self.lent.is_empty() {
            true => Ok(()),
            false => write!(f, ", buffer or place {}", hex(&self.lent)),
        }
    }
}

pub fn hex(bytes: &[u8]) -> String {
    bytes.iter().map(|byte| format!("{byte:02x}")).collect()
}
