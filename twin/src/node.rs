//! The node: the calls and the closing, sentence by sentence from the paper.

use crate::agreement::agree;
use crate::bits;
use crate::filter::passes;
use crate::float;
use crate::layout::{Field, Frame, Layout, Message, Sign};

pub const OK: u8 = 0;
pub const ID: u8 = 16;
pub const ACCESS: u8 = 17;
pub const VALUE: u8 = 18;
pub const NOFUNC: u8 = 19;
pub const RDA_FAILED: u8 = 20;
pub const NOT_RECEIVED: u8 = 21;
pub const INVALIDATED: u8 = 22;
pub const SUPPRESSED: u8 = 23;

#[derive(Clone, Copy, Debug, PartialEq)]
pub enum Stage {
    Waiting,
    Loaded,
    Gone,
}

#[derive(Clone, Debug, PartialEq)]
pub struct State {
    /// Which is the filter's old value.
    pub held: i64,
    /// Only a sent message is valid or invalid.
    pub valid: bool,
    /// Of a received message, the status of the last closing.
    pub status: u8,
}

#[derive(Clone, Debug, PartialEq)]
pub struct Node<'a> {
    pub layout: &'a Layout,
    /// By message number.
    pub states: Vec<State>,
    /// In the order of the layout's fields.
    pub stages: Vec<Stage>,
    /// The data of each frame that was validly delivered this round.
    pub delivered: Vec<Option<Vec<u8>>>,
}

impl<'a> Node<'a> {
    pub fn start(layout: &'a Layout) -> Node<'a> {
        let state = |(number, message): (usize, &Message)| State {
            held: bits::initial(message),
            valid: message.sent && !has_status_bit(layout, number),
            status: if message.sent { OK } else { NOT_RECEIVED },
        };
        Node {
            layout,
            states: layout.messages.iter().enumerate().map(state).collect(),
            stages: vec![Stage::Gone; layout.fields.len()],
            delivered: vec![None; layout.frames.len()],
        }
    }

    pub fn send(&mut self, message: u64, value: i64) -> u8 {
        let Some((number, message)) = self.message(message) else {
            return ID;
        };
        if !message.sent {
            return ACCESS;
        }
        if !bits::holds(message, value) {
            return VALUE;
        }
        let state = &mut self.states[number];
        if passes(message, value, state.held) {
            state.held = value;
            state.valid = true;
        } else {
            state.valid = false;
        }
        for (field, stage) in self.layout.fields.iter().zip(&mut self.stages) {
            if field.message == number {
                *stage = Stage::Waiting;
            }
        }
        OK
    }

    pub fn invalidate(&mut self, message: u64) -> u8 {
        let Some((number, message)) = self.message(message) else {
            return ID;
        };
        if !message.sent {
            return ACCESS;
        }
        if !has_status_bit(self.layout, number) {
            return NOFUNC;
        }
        self.states[number].valid = false;
        OK
    }

    pub fn assemble(&mut self, frame: u64, data: &mut [u8]) -> u8 {
        let Some((number, frame)) = self.frame(frame) else {
            return ID;
        };
        if !frame.sent {
            return ACCESS;
        }
        if data.len() != frame.length {
            return VALUE;
        }
        let fields: Vec<&Field> = self.layout.fields_of_frame(number).collect();
        let valid = |field: &Field| self.states[field.message].valid;
        if frame.event && !fields.is_empty() && !fields.iter().any(|field| valid(field)) {
            return SUPPRESSED;
        }
        for field in fields {
            bits::pack(self.layout, field, self.states[field.message].held, data);
            if let Some(place) = field.status {
                bits::set_bit(frame, data, place, valid(field));
            }
        }
        self.move_on(number, Stage::Waiting, Stage::Loaded);
        OK
    }

    pub fn consumed(&mut self, frame: u64) -> u8 {
        let Some((number, frame)) = self.frame(frame) else {
            return ID;
        };
        if !frame.sent {
            return ACCESS;
        }
        self.move_on(number, Stage::Loaded, Stage::Gone);
        OK
    }

    /// Set is 1, cleared is 0.
    pub fn read_flag(&self, message: u64, flag: &mut u8) -> u8 {
        let Some((number, message)) = self.message(message) else {
            return ID;
        };
        if !message.sent {
            return ID;
        }
        let mut own = self.layout.fields.iter().zip(&self.stages);
        let set = own.all(|(field, &stage)| field.message != number || stage == Stage::Gone);
        *flag = set.into();
        OK
    }

    pub fn deliver(&mut self, frame: u64, valid: bool, data: &[u8]) -> u8 {
        let Some((number, frame)) = self.frame(frame) else {
            return ID;
        };
        if frame.sent {
            return ACCESS;
        }
        if data.len() != frame.length {
            return VALUE;
        }
        if valid {
            self.delivered[number] = Some(data.to_vec());
        }
        OK
    }

    pub fn close(&mut self) -> u8 {
        for (number, message) in self.layout.messages.iter().enumerate() {
            if message.sent {
                continue;
            }
            let agreed = self.agreed(number);
            let state = &mut self.states[number];
            match agreed {
                Err(status) => state.status = status,
                Ok(value) => {
                    if passes(message, value, state.held) {
                        state.status = OK;
                        state.held = value;
                    } else {
                        state.status = NOT_RECEIVED;
                    }
                }
            }
        }
        self.delivered.fill(None);
        OK
    }

    pub fn receive(&self, message: u64, value: &mut i64) -> u8 {
        let Some((number, message)) = self.message(message) else {
            return ID;
        };
        if message.sent {
            return ACCESS;
        }
        let state = &self.states[number];
        if state.status == OK {
            *value = state.held;
        }
        state.status
    }

    /// What a closing would put to the filter of a received message, or the status if nothing.
    pub fn agreed(&self, message: usize) -> Result<i64, u8> {
        let counting = self.counting(message).ok_or(NOT_RECEIVED)?;
        if counting.is_empty() {
            return Err(INVALIDATED);
        }
        let Message {
            agreement, sign, ..
        } = self.layout.messages[message];
        let left = left(sign, counting);
        if left.is_empty() {
            return Err(RDA_FAILED);
        }
        agree(agreement, sign, &left).ok_or(RDA_FAILED)
    }

    /// The values of a received message's counting instances, in order of their frames; none if no
    /// frame of it was delivered.
    pub fn counting(&self, message: usize) -> Option<Vec<i64>> {
        let mut delivered = false;
        let mut counting = Vec::new();
        // A message's fields stand in order of their frames.
        for field in self.layout.fields_of_message(message) {
            let frame = &self.layout.frames[field.frame];
            if let Some(data) = &self.delivered[field.frame] {
                delivered = true;
                if field
                    .status
                    .is_none_or(|place| bits::bit(frame, data, place))
                {
                    counting.push(bits::unpack(self.layout, field, data));
                }
            }
        }
        delivered.then_some(counting)
    }

    /// The frame's fields that are at one stage go to another; others stay.
    fn move_on(&mut self, frame: usize, from: Stage, to: Stage) {
        for (field, stage) in self.layout.fields.iter().zip(&mut self.stages) {
            if field.frame == frame && *stage == from {
                *stage = to;
            }
        }
    }

    fn message(&self, number: u64) -> Option<(usize, &'a Message)> {
        let number = usize::try_from(number).ok()?;
        Some((number, self.layout.messages.get(number)?))
    }

    fn frame(&self, number: u64) -> Option<(usize, &'a Frame)> {
        let number = usize::try_from(number).ok()?;
        Some((number, self.layout.frames.get(number)?))
    }
}

/// What is left of the counting instances: floats that are not finite are set aside.
pub fn left(sign: Sign, mut counting: Vec<i64>) -> Vec<i64> {
    let stays = |value| sign != Sign::Float || float::is_finite(bits::pattern(value));
    counting.retain(|&value| stays(value));
    counting
}

/// All fields of a message have a status bit, or none has (GROUP).
fn has_status_bit(layout: &Layout, message: usize) -> bool {
    layout
        .fields_of_message(message)
        .any(|field| field.status.is_some())
}
