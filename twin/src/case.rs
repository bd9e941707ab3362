//! A case to be played on both sides.

use std::ops::Range;

use crate::calls::Call;
use crate::files;
use crate::layout::{read, Layout, Verdict};
use crate::plans;
use crate::player::{NodeStep, Step};
use crate::random::Random;
use crate::scripts::{closings, other_order, script};

/// A layout file, calls on a node of it, and another order of them that has to make no difference;
/// without it the calls are played in one order. A case without calls is about the file alone, which
/// may be refused.
pub struct Case {
    pub file: Vec<u8>,
    /// Bytes to be put into the loaded node, each with its place. A damaged node means nothing, but
    /// calls on it must be safe.
    pub damage: Vec<(u32, u8)>,
    pub calls: Vec<Call>,
    pub order: Vec<usize>,
}

/// The first content of the two nodes, which has to make no difference either. No bit is the same,
/// so that one left as it was is seen.
const FILLS: [u8; 2] = [0x5A, 0xA5];

impl Case {
    pub fn of_file(seed: u64, index: u64) -> Case {
        Case {
            file: files::file(seed, index),
            damage: Vec::new(),
            calls: Vec::new(),
            order: Vec::new(),
        }
    }

    pub fn of_calls(seed: u64, index: u64) -> Case {
        let mut random = Random::new(seed, index);
        let file = plans::valid(&mut random);
        let Verdict::Accepted(layout) = read(&file) else {
            panic!("a valid file is accepted");
        };
        let calls = script(&mut random, &layout);
        let order = other_order(&mut random, &layout, &calls);
        Case {
            file,
            damage: Vec::new(),
            calls,
            order,
        }
    }

    /// Rounds of received floats, in one order.
    pub fn of_closings(seed: u64, index: u64) -> Case {
        let mut random = Random::new(seed, index);
        let file = plans::build(&mut random, plans::FLOATS);
        Case::in_one_order(file, |layout| closings(&mut random, layout))
    }

    /// Calls in one order, none if the file is refused.
    pub fn in_one_order(file: Vec<u8>, calls: impl FnOnce(&Layout) -> Vec<Call>) -> Case {
        let calls = match read(&file) {
            Verdict::Accepted(layout) => calls(&layout),
            Verdict::Refused { .. } => Vec::new(),
        };
        Case {
            file,
            damage: Vec::new(),
            calls,
            order: Vec::new(),
        }
    }

    /// The calls of the same index, on a node of which a few bytes or most are damaged.
    pub fn of_damage(seed: u64, index: u64) -> Case {
        let mut random = Random::new(!seed, index);
        let count = random.pick(&[1, 1, 2, 4, 16, 512]).unwrap_or(1);
        let damage = (0..count).map(|_| {
            let any = random.byte(0, 255);
            let byte = random.pick(&[0, 1, 31, 32, 33, 127, 128, 255, any, any]);
            (random.between(0, 65_535) as u32, byte.unwrap_or(any))
        });
        Case {
            damage: damage.collect(),
            ..Case::of_calls(seed, index)
        }
    }

    /// Calls in two orders are played on two nodes, all else on one.
    pub fn nodes(&self) -> Range<u8> {
        let two = !self.order.is_empty() && self.damage.is_empty();
        0..if two { 2 } else { 1 }
    }

    /// Are there calls, in one order alone?
    pub fn has_one_order(&self) -> bool {
        !self.calls.is_empty() && self.order.is_empty()
    }

    /// The places of the calls in the order in which a node plays them.
    pub fn order(&self, node: u8) -> Vec<usize> {
        match node {
            0 => (0..self.calls.len()).collect(),
            _ => self.order.clone(),
        }
    }

    /// The node's bytes are asked for after loading, before and after each closing, and at the end;
    /// not if there is only one order, and so nothing to compare them with.
    pub fn steps(&self) -> Vec<NodeStep<'_>> {
        let mut steps = Vec::new();
        for node in self.nodes() {
            let fill = Step::Fill(FILLS[usize::from(node)]);
            steps.extend([fill, Step::Load(&self.file), Step::Dump].map(|step| (node, step)));
            for &(place, byte) in &self.damage {
                steps.push((node, Step::Damage(place, byte)));
            }
            for place in self.order(node) {
                match &self.calls[place] {
                    Call::Close => {
                        let close = [Step::Dump, Step::Call(&Call::Close), Step::Dump];
                        steps.extend(close.map(|step| (node, step)));
                    }
                    call => steps.push((node, Step::Call(call))),
                }
            }
            steps.push((node, Step::Dump));
        }
        if self.has_one_order() {
            steps.retain(|(_, step)| !matches!(step, Step::Dump));
        }
        steps
    }

    /// The first so many calls in the order in which a node plays them.
    pub fn told(&self, node: u8, calls: usize) -> String {
        let name = ["first", "second"][usize::from(node)];
        let lines = self.order(node).into_iter().take(calls);
        let lines: String = lines
            .map(|place| format!("  {}\n", self.calls[place]))
            .collect();
        let damage = self.damage.iter();
        let damage: String = damage
            .map(|(place, byte)| format!("  damage byte {place} to {byte:02x}\n"))
            .collect();
        format!(
            "{name} order, node filled with {:02x}:\n  load\n{damage}{lines}",
            FILLS[usize::from(node)]
        )
    }

    /// How many things can be left out: damaged bytes, then calls.
    pub fn parts(&self) -> usize {
        self.damage.len() + self.calls.len()
    }

    /// Without so many parts from one on.
    pub fn without(&self, from: usize, count: usize) -> Case {
        let stays = |part: usize| !(from..from + count).contains(&part);
        let damage = (0..self.damage.len()).filter(|&part| stays(part));
        let damage = damage.map(|part| self.damage[part]);
        let places = 0..self.calls.len();
        let places: Vec<usize> = places
            .filter(|place| stays(self.damage.len() + place))
            .collect();
        let order = self.order.iter();
        let order = order.filter_map(|place| places.iter().position(|stays| stays == place));
        Case {
            file: self.file.clone(),
            damage: damage.collect(),
            calls: places.iter().map(|&p| self.calls[p].clone()).collect(),
            order: order.collect(),
        }
    }
}
