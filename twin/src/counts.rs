//! How often each thing was compared, so that a generator that misses something is noticed.

use std::{fmt, mem};

use crate::bits;
use crate::calls::{Call, NAMES};
use crate::float_counts::FloatCounts;
use crate::layout::{
    faults, Fault, Layout, Message, Sign, Verdict, FIELD, FRAME, MESSAGE, RECORD, REFUSALS, UNUSED,
    WIDTH,
};
use crate::node::{Node, ACCESS, ID, OK};
use crate::old_counts::{Past, Put};
use crate::whole_counts::WholeCounts;
use crate::wrong::{Place, Row, FLOAT, PLACES};

/// The answers that each call can give, in the order of `Call::kind`.
const ANSWERS: [&[usize]; 8] = [
    &[0, 16, 17, 18],
    &[0, 16, 17, 19],
    &[0, 16, 17, 18, 23],
    &[0, 16, 17],
    &[0, 16],
    &[0, 16, 17, 18],
    &[0],
    &[0, 16, 17, 20, 21, 22],
];

#[derive(Clone, Default)]
pub struct Counts {
    /// Files by verdict: accepted at 0, else at the refusal's number.
    files: [u64; 1 + REFUSALS],
    /// Files refused at a byte, by kind of record, refusal and byte.
    places: [[[u64; RECORD]; 1 + REFUSALS]; 5],
    /// Of these, files whose refused record has faults of two refusals or more, and files with both
    /// UNUSED and WIDTH at that byte, and of these floats.
    mixed: u64,
    unused_and_width: u64,
    unused_and_not_finite: u64,
    layouts: u64,
    calls: u64,
    calls_on_damaged: u64,
    /// By call and answer.
    answers: [[u64; 24]; 8],
    /// Fields of whole numbers packed or delivered, by order, sign and width less one.
    fields: [[[u64; 32]; 2]; 2],
    /// Status bits that closings read or assemblies wrote, by order and direction: 0, and 1.
    statuses: [[[u64; 2]; 2]; 2],
    pub whole: WholeCounts,
    pub floats: FloatCounts,
    /// Of each message of the node that is played.
    pasts: Vec<Past>,
}

impl Counts {
    pub fn file(&mut self, file: &[u8], verdict: &Verdict) {
        match *verdict {
            Verdict::Accepted(_) => self.files[0] += 1,
            Verdict::Refused {
                number,
                record,
                byte,
            } => {
                self.files[usize::from(number)] += 1;
                if let Some(byte) = byte {
                    let record = &file[record * RECORD..][..RECORD];
                    self.refused_at(record, number, byte);
                }
            }
        }
    }

    fn refused_at(&mut self, record: &[u8], number: u8, byte: u8) {
        let Place { kind, .. } = Place::of(record, Fault { byte, number });
        let [place, refusal, at] = [kind, number, byte].map(usize::from);
        self.places[place][refusal][at] += 1;
        let faults = faults(record);
        let fails = |number| faults.contains(&Fault { byte, number });
        self.mixed += u64::from(faults.iter().any(|fault| fault.number != number));
        let both = fails(UNUSED) && fails(WIDTH);
        self.unused_and_width += u64::from(both);
        self.unused_and_not_finite += u64::from(both && kind == FLOAT);
    }

    /// The calls that follow are on a node of this layout, from its start on.
    pub fn layout(&mut self, layout: &Layout) {
        self.layouts += 1;
        self.pasts = layout.messages.iter().map(Past::start).collect();
    }

    /// A call on a node as it was before, and its answer.
    pub fn call(&mut self, node: &Node, call: &Call, answer: u8) {
        self.calls += 1;
        self.answers[call.kind()][usize::from(answer)] += 1;
        if let Call::Send { message, value } = *call {
            let is_float = |number: u64| node.layout.messages[number as usize].sign == Sign::Float;
            if answer != ID && answer != ACCESS && is_float(message) {
                self.floats.send(value);
            }
        }
        self.look(node, call, answer);
        for (message, value) in call.puts(node, answer) {
            self.filter(node, message, value);
        }
        match call {
            _ if answer != OK => (),
            Call::Assemble { frame, .. } => {
                self.fields_of(node, *frame as usize);
                self.statuses_of(node, *frame as usize);
            }
            Call::Deliver { frame, .. } => self.fields_of(node, *frame as usize),
            Call::Close => {
                for number in 0..node.states.len() {
                    self.closing(node, number);
                }
                let frames = node.layout.frames.iter().enumerate();
                for (number, _) in frames.filter(|(_, frame)| !frame.sent) {
                    self.statuses_of(node, number);
                }
            }
            _ => (),
        }
    }

    pub fn call_on_damaged(&mut self) {
        self.calls_on_damaged += 1;
    }

    pub fn add(&mut self, mut other: Counts) {
        for (count, more) in self.all().zip(other.all()) {
            *count += *more;
        }
    }

    fn all(&mut self) -> impl Iterator<Item = &mut u64> {
        let single = [
            &mut self.mixed,
            &mut self.unused_and_width,
            &mut self.unused_and_not_finite,
            &mut self.layouts,
            &mut self.calls,
            &mut self.calls_on_damaged,
        ];
        let places = self.places.iter_mut().flatten().flatten();
        let answers = self.answers.iter_mut().flatten();
        let fields = self.fields.iter_mut().flatten().flatten();
        let statuses = self.statuses.iter_mut().flatten().flatten();
        let all = self.files.iter_mut().chain(places).chain(single);
        let all = all.chain(answers).chain(fields).chain(statuses);
        all.chain(self.whole.all()).chain(self.floats.all())
    }

    fn closing(&mut self, node: &Node, number: usize) {
        let message = &node.layout.messages[number];
        let counting = node.counting(number).unwrap_or_default();
        let agrees = || node.agreed(number).is_ok();
        match (message.sign, counting.is_empty()) {
            (_, true) => (),
            (Sign::Float, _) => self.floats.closing(message, &counting, agrees()),
            _ => self.whole.closing(message, &counting),
        }
    }

    fn filter(&mut self, node: &Node, number: usize, new: i64) {
        let put = Put {
            message: &node.layout.messages[number],
            new,
            held: node.states[number].held,
            last: self.pasts[number].last,
        };
        self.pasts[number] = Past::of(&put);
        match put.message.sign {
            Sign::Float => self.floats.filter(&put),
            _ => self.whole.filter(&put),
        }
    }

    /// Does the call show the last verdict of a message's filter, or hide it?
    fn look(&mut self, node: &Node, call: &Call, answer: u8) {
        match *call {
            Call::Receive { message, .. } if answer != ID && answer != ACCESS => {
                self.show(&node.layout.messages[message as usize], message as usize);
            }
            // Each received message has a status anew, even if nothing is put to its filter.
            Call::Close => {
                for (message, past) in node.layout.messages.iter().zip(&mut self.pasts) {
                    past.tells = past.tells.map(|tells| tells && message.sent);
                }
            }
            _ if answer != OK => (),
            Call::Assemble { frame, .. } => {
                for field in node.layout.fields_of_frame(frame as usize) {
                    if self.pasts[field.message].is_other || field.status.is_some() {
                        self.show(&node.layout.messages[field.message], field.message);
                    }
                }
            }
            // Invalid whatever the verdict was.
            Call::Invalidate { message } => {
                let past = &mut self.pasts[message as usize];
                past.tells = past.tells.map(|tells| tells && past.is_other);
            }
            _ => (),
        }
    }

    fn show(&mut self, message: &Message, number: usize) {
        let tells = mem::take(&mut self.pasts[number].tells);
        match message.sign {
            Sign::Float => self.floats.old.shown(message, tells),
            _ => self.whole.old.shown(message, tells),
        }
    }

    fn fields_of(&mut self, node: &Node, number: usize) {
        let big = node.layout.frames[number].big;
        for field in node.layout.fields_of_frame(number) {
            let message = &node.layout.messages[field.message];
            match message.sign {
                Sign::Float => self.floats.field(big),
                sign => {
                    let signed = usize::from(sign == Sign::Signed);
                    self.fields[usize::from(big)][signed][message.width - 1] += 1;
                }
            }
        }
    }

    /// The status bits of a sent frame, or of a received one that was delivered.
    fn statuses_of(&mut self, node: &Node, number: usize) {
        let frame = &node.layout.frames[number];
        for field in node.layout.fields_of_frame(number) {
            let is_set = |place| match &node.delivered[number] {
                Some(data) => Some(bits::bit(frame, data, place)),
                None => frame.sent.then_some(node.states[field.message].valid),
            };
            if let Some(is_set) = field.status.and_then(is_set) {
                let [big, sent, is_set] = [frame.big, frame.sent, is_set].map(usize::from);
                self.statuses[big][sent][is_set] += 1;
            }
        }
    }

    pub fn calls(&self) -> u64 {
        self.calls
    }

    pub fn files(&self) -> u64 {
        self.files.iter().sum()
    }

    /// The least count of what can occur in files, and in calls.
    pub fn least(&self) -> (u64, u64) {
        let files = self.files.iter().copied();
        let files = files.chain([self.mixed, self.unused_and_width]);
        let answers = (0..8).flat_map(|kind| ANSWERS[kind].iter().map(move |&a| (kind, a)));
        let answers = answers.map(|(kind, answer)| self.answers[kind][answer]);
        let fields = [self.least_field(), self.least_status()];
        let numbers = [
            self.whole.least(),
            self.floats.least(),
            self.floats.least_send(),
        ];
        let calls = answers.chain(fields).chain(numbers);
        (files.min().unwrap_or(0), calls.min().unwrap_or(0))
    }

    /// The least count of verdicts of a direction, received or sent, that told the held value from
    /// another and were shown.
    pub fn least_old(&self, direction: usize) -> u64 {
        let whole = self.whole.old.least(direction, false);
        whole.min(self.floats.old.least(direction, true))
    }

    /// The least count of files refused at one byte, where that can be.
    pub fn least_place(&self) -> u64 {
        let rows = PLACES.iter().map(|row| self.least_in(row));
        let all = rows.chain([self.unused_and_not_finite]);
        all.min().unwrap_or(0)
    }

    fn least_in(&self, &(kind, number, bytes): &Row) -> u64 {
        let by_byte = self.places[usize::from(kind)][usize::from(number)];
        let counts = bytes.iter().map(|&byte| by_byte[usize::from(byte)]);
        counts.min().unwrap_or(0)
    }

    fn least_field(&self) -> u64 {
        let all = self.fields.iter().flatten().flatten();
        all.copied().min().unwrap_or(0)
    }

    fn least_status(&self) -> u64 {
        let all = self.statuses.iter().flatten().flatten();
        all.copied().min().unwrap_or(0)
    }
}

impl fmt::Display for Counts {
    fn fmt(&self, f: &mut fmt::Formatter) -> fmt::Result {
        let refused: Vec<String> = (1..=REFUSALS)
            .map(|n| format!("{n}: {}", self.files[n]))
            .collect();
        writeln!(
            f,
            "{} files: accepted {}; refused {}",
            self.files(),
            self.files[0],
            refused.join(", ")
        )?;
        let kinds = [
            (FRAME, "frame"),
            (MESSAGE, "message"),
            (FLOAT, "float"),
            (FIELD, "field"),
        ];
        let kinds = kinds.map(|(kind, name)| {
            let rows = PLACES.iter().filter(|row| row.0 == kind);
            let least: Vec<String> = rows
                .map(|row| format!("{}: {}", row.1, self.least_in(row)))
                .collect();
            format!("{name} {}", least.join(", "))
        });
        writeln!(f, "  at each byte at least {}", kinds.join("; "))?;
        writeln!(
            f,
            "  faults of two refusals in the record: {}; UNUSED and WIDTH at one byte: {}, of which floats {}",
            self.mixed, self.unused_and_width, self.unused_and_not_finite
        )?;
        writeln!(
            f,
            "{} calls on nodes of {} layouts, each in two orders",
            self.calls, self.layouts
        )?;
        for kind in 0..8 {
            let answers: Vec<String> = ANSWERS[kind]
                .iter()
                .map(|&answer| format!("{answer}: {}", self.answers[kind][answer]))
                .collect();
            writeln!(f, "  {:<10}  {}", NAMES[kind], answers.join(", "))?;
        }
        writeln!(
            f,
            "  each width, sign and order at least {} times",
            self.least_field()
        )?;
        let [little, big] = self.statuses.map(|[received, sent]| {
            let [received, sent] = [received, sent].map(|[zero, one]| format!("{zero} and {one}"));
            format!("received {received}, sent {sent}")
        });
        writeln!(f, "  status bits 0 and 1: little {little}; big {big}")?;
        self.whole.fmt(f)?;
        self.floats.fmt(f)?;
        writeln!(
            f,
            "{} calls on damaged nodes kept to their memory",
            self.calls_on_damaged
        )
    }
}
