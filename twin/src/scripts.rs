//! Generators of call sequences, and of other orders of their calls.

use crate::agreement::sizes;
use crate::bits;
use crate::calls::Call;
use crate::float::SIGN;
use crate::layout::{uses_old, Layout, Sign};
use crate::node::Node;
use crate::patterns::{made_finite, not_finite, Theme};
use crate::random::Random;

/// The calls of several rounds on a node of the layout. Each ends with a closing, after which all
/// messages are received or only some.
pub fn script(random: &mut Random, layout: &Layout) -> Vec<Call> {
    let mut writer = Writer::new(random, layout);
    let longest = 10 + layout.frames.len() + layout.messages.len();
    for _ in 0..writer.random.between(1, 6) {
        writer.begin_round();
        for _ in 0..writer.random.between(0, longest) {
            writer.step();
        }
        if writer.calm {
            writer.deliver_each();
        }
        writer.push(Call::Close);
        if writer.random.once_in(2) {
            writer.receive_each();
        }
    }
    writer.calls
}

/// Rounds of which each delivers the received frames, closes, and receives each message.
pub fn closings(random: &mut Random, layout: &Layout) -> Vec<Call> {
    let mut writer = Writer::new(random, layout);
    for _ in 0..8 {
        writer.begin_round();
        writer.deliver_each();
        writer.push(Call::Close);
        writer.receive_each();
    }
    writer.calls
}

/// Writes calls and plays them, so that it knows what the node holds.
struct Writer<'a> {
    random: &'a mut Random,
    node: Node<'a>,
    /// For each message two values that this round's deliveries carry often, so that votes have a
    /// winner or a tie.
    favourites: Vec<[i64; 2]>,
    /// And what the other values have in common if the message is a float.
    themes: Vec<Theme>,
    /// For each field the value that its next delivery carries, if it was dealt one.
    dealt: Vec<Option<i64>>,
    /// Are all deliveries of this round valid, with all status bits set? Then many instances count.
    calm: bool,
    calls: Vec<Call>,
}

impl<'a> Writer<'a> {
    fn new(random: &'a mut Random, layout: &'a Layout) -> Writer<'a> {
        Writer {
            random,
            node: Node::start(layout),
            favourites: vec![[0; 2]; layout.messages.len()],
            themes: vec![Theme::Any; layout.messages.len()],
            dealt: vec![None; layout.fields.len()],
            calm: false,
            calls: Vec::new(),
        }
    }

    fn push(&mut self, call: Call) {
        call.play(&mut self.node);
        self.calls.push(call);
    }

    fn begin_round(&mut self) {
        self.calm = self.random.once_in(2);
        for message in 0..self.favourites.len() {
            // Often the same as before, so that new and old values are alike.
            if self.calls.is_empty() || self.random.once_in(2) {
                self.themes[message] = self.theme(message);
            }
            self.favourites[message] = [self.value(message), self.value(message)];
        }
    }

    /// While a zero is held, often zeros, so that it meets the other one.
    fn theme(&mut self, message: usize) -> Theme {
        let held = bits::pattern(self.node.states[message].held);
        match held & !SIGN == 0 && self.random.once_in(4) {
            true => Theme::Zeros,
            false => Theme::any(self.random),
        }
    }

    /// One call or a few, mostly in a direction that the layout has.
    fn step(&mut self) {
        let directions: Vec<bool> = self.node.layout.frames.iter().map(|f| f.sent).collect();
        let any = self.random.once_in(2);
        let sent = match self.random.pick(&directions) {
            Some(sent) if !self.random.once_in(8) => sent,
            _ => any,
        };
        match (sent, self.random.between(0, 19)) {
            (true, 0..=3) => self.send(),
            (true, 4..=6) => self.invalidate(),
            (true, 7..=10) => self.assemble(),
            (true, 11..=12) => self.consumed(),
            (true, 13..=14) => self.read_flag(),
            (true, 15) => self.send_through(),
            (true, _) => self.send_and_assemble(),
            (false, 0..=15) => self.deliver(),
            (false, _) => self.receive(),
        }
    }

    fn send(&mut self) {
        let message = self.message(true);
        self.send_to(message);
    }

    /// A message whose filter has an old value, if there is one; a frame of it shows the verdict.
    fn send_and_assemble(&mut self) {
        let messages = self.node.layout.messages.iter().enumerate();
        let with_old = messages.filter(|(_, message)| message.sent && uses_old(message.filter));
        let with_old: Vec<usize> = with_old.map(|(number, _)| number).collect();
        let Some(message) = self.random.pick(&with_old) else {
            return self.send();
        };
        let fields = self.node.layout.fields_of_message(message);
        let frames: Vec<usize> = fields.map(|field| field.frame).collect();
        self.send_to(message as u64);
        if let Some(frame) = self.random.pick(&frames) {
            self.assemble_to(frame as u64);
        }
    }

    fn send_to(&mut self, message: u64) {
        let value = match message < self.node.states.len() as u64 {
            true => self.value_or_outside(message as usize),
            false => self.random.draw() as i64,
        };
        self.push(Call::Send { message, value });
    }

    fn invalidate(&mut self) {
        let message = self.message(true);
        self.push(Call::Invalidate { message });
    }

    fn assemble(&mut self) {
        let frame = self.frame(true);
        self.assemble_to(frame);
    }

    fn assemble_to(&mut self, frame: u64) {
        let buffer = self.data(frame);
        self.push(Call::Assemble { frame, buffer });
    }

    fn consumed(&mut self) {
        let frame = self.frame(true);
        self.push(Call::Consumed { frame });
    }

    fn read_flag(&mut self) {
        let message = self.message(true);
        self.read_flag_of(message);
    }

    fn read_flag_of(&mut self, message: u64) {
        let place = self.random.byte(0, 255);
        self.push(Call::ReadFlag { message, place });
    }

    /// A message is sent and its frames go out, sometimes with a step left out or a second send
    /// between, and its flag is read.
    fn send_through(&mut self) {
        let message = self.message(true);
        let fields = self.node.layout.fields.iter();
        let frames: Vec<u64> = fields
            .filter(|field| field.message as u64 == message)
            .map(|field| field.frame as u64)
            .collect();
        self.send_to(message);
        for &frame in &frames {
            if !self.random.once_in(8) {
                self.assemble_to(frame);
            }
        }
        if self.random.once_in(4) {
            self.send_to(message);
        }
        for &frame in &frames {
            if self.random.once_in(4) {
                self.read_flag_of(message);
            }
            if !self.random.once_in(8) {
                self.push(Call::Consumed { frame });
            }
        }
        self.read_flag_of(message);
    }

    fn deliver(&mut self) {
        let frame = self.frame(false);
        self.deliver_to(frame);
    }

    fn deliver_each(&mut self) {
        for message in 0..self.node.states.len() {
            if !self.is_float(message) {
                self.deal(message);
            }
        }
        for number in 0..self.node.layout.frames.len() {
            if !self.node.layout.frames[number].sent {
                self.deliver_to(number as u64);
            }
        }
    }

    fn deliver_to(&mut self, frame: u64) {
        let mut data = self.data(frame);
        let layout = self.node.layout;
        for (place, field) in layout.fields.iter().enumerate() {
            let carrier = &layout.frames[field.frame];
            if field.frame as u64 != frame || carrier.length != data.len() {
                continue;
            }
            let dealt = self.dealt[place].take();
            let value = dealt.unwrap_or_else(|| self.instance(field.message));
            bits::pack(layout, field, value, &mut data);
            if let Some(place) = field.status {
                let set = self.calm || !self.random.once_in(4);
                bits::set_bit(carrier, &mut data, place, set);
            }
        }
        let valid = match !self.calm && self.random.once_in(8) {
            true => 0,
            false => self.random.pick(&[1, 1, 2, 128, 255]).unwrap_or(1),
        };
        self.push(Call::Deliver { frame, valid, data });
    }

    fn receive(&mut self) {
        let message = self.message(false);
        self.receive_from(message);
    }

    fn receive_from(&mut self, message: u64) {
        let place = self.random.draw() as i64;
        self.push(Call::Receive { message, place });
    }

    fn receive_each(&mut self) {
        for number in 0..self.node.states.len() {
            if !self.node.layout.messages[number].sent {
                self.receive_from(number as u64);
            }
        }
    }

    fn message(&mut self, sent: bool) -> u64 {
        let directions: Vec<bool> = self.node.layout.messages.iter().map(|m| m.sent).collect();
        self.number(&directions, sent)
    }

    fn frame(&mut self, sent: bool) -> u64 {
        let directions: Vec<bool> = self.node.layout.frames.iter().map(|f| f.sent).collect();
        self.number(&directions, sent)
    }

    /// A number of this direction; now and then one of the other, or one not in the layout.
    fn number(&mut self, directions: &[bool], sent: bool) -> u64 {
        let sent = sent != self.random.once_in(16);
        let of_direction = |&number: &usize| directions[number] == sent;
        let numbers: Vec<usize> = match self.random.once_in(16) {
            true => Vec::new(),
            false => (0..directions.len()).filter(of_direction).collect(),
        };
        match self.random.pick(&numbers) {
            Some(number) => number as u64,
            None => self.absent(directions.len() as u64),
        }
    }

    /// A number from the count on: next to it, or one that is below it if cut to fewer bits.
    fn absent(&mut self, count: u64) -> u64 {
        let low = self.random.draw() % count.max(1);
        let bit = 1 << self.random.between(5, 63);
        let any = self.random.draw();
        let numbers = [count, count + 1, 32, 255, bit + low, u64::MAX - low, any];
        self.random.pick(&numbers).unwrap_or(any).max(count)
    }

    /// Data or a buffer for the frame, now and then not of its length.
    fn data(&mut self, frame: u64) -> Vec<u8> {
        let frame = usize::try_from(frame).ok();
        let frame = frame.and_then(|number| self.node.layout.frames.get(number));
        let right = frame.map_or(self.random.between(1, 32), |frame| frame.length);
        let length = match self.random.between(0, 255) {
            0..=11 => self
                .random
                .pick(&[0, right - 1, right + 1, 32, 33, 256 + right]),
            12 => Some(65536 + right),
            _ => None,
        };
        let length = length.unwrap_or(right);
        match self.random.between(0, 3) {
            0 => vec![0; length],
            1 => vec![255; length],
            _ => (0..length).map(|_| self.random.byte(0, 255)).collect(),
        }
    }

    /// Deals values to the fields of a message so that each size of a vote on them comes up.
    fn deal(&mut self, message: usize) {
        let fields = self.node.layout.fields.iter().enumerate();
        let own = fields.filter(|(_, field)| field.message == message);
        let own: Vec<usize> = own.map(|(place, _)| place).collect();
        let (leading, each) = self.random.pick(&sizes(own.len())).unwrap_or((1, 1));
        let mut values = Vec::new();
        while values.len() < own.len() {
            let left = own.len() - values.len();
            let times = match values.len() < leading * each {
                true => each,
                false => self.random.between(1, left.min(each - 1)),
            };
            let value = self.value_beside(message, &values);
            values.extend(vec![value; times]);
        }
        self.random.shuffle(&mut values);
        for (place, value) in own.into_iter().zip(values) {
            self.dealt[place] = Some(value);
        }
    }

    /// A value of the message that is none of these, unless it is so narrow that none is found.
    fn value_beside(&mut self, message: usize, values: &[i64]) -> i64 {
        let mut value = self.value(message);
        for _ in 0..8 {
            if values.contains(&value) {
                value = self.any_value(message);
            }
        }
        value
    }

    fn any_value(&mut self, message: usize) -> i64 {
        let (least, most) = bits::range(&self.node.layout.messages[message]).into_inner();
        least + self.random.between(0, (most - least) as usize) as i64
    }

    /// What a frame carries of the message: often one of the round's favourites. Of a float also one
    /// that is not finite.
    fn instance(&mut self, message: usize) -> i64 {
        let [one, other] = self.favourites[message];
        if !self.is_float(message) {
            let any = self.value(message);
            let value = self.random.pick(&[one, one, one, other, other, any]);
            return value.unwrap_or(any);
        }
        let theme = self.themes[message];
        let number = match theme {
            // Mostly all, so that all are set aside.
            Theme::NotFinite => self.random.between(3, 25),
            _ => self.random.between(0, 15),
        };
        match number {
            0..=3 => one,
            4 | 5 => other,
            6 | 7 => self.value(message),
            8 => not_finite(self.random).into(),
            _ => theme.pattern(self.random).into(),
        }
    }

    fn is_float(&self, message: usize) -> bool {
        self.node.layout.messages[message].sign == Sign::Float
    }

    /// A finite float: of the round's theme, or at an edge of its filter.
    fn float(&mut self, message: usize) -> i64 {
        let held = bits::pattern(self.node.states[message].held);
        let by_theme = self.themes[message].pattern(self.random);
        let message = &self.node.layout.messages[message];
        let patterns = [
            by_theme,
            by_theme,
            by_theme,
            held,
            held,
            held,
            message.initial,
            message.x1,
            message.x2,
        ];
        let pattern = self.random.pick(&patterns).unwrap_or(by_theme);
        // The same, the other sign, or the float beside it.
        let change = self.random.pick(&[0, 0, 0, SIGN, 1]).unwrap_or(0);
        made_finite(pattern ^ change).into()
    }

    /// A value of the message: often one at an edge of its range or of its filter.
    fn value(&mut self, message: usize) -> i64 {
        if self.is_float(message) {
            return self.float(message);
        }
        let any = self.any_value(message);
        let held = self.node.states[message].held;
        let message = &self.node.layout.messages[message];
        let (least, most) = bits::range(message).into_inner();
        let (x1, x2) = (message.x1, message.x2);
        // The bits under the mask from one pattern, the others from any.
        let masked = |pattern: u32| bits::value(message, pattern & x1 | bits::pattern(any) & !x1);
        // What filters that few values pass, or few do not, are about.
        let wanted = match message.filter {
            2 | 3 => masked(x2),
            6 | 7 => masked(bits::pattern(held)),
            _ => held,
        };
        let values = [
            any,
            any,
            least,
            most,
            0,
            bits::initial(message),
            held,
            bits::value(message, x1),
            bits::value(message, x2),
            wanted,
            wanted,
            wanted,
        ];
        let value = self.random.pick(&values).unwrap_or(any);
        let beside = self.random.pick(&[-1, 0, 0, 0, 1]).unwrap_or(0);
        (value + beside).clamp(least, most)
    }

    /// A value of the message, now and then one outside its range.
    fn value_or_outside(&mut self, message: usize) -> i64 {
        let value = self.value(message);
        if !self.random.once_in(8) {
            return value;
        }
        if self.is_float(message) && !self.random.once_in(4) {
            return not_finite(self.random).into();
        }
        let message = &self.node.layout.messages[message];
        let (least, most) = bits::range(message).into_inner();
        let values = [
            least - 1,
            most + 1,
            i64::MIN,
            i64::MAX,
            value + (1 << message.width),
            value - (1 << message.width),
            value + (1 << 32),
            value - (1 << 32),
            self.random.draw() as i64,
        ];
        self.random.pick(&values).unwrap_or(value)
    }
}

/// Another order of the calls, as their places in the first: closings stay, and so does the order
/// of calls that name the same message, the same frame, or a frame and a message that it carries.
pub fn other_order(random: &mut Random, layout: &Layout, calls: &[Call]) -> Vec<usize> {
    let mut order = Vec::new();
    let mut round = Vec::new();
    for (place, call) in calls.iter().enumerate() {
        if *call == Call::Close {
            order.extend(shuffled(random, layout, calls, &round));
            order.push(place);
            round.clear();
        } else {
            round.push(place);
        }
    }
    order.extend(shuffled(random, layout, calls, &round));
    order
}

/// Each time any of the calls that are left comes next, or the first that must come before it.
fn shuffled(random: &mut Random, layout: &Layout, calls: &[Call], round: &[usize]) -> Vec<usize> {
    let mut left = round.to_vec();
    let mut order = Vec::new();
    while !left.is_empty() {
        let mut next = random.between(0, left.len() - 1);
        let before = |next: usize| {
            let call = &calls[left[next]];
            (0..next).find(|&earlier| tied(layout, &calls[left[earlier]], call))
        };
        while let Some(earlier) = before(next) {
            next = earlier;
        }
        order.push(left.remove(next));
    }
    order
}

/// Must these two keep their order?
fn tied(layout: &Layout, one: &Call, other: &Call) -> bool {
    let same = |one: Option<u64>, other: Option<u64>| one.is_some() && one == other;
    let carries = |frame: Option<u64>, message: Option<u64>| match (frame, message) {
        (Some(frame), Some(message)) => layout
            .fields
            .iter()
            .any(|field| (field.frame as u64, field.message as u64) == (frame, message)),
        _ => false,
    };
    same(one.message(), other.message())
        || same(one.frame(), other.frame())
        || carries(one.frame(), other.message())
        || carries(other.frame(), one.message())
}
