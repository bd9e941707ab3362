//! Holds what the library replied to a case against the twin: every answer, buffer and place, what
//! else changed in memory, and the node's bytes in two orders of the calls.

use crate::calls::{Call, Outcome};
use crate::case::Case;
use crate::counts::Counts;
use crate::layout::{read, Layout, Verdict};
use crate::node::{Node, OK};
use crate::player::{Reply, Step, AROUND, DATA, NODE};

/// What was played and what each side said, to be read by people.
pub type Difference = String;

/// What one order of the calls leads to.
struct Played<'a> {
    /// By the call's place in the first order.
    outcomes: Vec<Outcome>,
    dumps: Vec<Dump<'a>>,
}

/// The twin's node and the bytes of the library's, after so many calls in the order of a node.
struct Dump<'a> {
    node: u8,
    calls: usize,
    twin: Node<'a>,
    bytes: &'a [u8],
}

/// The replies to the case's steps against the twin, and the two orders against each other.
pub fn check(case: &Case, replies: &[Reply], counts: &mut Counts) -> Result<(), Difference> {
    let verdict = read(&case.file);
    let of_node: Vec<&[Reply]> = replies.chunks(replies.len() / case.nodes().len()).collect();
    for (node, replies) in case.nodes().zip(&of_node) {
        check_load(&verdict, &replies[1]).map_err(|said| case.told(node, 0) + &said)?;
    }
    match (verdict, &of_node[..]) {
        (Verdict::Accepted(layout), [first, second]) => {
            let first = check_calls(case, &layout, 0, first, counts)?;
            // The calls of the second order are the same, and are not counted again.
            let second = check_calls(case, &layout, 1, second, &mut Counts::default())?;
            check_orders(case, &first, &second)
        }
        (Verdict::Accepted(layout), [only]) if case.has_one_order() => {
            check_calls(case, &layout, 0, only, counts).map(|_| ())
        }
        _ if !case.damage.is_empty() => check_damaged(case, replies, counts),
        (verdict, _) => {
            counts.file(&case.file, &verdict);
            Ok(())
        }
    }
}

/// Whatever the node's bytes are, a call keeps to what it was lent, and a refused one changes
/// nothing.
fn check_damaged(case: &Case, replies: &[Reply], counts: &mut Counts) -> Result<(), Difference> {
    let mut calls = 0;
    for ((_, step), reply) in case.steps().iter().zip(replies) {
        let Step::Call(call) = step else {
            continue;
        };
        calls += 1;
        counts.call_on_damaged();
        let refused = reply.answer != u32::from(OK);
        let lent_changed = refused && reply.lent != call.lent();
        let kept = match lent_changed {
            true => Err(String::from("a refused call changed the buffer or place\n")),
            false => check_marks(reply, !refused),
        };
        kept.map_err(|said| case.told(0, calls) + &said)?;
    }
    Ok(())
}

/// Every answer, buffer and place, and that nothing else changed.
fn check_calls<'a>(
    case: &Case,
    layout: &'a Layout,
    node: u8,
    replies: &'a [Reply],
    counts: &mut Counts,
) -> Result<Played<'a>, Difference> {
    let mut twin = Node::start(layout);
    counts.layout(layout);
    let mut outcomes = vec![Outcome::default(); case.calls.len()];
    let mut dumps = Vec::new();
    // The first two replies are to the filling and the loading.
    let mut replies = replies[2..].iter();
    let mut next = || replies.next().expect("a reply to each step");
    let mut dump = |calls, twin: &Node<'a>, reply: &'a Reply| {
        dumps.push(Dump {
            node,
            calls,
            twin: twin.clone(),
            bytes: &reply.lent,
        })
    };
    let dumped = !case.has_one_order();
    if dumped {
        dump(0, &twin, next());
    }
    for (before, place) in case.order(node).into_iter().enumerate() {
        let call = &case.calls[place];
        let closing = dumped && *call == Call::Close;
        if closing {
            dump(before, &twin, next());
        }
        let earlier = twin.clone();
        let outcome = call.play(&mut twin);
        counts.call(&earlier, call, outcome.answer);
        check_call(&outcome, twin != earlier, next())
            .map_err(|said| case.told(node, before + 1) + &said)?;
        if closing {
            dump(before + 1, &twin, next());
        }
        outcomes[place] = outcome;
    }
    if dumped {
        dump(case.calls.len(), &twin, next());
    }
    Ok(Played { outcomes, dumps })
}

/// That each call has the same outcome in both orders and the nodes are equal in the end, and
/// that nodes which are equal, whatever led to them, have equal bytes.
fn check_orders(case: &Case, first: &Played, second: &Played) -> Result<(), Difference> {
    let all = case.calls.len();
    for (place, call) in case.calls.iter().enumerate() {
        let (one, other) = (&first.outcomes[place], &second.outcomes[place]);
        if one != other {
            let told = case.told(0, all) + &case.told(1, all);
            return Err(format!("{told}{call}\nfirst:  {one}\nsecond: {other}\n"));
        }
    }
    for (one, other) in first.dumps.iter().zip(&second.dumps) {
        if one.twin != other.twin {
            let told = case.told(0, one.calls) + &case.told(1, other.calls);
            return Err(told + "the orders lead to different nodes\n");
        }
    }
    let dumps: Vec<&Dump> = first.dumps.iter().chain(&second.dumps).collect();
    for (place, one) in dumps.iter().enumerate() {
        for other in &dumps[..place] {
            if one.twin == other.twin && one.bytes != other.bytes {
                let told = case.told(other.node, other.calls) + &case.told(one.node, one.calls);
                return Err(told + "equal nodes have different bytes\n");
            }
        }
    }
    Ok(())
}

fn check_load(verdict: &Verdict, reply: &Reply) -> Result<(), Difference> {
    let (answer, changed) = match verdict {
        Verdict::Accepted(_) => (0, true),
        Verdict::Refused {
            number,
            record,
            byte,
        } => {
            let byte = byte.map_or(0, u32::from);
            let answer = u32::from(*number) + 256 * *record as u32 + 65536 * byte;
            (answer, false)
        }
    };
    if reply.answer != answer {
        return Err(two_sides(shown(answer), shown(reply.answer)));
    }
    check_marks(reply, changed)
}

/// The answer of a load. Byte 0 means that there is none.
fn shown(answer: u32) -> String {
    let (number, record, byte) = (answer % 256, answer / 256 % 256, answer / 65536);
    match (answer, byte) {
        (0, _) => String::from("accepted"),
        (_, 0) => format!("refused {number} record {record}"),
        _ => format!("refused {number} record {record} byte {byte}"),
    }
}

/// If the twin's node is the same after the call, and so after every refusal, then no byte of the
/// library's node may have changed.
fn check_call(outcome: &Outcome, changed: bool, reply: &Reply) -> Result<(), Difference> {
    let said = Outcome {
        answer: reply.answer as u8,
        lent: reply.lent.clone(),
    };
    if said != *outcome {
        return Err(two_sides(outcome.to_string(), said.to_string()));
    }
    check_marks(reply, changed)
}

fn check_marks(reply: &Reply, changed: bool) -> Result<(), Difference> {
    let faults = [
        (AROUND, "memory around what was lent changed\n"),
        (DATA, "data that is only read changed\n"),
        (NODE, "bytes of the node changed where nothing changes\n"),
    ];
    let allowed = if changed { NODE } else { 0 };
    match faults
        .iter()
        .find(|(mark, _)| reply.marks & !allowed & mark != 0)
    {
        None => Ok(()),
        Some((_, fault)) => Err(String::from(*fault)),
    }
}

fn two_sides(twin: String, library: String) -> Difference {
    format!("twin:    {twin}\nlibrary: {library}\n")
}
