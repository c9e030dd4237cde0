//! The lines that events print.
use crate::checkout::ROOT;
use crate::daemon::{Message, PART};
use crate::hashing::Map;
use crate::loaded::{Attr, Kind};
use crate::request::{Answer, Item, Reply, Request};
use crate::served::Place;
use crate::world::{Happened, Refusal, World};
use std::io::{Result, Write};

/// Prints what happened at an event, or why it was refused.
pub fn outcome(out: &mut Vec<u8>, world: &World, outcome: std::result::Result<Happened, Refusal>) {
    let printed = match outcome {
        Ok(happened) => print_happened(out, world, happened),
        Err(refusal) => print_refusal(out, refusal),
    };
    printed.expect("a list takes all that is written");
}

fn print_happened(out: &mut Vec<u8>, world: &World, happened: Happened) -> Result<()> {
    match happened {
        Happened::Started(daemon) => writeln!(out, "daemon {daemon}"),
        Happened::Mounted(generation) => writeln!(out, "mounted {generation}"),
        Happened::Asked(Some(unique)) => writeln!(out, "asked {unique}"),
        Happened::Asked(None) => writeln!(out, "asked"),
        Happened::Took(unique) => writeln!(out, "took {unique}"),
        Happened::TookForgets(count) => writeln!(out, "took forgets {count}"),
        Happened::Made(reply) => print_reply(out, "made", &reply),
        Happened::Forgot(forgot) => writeln!(out, "forgot {forgot:?}"),
        Happened::Posted(unique) => writeln!(out, "posted {unique}"),
        Happened::Answered(reply) => print_reply(out, "answer", &reply),
        Happened::Said(at) => print_said(out, &world.said, at),
        Happened::Heard => writeln!(out, "heard"),
        Happened::Ignored => writeln!(out, "ignored"),
        Happened::Claimed(generation) => writeln!(out, "claimed {generation}"),
        Happened::Crashed => writeln!(out, "crashed"),
        Happened::Shown => print_world(out, world),
    }
}

fn print_refusal(out: &mut Vec<u8>, refusal: Refusal) -> Result<()> {
    let cause = match refusal {
        Refusal::BadForget => "BadForget",
        Refusal::Empty => "Empty",
        Refusal::Ended => "Ended",
        Refusal::Full => "Full",
        Refusal::NoDaemon => "NoDaemon",
        Refusal::NoSuch => "NoSuch",
        Refusal::NotAsked => "NotAsked",
        Refusal::NotHeld => "NotHeld",
        Refusal::NotMounted => "NotMounted",
        Refusal::Seated => "Seated",
        Refusal::WrongPhase => "WrongPhase",
        Refusal::Stale(generation) => return writeln!(out, "refused Stale {generation}"),
        Refusal::Unanswered(asks) => return writeln!(out, "refused Unanswered {asks}"),
        Refusal::Undrained(hand, unposted) => return writeln!(out, "refused Undrained {hand} {unposted}"),
    };
    writeln!(out, "refused {cause}")
}

fn print_reply(out: &mut Vec<u8>, word: &str, reply: &Reply) -> Result<()> {
    write!(out, "{word} {} ", reply.unique)?;
    match &reply.answer {
        Answer::Entry { number, attr } => print_file(out, "entry", *number, attr),
        Answer::Opened { number, attr } => print_file(out, "opened", *number, attr),
        Answer::Attrs { number, attr } => print_file(out, "attr", *number, attr),
        Answer::Done => writeln!(out, "done"),
        Answer::Error(errno) => writeln!(out, "error {errno:?}"),
    }
}

fn print_file(out: &mut Vec<u8>, word: &str, number: u64, attr: &Attr) -> Result<()> {
    let kind = match attr.kind {
        Kind::Dir => "dir",
        Kind::File => "file",
    };
    writeln!(out, "{word} {number} {kind} {:04o} {} {}", attr.perm, attr.size, attr.nlink)
}

fn print_said(out: &mut Vec<u8>, said: &[Message], at: usize) -> Result<()> {
    write!(out, "said {at} ")?;
    match &said[at - 1] {
        Message::Offer(_) => writeln!(out, "offer"),
        Message::Choice { session, version } => writeln!(out, "choice {session} {version}"),
        Message::NoCommon => writeln!(out, "nocommon"),
        Message::Busy => writeln!(out, "busy"),
        Message::Ready { session, generation } => writeln!(out, "ready {session} {generation}"),
        Message::Pong { session } => writeln!(out, "pong {session}"),
        Message::Data { session, generation, bytes } => writeln!(out, "data {session} {generation} {}", bytes.len()),
        Message::Part { session, generation, count, .. } => {
            let last = match &said[at + count - 2] {
                Message::Part { bytes, .. } => bytes.len(),
                _ => 0,
            };
            writeln!(out, "parts {session} {generation} {count} {}", (count - 1) * PART + last)
        }
        Message::Failed { session } => writeln!(out, "failed {session}"),
    }
}

/// Prints who has the seat, and each number that its daemon keeps, with what is under way for it.
fn print_world(out: &mut Vec<u8>, world: &World) -> Result<()> {
    let Some((seat, server)) = world.kernel.seat.and_then(|seat| Some((seat, world.server(seat.daemon)?))) else {
        return writeln!(out, "seat none");
    };
    writeln!(out, "seat {} {} next {}", seat.generation, seat.daemon, server.served.next)?;
    let mut up: Map<u64, u128> = Map::default();
    let in_hand = server.hand.iter().filter_map(|ask| match ask.request {
        Request::Forget(item) => Some(item),
        _ => None,
    });
    for Item { number, k } in world.kernel.forgets.iter().copied().chain(in_hand) {
        *up.entry(number).or_default() += u128::from(k);
    }
    let mut down: Map<u64, u64> = Map::default();
    for number in server.unposted.iter().chain(&world.kernel.posted).filter_map(|reply| reply.answer.given()) {
        *down.entry(number).or_default() += 1;
    }
    let mut kept: Vec<_> = server.served.entries.iter().filter(|(&number, _)| number != ROOT).collect();
    kept.sort_unstable_by_key(|(&number, _)| number);
    for (number, entry) in kept {
        let held = world.kernel.held.get(number).unwrap_or(&0);
        let (up, down) = (up.get(number).unwrap_or(&0), down.get(number).unwrap_or(&0));
        write!(out, "number {number} held {held} up {up} down {down} count {} ", entry.count)?;
        match &entry.place {
            Place::Linked { parent, name } => {
                write!(out, "at {parent} ")?;
                out.write_all(name)?;
                writeln!(out)?;
            }
            Place::Unlinked { file } => writeln!(out, "unlinked {file}")?,
        }
    }
    Ok(())
}
