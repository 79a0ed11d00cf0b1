//! The cost of a question and its reply while other queries are open, and of answering all that
//! wait.

use anyhow::Result;
use forwarder_core::Forwarder;
use lru::DefaultHasher;
use plain_values::PlainList;
use std::alloc::Global;
use std::time::Instant;
use step_values::{Client, Event, Path};
use suffix_routes::{Config, Peer};

/// One route for all names, and room for as many queries and questions as there may be.
const CONFIG: &str = r#"version = 1
[limits]
questions = 4096
inquiries = 1024
[[route]]
suffix = "."
servers = ["192.0.2.1:53"]
"#;

/// The server of the route.
const SERVER: Peer = Peer {
    ip: [192, 0, 2, 1],
    port: 53,
};

/// The number of rounds of which the least time is taken.
const ROUNDS: u32 = 5;

/// The number of questions that are asked, each with its reply.
const PAIRS: u16 = 20_000;

/// The number of clients that ask each question that all wait for.
const CLIENTS: u16 = 4;

/// Four letters, other ones for each number.
fn letters(number: u16) -> [u8; 4] {
    [number / 4096, number / 256, number / 16, number].map(|part| b'a' + (part % 16) as u8)
}

/// A question for the address of a name with these letters in front.
fn question(number: u16) -> [u8; 30] {
    let mut text =
        *b"\x12\x34\x01\x00\x00\x01\x00\x00\x00\x00\x00\x00\x04aaaa\x07example\x00\x00\x01\x00\x01";
    [text[13], text[14], text[15], text[16]] = letters(number);
    text
}

/// The reply to its query, which has the number as its identifier.
fn reply(number: u16) -> [u8; 46] {
    let mut text =
        *b"\x00\x00\x85\x00\x00\x01\x00\x01\x00\x00\x00\x00\x04aaaa\x07example\x00\x00\x01\x00\x01\xc0\x0c\x00\x01\x00\x01\x00\x00\x01\x2c\x00\x04\xc6\x33\x64\x05";
    [text[0], text[1]] = number.to_be_bytes();
    [text[13], text[14], text[15], text[16]] = letters(number);
    text
}

/// Words that give the identifier and the port of this number.
fn words_of(number: u16) -> [u32; 8] {
    [u32::from(number) * 65_537; 8]
}

/// The moment at which the question with this number comes, in milliseconds: 1,024 of them in each.
fn moment_of(number: u16) -> u64 {
    1000 + u64::from(number / 1024)
}

fn forwarder(alloc: Global) -> Result<Forwarder<DefaultHasher>> {
    let config = Config::read(alloc, alloc, CONFIG)?;
    Ok(Forwarder::new(alloc, config, DefaultHasher::default())?)
}

/// A client asks the question with this number.
fn ask(
    forwarder: &mut Forwarder<DefaultHasher>,
    alloc: Global,
    number: u16,
    client: u16,
) -> Result<()> {
    let peer = Peer {
        ip: [10, 0, 0, 7],
        port: client,
    };
    let event = Event::Client {
        client: Client::Udp(peer),
        bytes: PlainList::copied(alloc, &question(number))?,
    };
    forwarder.step(moment_of(number), words_of(number), &event)?;
    Ok(())
}

/// The reply to the query with this number comes; returns the number of clients that it answers.
fn answer(
    forwarder: &mut Forwarder<DefaultHasher>,
    alloc: Global,
    number: u16,
    moment: u64,
) -> Result<usize> {
    let event = Event::Delivery {
        path: Path::Udp(number.wrapping_add(1024)),
        from: SERVER,
        bytes: PlainList::copied(alloc, &reply(number))?,
    };
    let outcome = forwarder.step(moment, words_of(number), &event)?;
    Ok(outcome.actions.len().saturating_sub(1))
}

/// A forwarder with `open` open queries, for each of which `clients` clients wait.
fn waited_for(alloc: Global, open: u16, clients: u16) -> Result<Forwarder<DefaultHasher>> {
    let mut forwarder = forwarder(alloc)?;
    for number in 0..open {
        for client in 0..clients {
            ask(&mut forwarder, alloc, number, client)?;
        }
    }
    Ok(forwarder)
}

/// Asks one question after another, each with the reply to the oldest of `open` queries and the new
/// one; returns the number answered.
fn answer_pairs(
    forwarder: &mut Forwarder<DefaultHasher>,
    alloc: Global,
    open: u16,
) -> Result<usize> {
    let mut answers = 0usize;
    for number in 0..PAIRS {
        let newest = open.wrapping_add(number);
        ask(forwarder, alloc, newest, 0)?;
        let answered = answer(forwarder, alloc, number, moment_of(newest))?;
        answers = answers.saturating_add(answered);
    }
    Ok(answers)
}

/// Replies to `open` queries one after another; returns the number of clients answered.
fn answer_all(forwarder: &mut Forwarder<DefaultHasher>, alloc: Global, open: u16) -> Result<usize> {
    let mut answers = 0usize;
    for number in 0..open {
        let answered = answer(forwarder, alloc, number, moment_of(open))?;
        answers = answers.saturating_add(answered);
    }
    Ok(answers)
}

/// Nanoseconds for a question and the reply to the oldest query, while `open` are open, and the
/// number answered.
fn time_of_pair(rt: &HostRuntime, open: u16) -> Result<(u128, usize)> {
    let mut forwarder = waited_for(rt.alloc(), open, 1)?;
    let started = Instant::now(rt)?;
    let answers = answer_pairs(&mut forwarder, rt.alloc(), open)?;
    Ok((started.elapsed(rt)?.as_nanos() / u128::from(PAIRS), answers))
}

/// Nanoseconds for each question, where `open` queries are replied to one after another, for each
/// of which four clients wait, and the number answered.
fn time_of_all(rt: &HostRuntime, open: u16) -> Result<(u128, usize)> {
    let mut forwarder = waited_for(rt.alloc(), open, CLIENTS)?;
    let started = Instant::now(rt)?;
    let answers = answer_all(&mut forwarder, rt.alloc(), open)?;
    let took = started.elapsed(rt)?.as_nanos();
    Ok((took / (answers as u128).max(1), answers))
}

/// Prints the cost of a question with its reply with few and with many open queries, and of
/// answering all that wait.
pub fn measure(rt: &HostRuntime) -> Result<()> {
    for open in [10u16, 100, 1000] {
        let (mut least, mut answers) = (u128::MAX, 0usize);
        for _ in 0..ROUNDS {
            let (took, answered) = time_of_pair(rt, open)?;
            least = least.min(took);
            answers = answered;
        }
        println!(rt; "{open} under way: a question and a reply: {least} ns, {answers} answers")?;
    }
    for open in [256u16, 1024] {
        let (mut least, mut answers) = (u128::MAX, 0usize);
        for _ in 0..ROUNDS {
            let (took, answered) = time_of_all(rt, open)?;
            least = least.min(took);
            answers = answered;
        }
        println!(rt;
            "{open} under way, four wait for each: {least} ns an answer, {answers} answers"
        )?;
    }
    Ok(())
}
