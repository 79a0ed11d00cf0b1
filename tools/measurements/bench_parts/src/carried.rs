//! The cost of taking the pieces from a reply.

ghost use Rattle.dns_message.specs.Messages.{HasShapes};

use anyhow::Result;
use dns_message::{Message, MessageRef, Question};
use std::alloc::Global;
use std::fs;
use std::time::Instant;
use suffix_routes::{Config, RouteId};
use trust_rank::pieces;

/// One route for all names.
const CONFIG: &str = r#"version = 1
[[route]]
suffix = "."
servers = ["192.0.2.1:53"]
"#;

/// The number of rounds of which the least time is taken.
const ROUNDS: u32 = 10;

/// The number of pieces that the walk of the message gives for the question.
fn count_pieces(
    alloc: Global,
    message: &Message,
    question: &Question,
    config: &Config,
) -> Result<usize>
    requires { HasShapes message.now }
{
    let walk = pieces(alloc, message, question, RouteId { place: 0 }, config)?;
    Ok(walk.pieces.as_slice().len())
}

/// The least time of the walk, in microseconds, and the number of pieces that it gives.
fn time_of_walk(
    rt: &HostRuntime,
    message: &Message,
    question: &Question,
    config: &Config,
) -> Result<(u128, usize)>
    requires { HasShapes message.now }
{
    let mut least = u128::MAX;
    let mut count = 0usize;
    for _ in 0..ROUNDS {
        let started = Instant::now(rt)?;
        count = count_pieces(rt.alloc(), message, question, config)?;
        least = least.min(started.elapsed(rt)?.as_micros());
    }
    Ok((least, count))
}

/// The same for the reply that these octets are, and its own question.
fn time_of_reply(rt: &HostRuntime, octets: &[u8]) -> Result<(u128, usize)> {
    let alloc = rt.alloc();
    let config = Config::read(alloc, alloc, CONFIG)?;
    let view = MessageRef::view(octets)?;
    let question = view.question(alloc)?;
    let message = view.read_whole(alloc)?;
    time_of_walk(rt, &message, &question, &config)
}

/// Prints the time of the walk of the reply in the file for its own question, and the number of
/// pieces that it gives.
pub fn measure(rt: &HostRuntime, reply: &str) -> Result<()> {
    let octets = fs::read(rt, reply)?;
    let (least, count) = time_of_reply(rt, &octets)?;
    println!(rt;
        "carried: {} octets, {count} pieces: {least} us",
        octets.len()
    )?;
    Ok(())
}
