//! The cost of one reply that answers many clients with the same question.

use anyhow::Result;
use forwarder_core::Forwarder;
use lru::DefaultHasher;
use plain_values::PlainList;
use std::alloc::Global;
use std::fs;
use std::time::Instant;
use step_values::{Action, Actions, Client, Event, Path};
use suffix_routes::{Config, Peer};

/// One route for all names, and room for all that wait.
const CONFIG: &str = r#"version = 1
[limits]
questions = 4096
[[route]]
suffix = "."
servers = ["192.0.2.1:53"]
"#;

/// The server of the route.
const SERVER: Peer = Peer {
    ip: [192, 0, 2, 1],
    port: 53,
};

/// Identifier 8 and port 1032 by the first.
const WORDS: [u32; 8] = [
    524_296, 589_833, 655_370, 720_907, 786_444, 851_981, 917_518, 983_055,
];

/// The path that the first of the words draws.
const PATH: Path = Path::Udp(1032);

/// The number of rounds of which the least time is taken.
const ROUNDS: u32 = 3;

/// A client over this transport.
fn client(number: u16, over_tcp: bool) -> Client {
    if over_tcp {
        return Client::Tcp(u64::from(number));
    }
    Client::Udp(Peer {
        ip: [10, 0, 0, 7],
        port: number,
    })
}

/// A forwarder that `waiting` clients have asked the question.
fn asked(
    alloc: Global,
    question: &[u8],
    waiting: u16,
    over_tcp: bool,
) -> Result<Forwarder<DefaultHasher>> {
    let config = Config::read(alloc, alloc, CONFIG)?;
    let mut forwarder = Forwarder::new(alloc, config, DefaultHasher::default())?;
    for number in 0..waiting {
        let client = client(number, over_tcp);
        let bytes = PlainList::copied(alloc, question)?;
        forwarder.step(1000, WORDS, &Event::Client { client, bytes })?;
    }
    Ok(forwarder)
}

/// The number of octets that the actions send to clients.
fn octets_sent(actions: &Actions<Global>) -> usize {
    let mut sent = 0usize;
    for place in 0..actions.len() {
        if let Some(Action::Reply { bytes, .. }) = actions.get(place) {
            sent = sent.saturating_add(bytes.as_slice().len());
        }
    }
    sent
}

/// The time of a step in nanoseconds, and the number of octets that it sends to clients.
fn time_of_step(
    rt: &HostRuntime,
    forwarder: &mut Forwarder<DefaultHasher>,
    event: Event,
) -> Result<(u128, usize)> {
    let started = Instant::now(rt)?;
    let outcome = forwarder.step(1020, WORDS, &event)?;
    let took = started.elapsed(rt)?.as_nanos();
    Ok((took, octets_sent(&outcome.actions)))
}

/// The time in nanoseconds of the step with the reply that `waiting` clients wait for, and the
/// number of octets that it sends.
fn time_of_reply(
    rt: &HostRuntime,
    question: &[u8],
    reply: &[u8],
    waiting: u16,
    over_tcp: bool,
) -> Result<(u128, usize)> {
    let alloc = rt.alloc();
    let mut forwarder = asked(alloc, question, waiting, over_tcp)?;
    let event = Event::Delivery {
        path: PATH,
        from: SERVER,
        bytes: PlainList::copied(alloc, reply)?,
    };
    time_of_step(rt, &mut forwarder, event)
}

/// Prints the time of the step with the reply where one and where 1,000 wait for it, over UDP and
/// over TCP. The files have the octets of a client's message and of the server's, whose identifier
/// is 8.
pub fn measure(rt: &HostRuntime, question: &str, reply: &str) -> Result<()> {
    let question = fs::read(rt, question)?;
    let reply = fs::read(rt, reply)?;
    for over_tcp in [false, true] {
        for waiting in [1u16, 1000] {
            let mut least = u128::MAX;
            let mut octets = 0usize;
            for _ in 0..ROUNDS {
                let (took, sent) = time_of_reply(rt, &question, &reply, waiting, over_tcp)?;
                least = least.min(took);
                octets = sent;
            }
            let transport = if over_tcp { "TCP" } else { "UDP" };
            let micros = least / 1000;
            println!(rt;
                "many_wait: a reply of {} octets, {waiting} over {transport}, {octets} octets sent: {micros} us",
                reply.len()
            )?;
        }
    }
    Ok(())
}
