//! The cost of looking a name up in a full cache, by its octets, and of changing the cache.

use crate::filling::{ADDRESS, CLASS, MANY, ROUNDS, addresses, full_cache, name_error, numbered};
use anyhow::Result;
use dns_message::QuestionRef;
use dns_name::Name;
use negative_cache::{CacheAt, Found, shown};
use record_cache::{Cache, LookUpSlot};
use std::hash::RandomState;
use std::time::Instant;
use suffix_routes::Config;

/// Two routes, so that one is looked for.
const CONFIG: &str = r#"version = 1
[[route]]
suffix = "."
servers = ["192.0.2.1:53"]
[[route]]
suffix = "corp.example"
servers = ["192.0.2.9:53"]
"#;

/// The number of calls with one name that are timed together.
const CALLS: usize = 20_000;

/// A name of 127 labels, the most that a name may have.
const LONGEST: &str =
    "a.a.a.a.a.a.a.a.a.a.a.a.a.a.a.a.a.a.a.a.a.a.a.a.a.a.a.a.a.a.a.a.a.a.a.a.a.a.a.a.a.a.a.a.a.a.a.a.a.a.a.a.a.a.a.a.a.a.a.a.a.a.a.a.a.a.a.a.a.a.a.a.a.a.a.a.a.a.a.a.a.a.a.a.a.a.a.a.a.a.a.a.a.a.a.a.a.a.a.a.a.a.a.a.a.a.a.a.a.a.a.a.a.a.a.a.a.a.a.a.a.a.a.a.a.a.a";

/// Names that are looked up, and what they are.
const NAMES: [(&str, &str); 3] = [
    ("a cached answer", "host10007.some-example.com"),
    ("a usual name", "www.other-example.com"),
    ("127 labels", LONGEST),
];

/// Nanoseconds a call, of `calls` calls since a moment.
fn each(rt: &HostRuntime, started: &Instant, calls: usize) -> Result<u128> {
    let count = calls.max(1) as u128;
    Ok(started.elapsed(rt)?.as_nanos() / count)
}

/// Makes the entry that answers a question the most recently used; returns whether there is one.
fn answer(
    cache: &mut Cache<RandomState>,
    slot: &mut LookUpSlot,
    name: &Name,
    config: &Config,
) -> bool {
    let at = CacheAt {
        cache,
        config,
        moment: 1000,
    };
    let question = QuestionRef::from_octets(name.octets(), ADDRESS, CLASS);
    match at.find(slot, &question) {
        Found::Rows(_) | Found::Denied(_) => cache.promote_found(slot),
        _ => return false,
    }
    true
}

/// A look-up of one name time and again: whether there is an answer, and nanoseconds.
fn of_name(
    rt: &HostRuntime,
    cache: &mut Cache<RandomState>,
    name: &str,
    config: &Config,
) -> Result<(bool, u128)> {
    let name = Name::from_text(rt.alloc(), name)?;
    let mut slot = LookUpSlot::new();
    let mut least = u128::MAX;
    let mut answered = false;
    for _ in 0..ROUNDS {
        let started = Instant::now(rt)?;
        for _ in 0..CALLS {
            answered = answer(cache, &mut slot, &name, config);
        }
        least = least.min(each(rt, &started, CALLS)?);
    }
    Ok((answered, least))
}

/// Prints what look-ups of names cost, time and again.
fn measure_names(
    rt: &HostRuntime,
    held: &str,
    cache: &mut Cache<RandomState>,
    config: &Config,
) -> Result<()> {
    for (what, name) in &NAMES {
        let (answered, took) = of_name(rt, cache, name, config)?;
        println!(rt; "look-up, {held}: {what}: answered {answered}, {took} ns")?;
    }
    Ok(())
}

/// Prints what it costs to offer to a full cache.
fn measure_offers(rt: &HostRuntime, cache: &mut Cache<RandomState>) -> Result<()> {
    let alloc = rt.alloc();
    let mut pieces = Vec::new(alloc);
    for number in MANY..MANY + CALLS {
        pieces.push(addresses(alloc, numbered(alloc, number)?)?)?;
    }
    let started = Instant::now(rt)?;
    for piece in pieces {
        let _ = cache.offer(piece, 1000);
    }
    let took = each(rt, &started, CALLS)?;
    println!(rt; "an offer to a full cache: {took} ns")?;
    Ok(())
}

/// Prints what it costs to show a name.
fn measure_shown(rt: &HostRuntime, cache: &mut Cache<RandomState>) -> Result<()> {
    let name = Name::from_text(rt.alloc(), "a.gone.example.net")?;
    let started = Instant::now(rt)?;
    for _ in 0..CALLS {
        shown(cache, &name, CLASS);
    }
    let took = each(rt, &started, CALLS)?;
    println!(rt; "a name is shown: {took} ns")?;
    Ok(())
}

/// Prints what it costs to clear a full cache.
fn measure_clearing(rt: &HostRuntime, cache: &mut Cache<RandomState>) -> Result<()> {
    let started = Instant::now(rt)?;
    cache.clear();
    let took = started.elapsed(rt)?.as_micros();
    println!(rt; "a full cache is cleared: {took} us")?;
    Ok(())
}

/// Prints what look-ups cost in a full cache, without name errors and with some, and what changes
/// cost.
pub fn measure(rt: &HostRuntime) -> Result<()> {
    let alloc = rt.alloc();
    let config = Config::read(alloc, alloc, CONFIG)?;
    let mut cache = full_cache(rt, MANY)?;
    measure_names(rt, "no name errors", &mut cache, &config)?;
    let _ = cache.offer(name_error(alloc, "e.d.c.b.a.example.org")?, 0);
    measure_names(rt, "one of seven labels", &mut cache, &config)?;
    let _ = cache.offer(name_error(alloc, "gone.example.net")?, 0);
    measure_names(rt, "and gone.example.net", &mut cache, &config)?;
    measure_offers(rt, &mut cache)?;
    measure_shown(rt, &mut cache)?;
    measure_clearing(rt, &mut cache)
}
