//! The cost of viewing a message in place, of reading it whole, and of writing it: in time and in
//! allocations.

ghost use Rattle.dns_message.specs.Header.{FitsBits};

use crate::filling::{ADDRESS, CLASS, ROUNDS, numbered};
use anyhow::Result;
use dns_message::{Header, Message, MessageRef, Question, Rdata, Record, write};
use dns_name::NameKey;
use plain_values::{Octets, PlainList};
use refusing_allocator::Refusing;
use std::alloc::Global;
use std::time::Instant;

/// The most octets of a message.
const LARGEST: usize = 65_535;

/// The number of records that are viewed, read or written in a round.
const RECORDS: usize = 20_000;

/// An address that has this number at its end.
fn address(alloc: Global, number: usize) -> Result<Rdata> {
    let [high, low] = ((number % 65_536) as u16).to_be_bytes();
    Ok(Rdata::from_octets(alloc, &[198, 51, high, low])?)
}

/// `count` addresses of one name.
fn addresses(alloc: Global, count: usize) -> Result<PlainList<Record>> {
    let mut records = PlainList::new(alloc);
    for number in 0..count {
        records.push(Record {
            owner: numbered(alloc, 1)?,
            kind: ADDRESS,
            class: CLASS,
            ttl: 300,
            rdata: address(alloc, number)?,
        })?;
    }
    Ok(records)
}

/// The octets of a reply with `count` addresses of one name.
fn octets_of(alloc: Global, count: usize) -> Result<Octets<Global>> {
    let mut questions = PlainList::new(alloc);
    questions.push(Question {
        name: numbered(alloc, 1)?,
        kind: ADDRESS,
        class: CLASS,
    })?;
    let message = Message {
        header: Header {
            id: 0x1234,
            qr: true,
            opcode: 0,
            aa: false,
            tc: false,
            rd: true,
            ra: true,
            z: 0,
            rcode: 0,
            counts: [0; 4],
        },
        questions,
        answers: addresses(alloc, count)?,
        authority: PlainList::new(alloc),
        additional: PlainList::new(alloc),
    };
    Ok(write(alloc, &message, LARGEST)?)
}

/// Whether the question of the message has this key.
fn asks_for(octets: &[u8], key: &NameKey) -> Result<bool> {
    let view = MessageRef::view(octets)?;
    match view.question_ref() {
        Some(question) => Ok(question.key() == *key),
        None => Ok(false),
    }
}

/// Nanoseconds of one of `times` calls since a moment.
fn each(rt: &HostRuntime, started: &Instant, times: usize) -> Result<u128> {
    Ok(started.elapsed(rt)?.as_nanos() / (times as u128).max(1))
}

/// The least time of view and key, in nanoseconds.
fn time_of_looking(rt: &HostRuntime, octets: &[u8], times: usize) -> Result<u128> {
    let key = numbered(rt.alloc(), 1)?.key();
    let mut least = u128::MAX;
    for _ in 0..ROUNDS {
        let started = Instant::now(rt)?;
        for _ in 0..times {
            if !asks_for(octets, &key)? {
                return Ok(0);
            }
        }
        least = least.min(each(rt, &started, times)?);
    }
    Ok(least)
}

/// The number of records of the message, read whole.
fn count_read(alloc: Global, octets: &[u8]) -> Result<usize> {
    let message = MessageRef::view(octets)?.read_whole(alloc)?;
    Ok(message.answers.as_slice().len())
}

/// The least time of reading whole, in nanoseconds.
fn time_of_reading(rt: &HostRuntime, octets: &[u8], times: usize) -> Result<u128> {
    let mut least = u128::MAX;
    for _ in 0..ROUNDS {
        let started = Instant::now(rt)?;
        for _ in 0..times {
            if count_read(rt.alloc(), octets)? == 0 {
                return Ok(0);
            }
        }
        least = least.min(each(rt, &started, times)?);
    }
    Ok(least)
}

/// The number of octets that are written for the message.
fn count_written(alloc: Global, message: &Message) -> Result<usize>
    requires { FitsBits message.now.header }
{
    Ok(write(alloc, message, LARGEST)?.as_slice().len())
}

/// The least time of writing the message, in nanoseconds.
fn least_of_writing(rt: &HostRuntime, message: &Message, times: usize) -> Result<u128>
    requires { FitsBits message.now.header }
{
    let mut least = u128::MAX;
    for _ in 0..ROUNDS {
        let started = Instant::now(rt)?;
        for _ in 0..times {
            if count_written(rt.alloc(), message)? == 0 {
                return Ok(0);
            }
        }
        least = least.min(each(rt, &started, times)?);
    }
    Ok(least)
}

/// The least time of writing the message again that these octets are, in nanoseconds.
fn time_of_writing(rt: &HostRuntime, octets: &[u8], times: usize) -> Result<u128> {
    let message = MessageRef::view(octets)?.read_whole(rt.alloc())?;
    least_of_writing(rt, &message, times)
}

/// Whether the message can be read whole where `growths` allocations are granted.
fn is_read(heap: &Refusing<Global>, octets: &[u8], growths: u64) -> bool {
    heap.allow(growths);
    match MessageRef::view(octets) {
        Ok(view) => view.read_whole(heap).is_ok(),
        Err(_) => false,
    }
}

/// The number of allocations that reading the message whole takes, by binary search; fewer than
/// 65,536.
fn growths_of_reading(heap: &Refusing<Global>, octets: &[u8]) -> u64 {
    let mut low = 0u64;
    let mut high = 65_536u64;
    for _ in 0..17 {
        let middle = low.saturating_add(high) / 2;
        if is_read(heap, octets, middle) {
            high = middle;
        } else {
            low = middle.saturating_add(1).min(high);
        }
    }
    high
}

/// Prints the cost of the reply with `count` records.
fn measure_one(rt: &HostRuntime, heap: &Refusing<Global>, count: usize) -> Result<()> {
    let octets = octets_of(rt.alloc(), count)?;
    let octets = octets.as_slice();
    let times = (RECORDS / count.max(1)).max(1);
    let looked = time_of_looking(rt, octets, RECORDS)?;
    let read = time_of_reading(rt, octets, times)?;
    let written = time_of_writing(rt, octets, times)?;
    let growths = growths_of_reading(heap, octets);
    println!(rt;
        "{count} records: view and key {looked} ns, read whole {read} ns with {growths} growths, written {written} ns"
    )?;
    Ok(())
}

/// Prints what replies of 1 to 4,000 records cost.
pub fn measure(rt: &HostRuntime) -> Result<()> {
    let heap = Refusing::new(rt.alloc());
    for count in [1, 4, 30, 4000] {
        measure_one(rt, &heap, count)?;
    }
    Ok(())
}
