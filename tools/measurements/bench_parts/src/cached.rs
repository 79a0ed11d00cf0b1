//! The cost of a cached answer, from the octets of a question to the octets of its answer.

ghost use Rattle.std.specs.Prelude.{◌≤◌};

use crate::filling::{MANY, ROUNDS, addresses, full_cache, held_of, numbered, slots_of};
use answer_builder::{AskedRef, Sections, Transport};
use anyhow::Result;
use dns_message::{Header, MessageRef, QuestionRef};
use dns_name::Name;
use lru::LruCache;
use negative_cache::{CacheAt, Found};
use record_cache::{Cache, Held, LookUpSlot};
use std::alloc::Global;
use std::hash::RandomState;
use std::num::NonZeroUsize;
use std::time::Instant;
use suffix_routes::{Config, RouteId};
use trust_rank::{Piece, Slot, pieces};

/// The moment of all look-ups.
const NOW: u64 = 1000;

/// The number of calls that are timed together.
const CALLS: usize = 65_536;

/// `count` routes, each name asked here on the first.
fn routes(alloc: Global, count: usize) -> Result<Config> {
    let mut text = format!(in alloc;
        "version = 1\n[[route]]\nsuffix = \".\"\nservers = [\"192.0.2.1:53\"]\n"
    )?;
    for number in 1..count {
        let more = format!(in alloc;
            "[[route]]\nsuffix = \"branch{number}.example\"\nservers = [\"192.0.2.1:53\"]\n"
        )?;
        text.push_str(more.as_str())?;
    }
    Ok(Config::read(alloc, alloc, text.as_str())?)
}

/// The octets that each question takes.
const ROOM: usize = 64;

/// The zeros that fill the room of a question.
const ZEROS: [u8; ROOM] = [0; ROOM];

/// Puts a question for the addresses of a name last, with zeros after it. Questions follow one
/// another in the order in which they are asked, so that their octets are in the processor's cache,
/// as those are that a service has just received.
fn put_question(octets: &mut Vec<u8>, name: &Name) -> Result<()> {
    octets.extend_from_slice(b"\x12\x34\x01\x00\x00\x01\x00\x00\x00\x00\x00\x00")?;
    octets.extend_from_slice(name.octets())?;
    octets.extend_from_slice(b"\x00\x00\x01\x00\x01")?;
    let begun = octets.len() % ROOM;
    octets.extend_from_slice(&ZEROS[begun..])?;
    Ok(())
}

/// Writes the answer to a question, from one entry.
fn write_answer(
    alloc: Global,
    text: &mut Vec<u8>,
    header: Header,
    question: QuestionRef<'_>,
    held: &Held,
) -> Result<()>
    requires { held.now.accepted ≤ 1000 }
{
    let asked = AskedRef {
        id: header.id,
        opcode: 0,
        rd: header.rd,
        question: Some(question),
    };
    let sections = Sections::answer(alloc, &[held], NOW)?;
    sections.put(alloc, text, asked, Transport::Udp)?;
    Ok(())
}

/// What one answer after another is made in.
#[derive(Drop)]
struct Room {
    /// The slot of a look-up.
    slot: LookUpSlot,
    /// The octets of an answer.
    text: Vec<u8>,
}

impl Room {
    /// Room for an answer of 512 octets.
    fn new(alloc: Global) -> Result<Room> {
        Ok(Room {
            slot: LookUpSlot::new(),
            text: Vec::with_capacity(alloc, 512)?,
        })
    }
}

/// Writes the answer to a question from the cache, and promotes what it used; whether there is one.
fn answer(
    alloc: Global,
    cache: &mut Cache<RandomState>,
    config: &Config,
    octets: &[u8],
    room: &mut Room,
) -> Result<bool> {
    let view = MessageRef::view(octets)?;
    let Some(question) = view.question_ref() else {
        return Ok(false);
    };
    let at = CacheAt {
        cache,
        config,
        moment: NOW,
    };
    match at.find(&mut room.slot, &question) {
        Found::Rows(held) | Found::Denied(held) if held.accepted <= NOW => {
            write_answer(alloc, &mut room.text, view.header(), question, held)?;
        }
        _ => return Ok(false),
    }
    cache.promote_found(&room.slot);
    Ok(true)
}

/// Writes the answer to a question from `held`, if its name has the key of that entry; whether it
/// has.
fn answer_from(alloc: Global, held: &Held, octets: &[u8], room: &mut Room) -> Result<bool> {
    let view = MessageRef::view(octets)?;
    let Some(question) = view.question_ref() else {
        return Ok(false);
    };
    let slot = &mut room.slot;
    slot.set(question.name(), question.class(), Some(question.kind()));
    if slot.key().octets() != held.piece.owner.octets() || held.accepted > NOW {
        return Ok(false);
    }
    write_answer(alloc, &mut room.text, view.header(), question, held)?;
    Ok(true)
}

/// The number of times that `questions` questions are asked in a round.
fn times_of(questions: usize) -> usize {
    CALLS / questions.max(1)
}

/// Nanoseconds a call, of `times` times `questions` calls since a moment.
fn each(rt: &HostRuntime, started: &Instant, times: usize, questions: usize) -> Result<u128> {
    let calls = (times as u128).saturating_mul(questions as u128).max(1);
    Ok(started.elapsed(rt)?.as_nanos() / calls)
}

/// The number of answers that a round gives to the questions, and the least time of one, in
/// nanoseconds.
fn time_of(
    rt: &HostRuntime,
    cache: &mut Cache<RandomState>,
    config: &Config,
    questions: &[u8],
) -> Result<(usize, u128)> {
    let alloc = rt.alloc();
    let mut room = Room::new(alloc)?;
    let count = questions.len() / ROOM;
    let times = times_of(count);
    let mut least = u128::MAX;
    let mut answers = 0usize;
    for _ in 0..ROUNDS {
        answers = 0;
        let started = Instant::now(rt)?;
        for _ in 0..times {
            for octets in questions.chunks_exact(ROOM) {
                if answer(alloc, cache, config, octets, &mut room)? {
                    answers = answers.saturating_add(1);
                }
            }
        }
        least = least.min(each(rt, &started, times, count)?);
    }
    Ok((answers, least))
}

/// The least time of a bare `peek` and `promote` of each slot, in nanoseconds.
fn time_of_bare<V>(
    rt: &HostRuntime,
    map: &mut LruCache<Slot, V, RandomState>,
    slots: &[Slot],
) -> Result<u128> {
    let times = times_of(slots.len());
    let mut least = u128::MAX;
    for _ in 0..ROUNDS {
        let started = Instant::now(rt)?;
        for _ in 0..times {
            for slot in slots {
                if map.peek(slot).is_some() {
                    map.promote(slot);
                }
            }
        }
        least = least.min(each(rt, &started, times, slots.len())?);
    }
    Ok(least)
}

/// The slot of an entry.
fn slot_in(held: &Held) -> Slot {
    held.piece.slot()
}

/// Puts the entries with the first `count` numbers into a bare `lru`.
fn fill(alloc: Global, map: &mut LruCache<Slot, Held, RandomState>, count: usize) -> Result<()> {
    for number in 0..count {
        let held = held_of(alloc, number)?;
        let slot = slot_in(&held);
        let _ = map.push(slot, held);
    }
    Ok(())
}

/// Prints what a bare `lru` of the cache's types costs.
fn measure_bare(rt: &HostRuntime, room: NonZeroUsize, slots: &[Slot]) -> Result<()> {
    let mut map = LruCache::with_hasher(rt.alloc(), room, RandomState::new(rt)?)?;
    fill(rt.alloc(), &mut map, slots.len())?;
    let took = time_of_bare(rt, &mut map, slots)?;
    println!(rt; "{} entries, lru of the types: {took} ns", slots.len())?;
    Ok(())
}

/// Prints what a bare `lru` of numbers costs.
fn measure_numbers(rt: &HostRuntime, room: NonZeroUsize, slots: &[Slot]) -> Result<()> {
    let alloc = rt.alloc();
    let mut map = LruCache::with_hasher(alloc, room, RandomState::new(rt)?)?;
    for slot in slots {
        map.push(*slot, 0u64)?;
    }
    let took = time_of_bare(rt, &mut map, slots)?;
    println!(rt; "{} entries, lru of numbers: {took} ns", slots.len())?;
    Ok(())
}

/// A question for each of the names with the first `count` numbers; consecutive ones are far apart.
fn questions_of(alloc: Global, count: usize) -> Result<Vec<u8>> {
    let mut questions = Vec::new(alloc);
    for number in 0..count {
        let far = number.wrapping_mul(40_503) % count.max(1);
        put_question(&mut questions, &numbered(alloc, far)?)?;
    }
    Ok(questions)
}

/// Prints the cost of a cached answer to each of `count` names.
fn measure_hits(rt: &HostRuntime, config: &Config, count: usize) -> Result<()> {
    let questions = questions_of(rt.alloc(), count)?;
    let mut cache = full_cache(rt, count)?;
    let (answers, took) = time_of(rt, &mut cache, config, &questions)?;
    println!(rt; "{count} entries: {answers} answers, {took} ns")?;
    Ok(())
}

/// A question for one name.
fn question_for(alloc: Global, name: &str) -> Result<Vec<u8>> {
    let mut questions = Vec::new(alloc);
    put_question(&mut questions, &Name::from_text(alloc, name)?)?;
    Ok(questions)
}

/// Prints what the answer to one name costs, time and again.
fn measure_name(
    rt: &HostRuntime,
    cache: &mut Cache<RandomState>,
    config: &Config,
    name: &str,
) -> Result<()> {
    let questions = question_for(rt.alloc(), name)?;
    let (answers, took) = time_of(rt, cache, config, &questions)?;
    println!(rt;
        "{} routes: {name}: {answers} answers, {took} ns",
        config.routes().len()
    )?;
    Ok(())
}

/// Names with sets, of three to seven labels.
const HELD: [&str; 5] = [
    "host7.some-example.com",
    "a.host7.some-example.com",
    "b.a.host7.some-example.com",
    "c.b.a.host7.some-example.com",
    "d.c.b.a.host7.some-example.com",
];

/// A name with a name error, and names below it.
const DENIED: [&str; 5] = [
    "gone.example.net",
    "a.gone.example.net",
    "b.a.gone.example.net",
    "c.b.a.gone.example.net",
    "d.c.b.a.gone.example.net",
];

/// A cache of 1,000 names, those with sets, and the name error.
fn cache_with_denial(rt: &HostRuntime, config: &Config) -> Result<Cache<RandomState>> {
    let mut cache = full_cache(rt, 1000)?;
    for name in &HELD {
        let owner = Name::from_text(rt.alloc(), name)?;
        let _ = cache.offer(addresses(rt.alloc(), owner)?, 0);
    }
    offer_name_error(rt.alloc(), &mut cache, config)?;
    Ok(cache)
}

/// Prints the cost of answers at and below a name error, next to that of sets of names with as many
/// labels.
fn measure_denials(rt: &HostRuntime, config: &Config) -> Result<()> {
    let mut cache = cache_with_denial(rt, config)?;
    for name in HELD.iter().chain(&DENIED) {
        measure_name(rt, &mut cache, config, name)?;
    }
    Ok(())
}

/// A reply that `gone.example.net` is not there, with the SOA of `example.net`.
const GONE: &[u8] =
    b"\x12\x34\x85\x83\x00\x01\x00\x00\x00\x01\x00\x00\x04gone\x07example\x03net\x00\x00\x01\x00\x01\xc0\x11\x00\x06\x00\x01\x00\x00\x0e\x10\x00\x27\x03ns1\xc0\x11\x0ahostmaster\xc0\x11\x00\x00\x00\x01\x00\x00\x0e\x10\x00\x00\x0e\x10\x00\x00\x0e\x10\x00\x00\x0e\x10";

/// Offers the name error of that reply.
fn offer_name_error(alloc: Global, cache: &mut Cache<RandomState>, config: &Config) -> Result<()> {
    for piece in pieces_of(alloc, config)? {
        let _ = cache.offer(piece, 0);
    }
    Ok(())
}

/// The pieces of that reply.
fn pieces_of(alloc: Global, config: &Config) -> Result<Vec<Piece>> {
    let view = MessageRef::view(GONE)?;
    let question = view.question(alloc)?;
    let message = view.read_whole(alloc)?;
    let walk = pieces(alloc, &message, &question, RouteId { place: 0 }, config)?;
    Ok(walk.pieces.into_vec())
}

/// The number of `CALLS` calls that give an answer from `held`.
fn answers_from(alloc: Global, held: &Held, octets: &[u8], room: &mut Room) -> Result<usize> {
    let mut answers = 0usize;
    for _ in 0..CALLS {
        if answer_from(alloc, held, octets, room)? {
            answers = answers.saturating_add(1);
        }
    }
    Ok(answers)
}

/// The number of answers that a round gives from one entry, and the least time of one, in
/// nanoseconds.
fn time_of_text(rt: &HostRuntime, held: &Held, octets: &[u8]) -> Result<(usize, u128)> {
    let mut room = Room::new(rt.alloc())?;
    let mut least = u128::MAX;
    let mut answers = 0usize;
    for _ in 0..ROUNDS {
        let started = Instant::now(rt)?;
        answers = answers_from(rt.alloc(), held, octets, &mut room)?;
        least = least.min(each(rt, &started, CALLS, 1)?);
    }
    Ok((answers, least))
}

/// The octets of a question for the name with this number.
fn question_numbered(alloc: Global, number: usize) -> Result<Vec<u8>> {
    let mut octets = Vec::new(alloc);
    put_question(&mut octets, &numbered(alloc, number)?)?;
    Ok(octets)
}

/// The number of answers without a look-up, and the time of one in nanoseconds: the question's
/// octets, its key, the answer's octets.
fn time_without_look_up(rt: &HostRuntime) -> Result<(usize, u128)> {
    let octets = question_numbered(rt.alloc(), 1)?;
    let held = held_of(rt.alloc(), 1)?;
    time_of_text(rt, &held, octets.as_slice())
}

/// Prints the cost of an answer without a look-up.
fn measure_text(rt: &HostRuntime) -> Result<()> {
    let (answers, took) = time_without_look_up(rt)?;
    println!(rt; "without a look-up: {answers} answers, {took} ns")?;
    Ok(())
}

/// Prints the cost of cached answers to `count` names, and of a bare `lru`.
fn measure_many(rt: &HostRuntime, config: &Config, room: NonZeroUsize, count: usize) -> Result<()> {
    let slots = slots_of(rt.alloc(), count)?;
    measure_bare(rt, room, &slots)?;
    measure_numbers(rt, room, &slots)?;
    measure_hits(rt, config, count)
}

/// Prints what cached answers cost.
pub fn measure(rt: &HostRuntime) -> Result<()> {
    let Some(room) = NonZeroUsize::new(MANY) else {
        return Ok(());
    };
    let one = routes(rt.alloc(), 1)?;
    for count in [10, 1000, 10_000, MANY] {
        measure_many(rt, &one, room, count)?;
    }
    for count in [1, 8, 64] {
        measure_denials(rt, &routes(rt.alloc(), count)?)?;
    }
    measure_text(rt)
}
