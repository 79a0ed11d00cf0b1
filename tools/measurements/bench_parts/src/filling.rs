//! The contents of caches.

ghost use Rattle.std.specs.Prelude.{◌≢◌, []};

use anyhow::Result;
use dns_message::Rdata;
use dns_name::Name;
use plain_values::PlainList;
use record_cache::{Cache, Held};
use std::alloc::Global;
use std::hash::RandomState;
use suffix_routes::RouteId;
use trust_rank::{Body, Piece, Rows, Slot};

/// The most entries that a configuration allows.
pub const MANY: usize = 65_536;

/// The number of rounds of which the least time is taken.
pub const ROUNDS: u32 = 10;

/// The class IN.
pub const CLASS: u16 = 1;

/// The type A.
pub const ADDRESS: u16 = 1;

/// The name with this number; below 90,000 each has as many octets, so that many names cost no more
/// than few for their length.
pub fn numbered(alloc: Global, number: usize) -> Result<Name> {
    let digits = number.saturating_add(10_000);
    let text = format!(in alloc; "host{digits}.some-example.com")?;
    Ok(Name::from_text(alloc, text.as_str())?)
}

/// The addresses of a name for a day: one of them.
pub fn addresses(alloc: Global, owner: Name) -> Result<Piece> {
    let mut rows = PlainList::new(alloc);
    rows.push(Rdata::from_octets(alloc, b"\xc6\x33\x64\x05")?)?;
    Ok(set_of(owner, Rows::from_list(rows)))
}

fn set_of(owner: Name, rows: Rows) -> Piece
    requires { rows ≢ [] }
{
    Piece {
        owner,
        class: CLASS,
        kind: Some(ADDRESS),
        body: Body::Rows(rows),
        lifetime: 86_400,
        rank: 3,
        route: RouteId { place: 0 },
    }
}

/// A name error for a day, without SOA.
pub fn name_error(alloc: Global, name: &str) -> Result<Piece> {
    let owner = Name::from_text(alloc, name)?;
    Ok(Piece {
        owner,
        class: CLASS,
        kind: None,
        body: Body::Denied(None),
        lifetime: 86_400,
        rank: 3,
        route: RouteId { place: 0 },
    })
}

/// An entry of the name with this number.
pub fn held_of(alloc: Global, number: usize) -> Result<Held> {
    Ok(Held {
        piece: addresses(alloc, numbered(alloc, number)?)?,
        accepted: 0,
    })
}

/// A cache with `count` sets.
pub fn full_cache(rt: &HostRuntime, count: usize) -> Result<Cache<RandomState>> {
    let alloc = rt.alloc();
    let mut cache = Cache::new(alloc, MANY, RandomState::new(rt)?)?;
    for number in 0..count {
        let _ = cache.offer(addresses(alloc, numbered(alloc, number)?)?, 0);
    }
    Ok(cache)
}

/// The slots of its names; consecutive ones are far apart.
pub fn slots_of(alloc: Global, count: usize) -> Result<Vec<Slot>> {
    let mut slots = Vec::new(alloc);
    for number in 0..count {
        let far = number.wrapping_mul(40_503) % count.max(1);
        slots.push(Slot {
            key: numbered(alloc, far)?.key(),
            class: CLASS,
            kind: Some(ADDRESS),
        })?;
    }
    Ok(slots)
}
