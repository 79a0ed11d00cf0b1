//! Measures what messages, what replies carry, and cached answers cost, by the calls that steps
//! make. `tools/bench` makes the messages and runs it.
#![tactic(auto)]

mod cached;
mod carried;
mod filling;
mod look_ups;
mod messages;

use anyhow::Result;
use std::env;
use std::process::ExitCode;

const USAGE: &str =
    "usage: bench_parts carried REPLY, bench_parts messages, or bench_parts look_ups";

/// Measures what these words ask for; `None` where they ask for nothing.
fn measure(rt: &HostRuntime, words: &[&str]) -> Result<Option<()>> {
    match words {
        ["carried", reply] => carried::measure(rt, reply)?,
        ["messages"] => messages::measure(rt)?,
        ["look_ups"] => {
            cached::measure(rt)?;
            look_ups::measure(rt)?;
        }
        _ => return Ok(None),
    }
    Ok(Some(()))
}

/// Measures what the arguments ask for; `None` where they ask for nothing.
fn run(rt: &HostRuntime) -> Result<Option<()>> {
    let args: Vec<String> = env::args(rt)?.skip(1).collect(rt.alloc())?;
    let words: Vec<&str> = args.iter().map(String::as_str).collect(rt.alloc())?;
    measure(rt, words.as_slice())
}

fn main(rt: HostRuntime) -> ExitCode {
    match run(&rt) {
        Ok(Some(())) => ExitCode::SUCCESS,
        Ok(None) => {
            let _ = eprintln!(&rt; "{USAGE}");
            ExitCode::from(1)
        }
        Err(error) => {
            let _ = eprintln!(&rt; "{error}");
            ExitCode::from(2)
        }
    }
}
