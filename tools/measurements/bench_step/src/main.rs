//! Measures what steps cost where many questions wait. `tools/bench` makes the messages and runs
//! it.
#![tactic(auto)]

mod many_wait;
mod open_queries;

use anyhow::Result;
use std::env;
use std::process::ExitCode;

const USAGE: &str = "usage: bench_step many_wait QUESTION REPLY, or bench_step open_queries";

/// Measures what these words ask for; `None` where they ask for nothing.
fn measure(rt: &HostRuntime, words: &[&str]) -> Result<Option<()>> {
    match words {
        ["many_wait", question, reply] => many_wait::measure(rt, question, reply)?,
        ["open_queries"] => open_queries::measure(rt)?,
        _ => return Ok(None),
    }
    Ok(Some(()))
}

/// Measures what the arguments ask for; `None` where they ask for nothing.
fn run(rt: &HostRuntime) -> Result<Option<()>> {
    let args: Vec<String> = env::args(rt)?.skip(1).collect(rt.alloc())?;
    let words: Vec<&str> = args.iter().map(String::as_str).collect(rt.alloc())?;
    measure(rt, words.as_slice())
}

fn main(rt: HostRuntime) -> ExitCode {
    match run(&rt) {
        Ok(Some(())) => ExitCode::SUCCESS,
        Ok(None) => {
            let _ = eprintln!(&rt; "{USAGE}");
            ExitCode::from(1)
        }
        Err(error) => {
            let _ = eprintln!(&rt; "{error}");
            ExitCode::from(2)
        }
    }
}
