#!/bin/bash
# Times `twins` and `joined`, with the proved build.
#
#   bench/twins.sh
#
# Circuits of one input and 10,000 and 100,000 latches: in one chain whose last latch takes the input, listed from
# either end, and all taking the input itself, so that they are equal. The nanoseconds for a latch stay.
#
# A program crate is made in a temporary repository beside copies of the crates that it stands on.
set -eu
. "$(dirname "$0")/repository.sh"
repository tm_bits tm_circuit tm_parts tm_twins
program_crate twin_times tm_bits tm_circuit tm_twins
naming_module

cat >"$bench/src/main.rt" <<'END'
//! Times `twins` and `joined` on circuits of many latches.
//! Each row says how the latches lie and how many there are,
//! and how many nanoseconds each of the two calls takes for a latch.
#![tactic(auto)]

mod naming;

use naming::name;
use std::alloc::{AllocError, Global};
use std::io;
use std::rt::Clock;
use std::time::Instant;
use tm_circuit::{Circuit, LatchPart, Parts, Signal};
use tm_twins::{joined, twins};

/// How the latches take one another.
#[derive(Clone, Copy)]
enum Shape {
    /// Each takes the one before it.
    Up,
    /// Each takes the one after it.
    Down,
    /// Each takes the input.
    Equal,
}

/// The circuit of one input and so many latches.
fn circuit(alloc: Global, shape: Shape, latches: u32) -> Result<Option<Circuit>, AllocError> {
    let mut parts = Parts {
        model: name(alloc, 0)?,
        clock: None,
        inputs: Vec::new(alloc),
        latches: Vec::new(alloc),
        gates: Vec::new(alloc),
        outputs: Vec::new(alloc),
    };
    parts.inputs.push(name(alloc, 0)?)?;
    for place in 0..latches {
        let next = match shape {
            Shape::Up => place,
            Shape::Down => place.saturating_add(2) % latches.saturating_add(1),
            Shape::Equal => 0,
        };
        parts.latches.push(LatchPart {
            name: name(alloc, place.saturating_add(1))?,
            next: Signal(next),
            init: false,
        })?;
    }
    Ok(Circuit::build(alloc, parts).ok())
}

/// The nanoseconds that the two calls take.
fn times<R: Clock + Alloc + AllocGlobal>(rt: &R, circuit: &Circuit) -> io::Result<(u64, u64)> {
    let start = Instant::now(rt)?;
    let found = twins(rt.alloc(), circuit).is_ok();
    let middle = start.elapsed(rt)?;
    let made = joined(rt.alloc(), circuit).is_ok();
    let end = start.elapsed(rt)?;
    if !found || !made {
        return Ok((0, 0));
    }
    let first = u64::try_from(middle.as_nanos()).unwrap_or(0);
    let both = u64::try_from(end.as_nanos()).unwrap_or(0);
    Ok((first, both.saturating_sub(first)))
}

fn main(rt: HostRuntime) -> io::Result<()> {
    for (shape, text) in [
        (Shape::Up, "one chain, up"),
        (Shape::Down, "one chain, down"),
        (Shape::Equal, "equal"),
    ] {
        for latches in [10_000u32, 100_000] {
            let Ok(Some(circuit)) = circuit(rt.alloc(), shape, latches) else {
                return Ok(());
            };
            let (mut twins, mut joined) = (u64::MAX, u64::MAX);
            for _ in 0..5u32 {
                let (first, second) = times(&rt, &circuit)?;
                twins = twins.min(first);
                joined = joined.min(second);
            }
            let each = u64::from(latches).max(1);
            let (twins, joined) = (twins / each, joined / each);
            println!(rt; "{text}: {latches} latches, twins {twins} ns and joined {joined} ns a latch")?;
        }
    }
    Ok(())
}
END
cd "$bench"
rt fmt >/dev/null
if [ "${1:-}" = try ]; then rt try; else rt run; fi
