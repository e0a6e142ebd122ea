#!/bin/bash
# Times the settling of labels on sample circuits, with the proved build.
#
#   bench/labels.sh
#
# Circuits as in the sample texts of bench/map.py, of 1,000 to 20,000 gates, are settled at K 4 and 6 and D 0, 2 and 8, at the
# least period and at the one below. Each row has the microseconds and the drops of the two settlings of the gates that lead to
# an output, and those of the two settlings of all gates with the searches made, in all and for each gate; before them stand the
# microseconds of the search for the period as a whole. At the end stand the exponents of the times over the sizes.
# Then come loops with a register, whose gates have side inputs behind nine registers each, at one below the least period.
#
# A program crate is made in a temporary repository beside copies of the crates that it stands on.
set -eu
. "$(dirname "$0")/repository.sh"
repository tm_bits tm_circuit tm_flow tm_unroll tm_replay tm_merge tm_inherit tm_labels tm_cover tm_search
program_crate label_times tm_bits tm_circuit tm_unroll tm_replay tm_merge tm_labels tm_search smallvec
naming_module

cat >"$bench/src/main.rt" <<'END'
//! Times settlings of sample circuits and of loops.
//! Each row says what is settled, and the microseconds and drops of each settling.
//! A row of zeros stands for want of memory.
#![tactic(auto)]

mod circuits;
mod naming;

use circuits::{looped, sample};
use std::alloc::Global;
use std::io;
use std::rt::Clock;
use std::time::Instant;
use tm_bits::NoMemory;
use tm_circuit::Circuit;
use tm_labels::{Settled, Work, settle_outputs};
use tm_search::{Least, least_for_outputs};

/// What is settled: for tables of `k` leaves at most, lags of `d` steps at most, and a target.
#[derive(Clone, Copy)]
struct Task {
    k: u8,
    d: u8,
    target: u32,
}

/// What a settling made.
#[derive(Clone, Copy)]
struct Counts {
    drops: usize,
    searches: u64,
}

fn fits(circuit: &Circuit, task: &Task) -> bool
    ensures { IsTrue result → FitsTask circuit.now task.now.k task.now.d task.now.target }
{
    2 <= task.k
        && task.k <= 8
        && task.d <= 8
        && circuit.widest() <= u32::from(task.k)
        && task.target <= 100_000
        && circuit.signals() <= 100_000
}

fn settled_outputs(alloc: Global, circuit: &Circuit, task: &Task) -> Result<Option<Settled>, NoMemory> {
    if !fits(circuit, task) {
        return Ok(None);
    }
    Ok(Some(settle_outputs(alloc, 0, circuit, task.k, task.d, task.target)?))
}

fn settled_all(alloc: Global, circuit: &Circuit, task: &Task) -> Result<Option<Counts>, NoMemory> {
    if !fits(circuit, task) {
        return Ok(None);
    }
    let mut work = Work::new(alloc, circuit, task.k, task.d, task.target)?;
    for _ in 0..u64::MAX {
        if !work.turn()? {
            break;
        }
    }
    Ok(Some(Counts {
        drops: work.drops().len(),
        searches: work.searches(),
    }))
}

fn least(alloc: Global, circuit: &Circuit, task: &Task) -> Result<Option<Least>, NoMemory> {
    if !fits(circuit, task) {
        return Ok(None);
    }
    Ok(Some(least_for_outputs(alloc, 0, circuit, task.k, task.d)?))
}

fn drops_of(found: &Result<Option<Settled>, NoMemory>) -> usize {
    match found {
        Ok(Some(settled)) => settled.drops().len(),
        Ok(None) | Err(_) => 0,
    }
}

fn micros<R: Clock>(rt: &R, start: Instant) -> io::Result<u128> {
    Ok(start.elapsed(rt)?.as_micros())
}

fn outputs_row<R: Clock + Print + Alloc + AllocGlobal>(rt: &R, circuit: &Circuit, task: &Task) -> io::Result<()> {
    let start = Instant::now(rt)?;
    let found = settled_outputs(rt.alloc(), circuit, task);
    let time = micros(rt, start)?;
    let drops = drops_of(&found);
    let target = task.target;
    println!(rt; "  outputs at {target}: {time} us, {drops} drops")
}

fn all_row<R: Clock + Print + Alloc + AllocGlobal>(rt: &R, circuit: &Circuit, task: &Task) -> io::Result<()> {
    let start = Instant::now(rt)?;
    let found = settled_all(rt.alloc(), circuit, task);
    let time = micros(rt, start)?;
    let (drops, searches) = match found {
        Ok(Some(counts)) => (counts.drops, counts.searches),
        Ok(None) | Err(_) => (0, 0),
    };
    let hundredths = searches.saturating_mul(100) / u64::from(circuit.gates()).max(1);
    let target = task.target;
    println!(rt; "  all at {target}: {time} us, {drops} drops, {searches} searches, {hundredths} for 100 gates")
}

fn rows<R: Clock + Print + Alloc + AllocGlobal>(rt: &R, circuit: &Circuit, k: u8, d: u8) -> io::Result<()> {
    let start = Instant::now(rt)?;
    let found = least(rt.alloc(), circuit, &Task { k, d, target: 0 });
    let time = micros(rt, start)?;
    let period = match &found {
        Ok(Some(least)) => least.period,
        Ok(None) | Err(_) => 0,
    };
    let signals = circuit.signals();
    println!(rt; "{signals} signals K {k} D {d}: least period {period}, {time} us")?;
    let below = period.saturating_sub(1);
    outputs_row(rt, circuit, &Task { k, d, target: period })?;
    outputs_row(rt, circuit, &Task { k, d, target: below })?;
    all_row(rt, circuit, &Task { k, d, target: period })?;
    all_row(rt, circuit, &Task { k, d, target: below })
}

fn main(rt: HostRuntime) -> io::Result<()> {
    for gates in [1_000u32, 5_000, 20_000] {
        let Ok(Some(circuit)) = sample(rt.alloc(), gates) else {
            return Ok(());
        };
        for (k, d) in [(4u8, 0u8), (4, 2), (4, 8), (6, 0), (6, 2), (6, 8)] {
            rows(&rt, &circuit, k, d)?;
        }
    }
    for (gates, period) in [(200u32, 67u32), (400, 134)] {
        let Ok(Some(circuit)) = looped(rt.alloc(), gates, 9) else {
            return Ok(());
        };
        println!(&rt; "loop of {gates} gates")?;
        all_row(&rt, &circuit, &Task { k: 4, d: 8, target: period.saturating_sub(1) })?;
    }
    Ok(())
}
END

cat >"$bench/specs/Tasks.antt" <<'END'
-- What a settling may be asked for.
use Rattle.std.specs.Prelude.{ℕ, ◌≤◌, length}
use Rattle.tm_circuit.specs.Plain.{Plain, widest}

pub record FitsTask (c : Plain) (k d target : ℕ) : Type 0 where
  pub some : 2 ≤ k
  pub few : k ≤ 8
  pub near : d ≤ 8
  pub narrow : widest c.drives ≤ k
  pub target_low : target ≤ 100000
  pub signals : length c.drives ≤ 100000
END
echo "pub mod Tasks" >"$bench/specs/Lib.antt"
python3 - "$bench/src/main.rt" <<'END'
import sys

path = sys.argv[1]
text = open(path).read()
uses = "ghost use Rattle.std.specs.Prelude.{IsTrue};\nghost use Rattle.label_times.specs.Tasks.{FitsTask};\n\n"
open(path, "w").write(text.replace("mod circuits;\n", uses + "mod circuits;\n", 1))
END

cat >"$bench/src/circuits.rt" <<'END'
// Circuits to be settled.

use crate::naming::name;
use smallvec::SmallVec;
use std::alloc::{AllocError, Global};
use tm_bits::{Cover, NoMemory};
use tm_circuit::{Circuit, GatePart, LatchPart, Name, Parts, Signal};

fn names(alloc: Global, count: u32) -> Result<Vec<Name>, AllocError> {
    let mut names = Vec::new(alloc);
    for number in 0..count {
        names.push(name(alloc, number)?)?;
    }
    Ok(names)
}

fn gate(alloc: Global, number: u32, first: u32, second: u32) -> Result<Option<GatePart>, NoMemory> {
    let mut pins = SmallVec::new(alloc);
    pins.push(Signal(first))?;
    pins.push(Signal(second))?;
    let name = name(alloc, number)?;
    match Cover::new(true, Vec::new(alloc)) {
        None => Ok(None),
        Some(cover) => Ok(Some(GatePart { name, pins, cover })),
    }
}

fn latch(alloc: Global, number: u32, next: u32) -> Result<LatchPart, AllocError> {
    Ok(LatchPart {
        name: name(alloc, number)?,
        next: Signal(next),
        init: false,
    })
}

fn parts(alloc: Global, inputs: u32) -> Result<Parts, AllocError> {
    Ok(Parts {
        model: name(alloc, 0)?,
        clock: None,
        inputs: names(alloc, inputs)?,
        latches: Vec::new(alloc),
        gates: Vec::new(alloc),
        outputs: Vec::new(alloc),
    })
}

/// The sample circuit of so many gates.
pub fn sample(alloc: Global, gates: u32) -> Result<Option<Circuit>, NoMemory> {
    let mut parts = parts(alloc, 8)?;
    let latches = gates / 4;
    let before = latches.saturating_add(8);
    for place in 0..latches {
        let next = place.saturating_mul(4).saturating_add(3).saturating_add(before);
        parts.latches.push(latch(alloc, place.saturating_add(8), next)?)?;
    }
    let mut drawn = gates % 65537;
    for place in 0..gates {
        let mut draws = [0u32; 2];
        for draw in draws.iter_mut() {
            drawn = (75 * (drawn % 65537) + 74) % 65537;
            *draw = drawn % before.saturating_add(place).max(1);
        }
        drawn = (75 * (drawn % 65537) + 74) % 65537;
        let Some(part) = gate(alloc, before.saturating_add(place), draws[0], draws[1])? else {
            return Ok(None);
        };
        parts.gates.push(part)?;
    }
    for place in gates.saturating_sub(8)..gates {
        parts.outputs.push(Signal(before.saturating_add(place)))?;
    }
    Ok(Circuit::build(alloc, parts).ok())
}

/// A loop of so many gates with one register, each with an input of its own that comes through so many registers.
pub fn looped(alloc: Global, gates: u32, registers: u32) -> Result<Option<Circuit>, NoMemory> {
    let mut parts = parts(alloc, gates)?;
    let side = gates.saturating_mul(registers);
    let first_gate = gates.saturating_add(side).saturating_add(1);
    for place in 0..side {
        parts.latches.push(latch(alloc, gates.saturating_add(place), place)?)?;
    }
    let last_gate = first_gate.saturating_add(gates).saturating_sub(1);
    parts.latches.push(latch(alloc, gates.saturating_add(side), last_gate)?)?;
    for place in 0..gates {
        let number = first_gate.saturating_add(place);
        let input = side.saturating_add(place);
        let Some(part) = gate(alloc, number, number.saturating_sub(1), input)? else {
            return Ok(None);
        };
        parts.gates.push(part)?;
    }
    parts.outputs.push(Signal(last_gate))?;
    Ok(Circuit::build(alloc, parts).ok())
}
END
cd "$bench"
rt fmt >/dev/null
if [ "${1:-}" = try ]; then
    rt try
    exit
fi
rt run | tee "$bench/rows"
python3 - "$bench/rows" <<'END'
# Exponents of the times between the smallest and the largest sample.
import collections
import math
import re
import sys

setting, gates, times = None, 0, collections.defaultdict(list)
for line in open(sys.argv[1]):
    head = re.match(r"(\d+) signals (K \d D \d): least period \d+, (\d+) us", line)
    if head:
        setting, gates = head[2], int(head[1]) * 4 // 5
        times[setting, "the search"].append((gates, int(head[3])))
    elif line.startswith("loop"):
        break
    elif setting:
        what = ("the outputs" if "outputs" in line else "all gates")
        times[setting, what].append((gates, int(re.search(r"(\d+) us", line)[1])))
for (setting, what), rows in times.items():
    sums = collections.defaultdict(int)
    for gates, time in rows:
        sums[gates] += time
    (least, first), *_, (most, last) = sorted(sums.items())
    print(f"{setting}, {what}: exponent {math.log(last / first) / math.log(most / least):.2f}")
END
