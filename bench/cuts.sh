#!/bin/bash
# Times searches for cuts of nets that are never built, with the proved build.
#
#   bench/cuts.sh
#
# Layered nets of depth 20 grow from 10^3 to 10^6 nodes, with the cut next to the root: the time of a
# call stays. Grids grow from 10^4 to 10^6 nodes with the cut at the far side, so that the last search
# meets every node: the nanoseconds for a met node stay within a factor of two. Each row has the times
# of calls of cut_or_walks, which begins without memory, and of calls of one searcher that keeps its own.
# The last row is a net of which a call meets fewer than ten nodes, after a call that met a million.
#
# A program crate is made in a temporary repository beside copies of the crates that it stands on.
set -eu
. "$(dirname "$0")/repository.sh"
repository tm_bits tm_flow
program_crate cuts tm_flow tm_bits

cat >"$bench/specs/Lib.antt" <<'END'
pub mod Layers
END

cat >"$bench/specs/Layers.antt" <<'END'
-- Nets of layers: a node reads two nodes of the layer below, and the nodes of layer 0 are the ends.
use Rattle.std.specs.Prelude.{◌≡◌, ℕ, ◌+◌, ◌-◌, ◌*◌, ◌%◌, ◌<◌, ◌≤◌, Bool, true, ◌&&◌, ◌==◌, nat_lt, nat_le, max, if◌then◌else◌}
use Rattle.std.proofs.Common.{arith, eqb-true, false, true≢false, refl, sym}
use Rattle.std.proofs.lemmas.Grind.{common_steps}
use Rattle.tm_flow.specs.Nets.{Shape}
use Rattle.cuts.specs.declared.node.Node.{Node}

abbrev pub width_at : ℕ → ℕ → ℕ
width_at width layer = if nat_le layer 1 then 4 else max width 1

abbrev pub layers : ℕ → ℕ → ℕ → ℕ → Shape Node
layers depth width stride cut = record {
  reads = λ x. if nat_le 1 x.layer && nat_le x.layer depth then 2 else 0;
  read = λ x i. record { layer = x.layer - 1; place = (x.place + i * stride) % width_at width (x.layer - 1) };
  is_end = λ x. x.layer == 0;
  may_cut = λ x. x.layer == cut;
  rank = λ x. if nat_le x.layer depth then x.layer else 0;
  bound = depth + 1;
}

pub layers_fall : (depth layer i : ℕ) → i < (if nat_le 1 layer && nat_le layer depth then 2 else 0)
    → (if nat_le (layer - 1) depth then layer - 1 else 0) < (if nat_le layer depth then layer else 0)
layers_fall depth layer i h = grind (arith, common_steps)

pub layers_below : (depth layer : ℕ) → (if nat_le layer depth then layer else 0) < depth + 1
layers_below depth layer = grind (arith, common_steps)

pub layers_end : (depth layer : ℕ) → (layer == 0) ≡ true → (let n : ℕ = if nat_le 1 layer && nat_le layer depth then 2 else 0 in n ≡ 0)
layers_end depth layer h = grind (arith, common_steps)

both : (a b : Bool) → (a && b) ≡ true → (a ≡ true) × (b ≡ true)
both true true h = (refl, refl)
both true false h = absurd (true≢false (sym h))
both false b h = absurd (true≢false (sym h))

pub same_node : (x y : Node) → ((x.layer == y.layer) && (x.place == y.place)) ≡ true → x ≡ y
same_node x y h =
    let e = both (x.layer == y.layer) (x.place == y.place) h in
    let a : x.layer ≡ y.layer = eqb-true x.layer y.layer e.0 in
    let b : x.place ≡ y.place = eqb-true x.place y.place e.1 in
    λ j. record { layer = a j; place = b j }
END
: >"$bench/proofs/Lib.antt"

cat >"$bench/src/main.rt" <<'END'
//! Times the searches for cuts of nets of layers that are never built.
//! The first rows have the cut next to the root, the next ones at the far side.
//! Each row says how many nodes the net has, how long a call takes, and how long for each node: without
//! memory at first, and by a searcher that keeps its memory. The last row is a small net.
#![tactic(auto)]

ghost use Rattle.std.specs.Prelude.{◌≤◌};

mod net;
mod node;

use net::Layers;
use node::Node;
use std::io;
use std::rt::Clock;
use std::time::{Duration, Instant};
use tm_bits::NoMemory;
use tm_flow::{Found, Searcher, cut_or_walks};

/// The nanoseconds of a call that gave an answer.
fn nanoseconds(found: Result<Found<Node>, NoMemory>, time: Duration) -> u64 {
    match found {
        Ok(_found) => u64::try_from(time.as_nanos()).unwrap_or(0),
        Err(_no_memory) => 0,
    }
}

/// A call without memory at first.
fn fresh<R: Clock + Alloc + AllocGlobal>(rt: &R, net: &Layers, k: u32) -> io::Result<u64>
    requires { k ≤ 8 }
{
    let root = Node { layer: net.depth, place: 0 };
    if net.depth == 0 {
        return Ok(0);
    }
    let start = Instant::now(rt)?;
    let found = cut_or_walks(rt.alloc(), net, root, k);
    let time = start.elapsed(rt)?;
    Ok(nanoseconds(found, time))
}

/// A call of the searcher.
fn kept<R: Clock + Alloc + AllocGlobal>(
    rt: &R,
    searcher: &mut Searcher<Node>,
    net: &Layers,
    k: u32,
) -> io::Result<u64>
    requires { k ≤ 8 }
{
    let root = Node { layer: net.depth, place: 0 };
    if net.depth == 0 {
        return Ok(0);
    }
    let start = Instant::now(rt)?;
    let found = searcher.cut_or_walks(rt.alloc(), net, root, k);
    let time = start.elapsed(rt)?;
    Ok(nanoseconds(found, time))
}

/// The least times of some calls, without memory at first and of the searcher.
fn least<R: Clock + Alloc + AllocGlobal>(
    rt: &R,
    searcher: &mut Searcher<Node>,
    net: &Layers,
    k: u32,
    calls: u32,
) -> io::Result<(u64, u64)>
    requires { k ≤ 8 }
{
    let mut first = u64::MAX;
    let mut again = u64::MAX;
    for _ in 0..calls {
        first = first.min(fresh(rt, net, k)?);
        again = again.min(kept(rt, searcher, net, k)?);
    }
    Ok((first, again))
}

fn main(rt: HostRuntime) -> io::Result<()> {
    let mut searcher = Searcher::new(rt.alloc());
    for width in [50u32, 500, 5000, 50000] {
        let net = Layers { depth: 20, width, stride: width / 3, cut: 19 };
        let (first, again) = least(&rt, &mut searcher, &net, 2, 20)?;
        let nodes = u64::from(width) * 20;
        println!(rt; "near cut: {nodes} nodes, {first} ns a call, {again} ns by a searcher")?;
    }
    for depth in [140u32, 445, 1410] {
        let net = Layers { depth, width: depth + 1, stride: 1, cut: 1 };
        let (first, again) = least(&rt, &mut searcher, &net, 4, 5)?;
        let nodes = u64::from(depth) * u64::from(depth) / 2;
        let each = first / nodes.max(1);
        let each_again = again / nodes.max(1);
        println!(rt; "far cut: {nodes} nodes met, {first} ns a call, {each} ns a node, {again} ns and {each_again} ns a node by a searcher")?;
    }
    let net = Layers { depth: 3, width: 2, stride: 1, cut: 2 };
    let (first, again) = least(&rt, &mut searcher, &net, 2, 1000)?;
    println!(rt; "fewer than ten nodes met: {first} ns a call, {again} ns by a searcher")?;
    Ok(())
}
END

cat >"$bench/src/node.rt" <<'END'
// A node of a net of layers.

/// The node at a place of a layer.
#[derive(Clone, Copy, PartialEq, Eq, Hash)]
pub struct Node {
    pub layer: u32,
    pub place: u32,
}
END

cat >"$bench/src/net.rt" <<'END'
// A net of layers: a node reads two nodes of the layer below, and the lowest layers have four places.

ghost use Rattle.std.specs.Prelude.{◌≡◌, ◌<◌, ◌-◌};
ghost use Rattle.cuts.specs.Layers.{layers, width_at, layers_fall, layers_below, layers_end, same_node};

use crate::node::Node;
use tm_flow::LazyNet;

/// The layers up to `depth`, whose nodes of one layer may be cut.
#[derive(Clone, Copy)]
pub struct Layers {
    pub depth: u32,
    pub width: u32,
    pub stride: u32,
    pub cut: u32,
}

fn width_of(width: u32, layer: u32) -> u32
    ensures { result ≡ width_at width layer }
{
    if layer <= 1 { 4 } else { width.max(1) }
}

impl LazyNet for Layers {
    type Node = Node;

    ghost shape = { λ s. layers s.depth s.width s.stride s.cut };

    ghost rank_falls = { λ s x i h. layers_fall s.depth x.layer i h };
    ghost rank_below = { λ s x. layers_below s.depth x.layer };
    ghost end_reads_nothing = { λ s x h. layers_end s.depth x.layer h };
    ghost same_if_equal = { λ x y h. same_node x y h };

    fn reads(&self, node: Node) -> u32 {
        if 1 <= node.layer && node.layer <= self.depth { 2 } else { 0 }
    }

    fn read(&self, node: Node, index: u32) -> Node {
        let layer = node.layer - 1;
        let width = width_of(self.width, layer);
        let place = u64::from(node.place) + u64::from(index) * u64::from(self.stride);
        Node { layer, place: (place % u64::from(width)) as u32 }
    }

    fn is_end(&self, node: Node) -> bool {
        node.layer == 0
    }

    fn may_cut(&self, node: Node) -> bool {
        node.layer == self.cut
    }

    fn rank(&self, node: Node) -> u64 {
        if node.layer <= self.depth { u64::from(node.layer) } else { 0 }
    }

    fn bound(&self) -> u64 {
        u64::from(self.depth) + 1
    }
}
END
cd "$bench"
rt fmt >/dev/null
rt run
