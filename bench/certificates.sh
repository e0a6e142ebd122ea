#!/bin/bash
# What certificates come to before and after their drops are shortened.
#
#   bench/certificates.sh K D TEXT..
#
# Each BLIF text is mapped as `map K D` does it. A row says the drops and the bytes of its certificate with all drops of the refuted
# target, and with those that are kept. Only numbers are wanted, so the program is run without its proofs.
set -eu
numbers=("$1" "$2")
shift 2
texts=()
data=()
for text in "$@"; do
    name=$(basename "$text")
    texts+=("$name")
    data+=(--data "$name=$(realpath "$text")")
done
. "$(dirname "$0")/repository.sh"
repository tm_bits tm_store tm_circuit tm_parts tm_twins tm_flow blif_lex blif_unit blif_models blif_circuit blif_read tm_split tm_unroll tm_replay tm_merge tm_inherit \
    tm_labels tm_cover tm_search cert_text tm_shorten
program_crate certificate_sizes tm_bits tm_store tm_circuit tm_twins blif_read tm_split tm_unroll tm_replay tm_labels tm_cover tm_search cert_text tm_shorten

cat >"$bench/src/main.rt" <<'END'
//! Says what the certificates of texts come to.
//! Each row has the drops and the bytes before and after shortening.
//! The words are K, D and the names of the texts.

use blif_read::{SOURCE, read};
use cert_text::{Cert, write};
use std::alloc::Global;
use std::{env, io};
use tm_bits::NoMemory;
use tm_circuit::Circuit;
use tm_cover::choose;
use tm_replay::Lowering;
use tm_search::least_for_outputs;
use tm_shorten::shorten;
use tm_split::subject;
use tm_store::{FileStore, Store};
use tm_twins::joined;

/// What a list of drops comes to in a certificate.
#[derive(Clone, Copy)]
struct Size {
    drops: usize,
    bytes: usize,
}

fn measured(alloc: Global, cert: Cert) -> Result<(Size, Cert), NoMemory> {
    let bytes = write(alloc, &cert)?.len();
    let drops = cert.drops.len();
    Ok((Size { drops, bytes }, cert))
}

fn sizes(alloc: Global, circuit: &Circuit, k: u8, d: u8) -> Result<(Size, Size), NoMemory> {
    let least = least_for_outputs(alloc, 0, circuit, k, d)?;
    let mapping = choose(alloc, circuit, k, d, &least.at)?;
    let period = least.period;
    let drops = match least.below {
        Some(below) => below.into_drops(),
        None => Vec::new(alloc),
    };
    let whole = Cert { version: 2, period, mapping, drops };
    let (before, whole) = measured(alloc, whole)?;
    let drops: Vec<Lowering> = shorten(alloc, circuit, k, d, period - 1, whole.drops)?;
    let (after, _) = measured(alloc, Cert { version: 2, period, mapping: whole.mapping, drops })?;
    Ok((before, after))
}

fn circuit_of(alloc: Global, text: &[u8], k: u8) -> Option<Circuit> {
    let source = read(alloc, text, &SOURCE).ok()?;
    let subject = subject(alloc, &source, k).ok()?;
    joined(alloc, &subject).ok()
}

fn digit(word: &str) -> u8 {
    match word.as_bytes() {
        [digit] => digit - b'0',
        _ => 4,
    }
}

fn main(rt: HostRuntime) -> io::Result<()> {
    let mut words = Vec::new(rt.alloc());
    for word in env::args(&rt)?.skip(1) {
        words.push(word)?;
    }
    let k = digit(&words[0]);
    let d = digit(&words[1]);
    let mut store = FileStore::new(&rt);
    for name in words.iter().skip(2) {
        let Ok(text) = store.read(rt.alloc(), name, 16_777_216) else {
            continue;
        };
        let Some(circuit) = circuit_of(rt.alloc(), &text, k) else {
            continue;
        };
        let Ok((before, after)) = sizes(rt.alloc(), &circuit, k, d) else {
            continue;
        };
        println!(&rt; "{name} K {k} D {d}: {} drops {} bytes, shortened {} drops {} bytes", before.drops, before.bytes, after.drops, after.bytes)?;
    }
    Ok(())
}
END
cd "$bench"
rt fmt >/dev/null 2>&1 || true
rt try --steps 1 --seconds 600 "${data[@]}" -- "${numbers[@]}" "${texts[@]}"
