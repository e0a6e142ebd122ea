# Sourced by benches that need a program crate of their own.

# `repository CRATE..` makes a temporary repository with copies of these crates and their lines of crates.txt, goes there, and removes
# it at the end.

repository() {
    local here work crate
    here=$(cd "$(dirname "${BASH_SOURCE[0]}")/.." && pwd)
    work=$(mktemp -d)
    # shellcheck disable=SC2064
    trap "rm -rf '$work'" EXIT
    mkdir "$work/crates"
    for crate in "$@"; do
        mkdir "$work/crates/$crate"
        (cd "$here/crates/$crate" && tar cf - --exclude=./out .) | tar xf - -C "$work/crates/$crate"
        grep "^$crate:" "$here/crates.txt" >>"$work/crates.txt"
    done
    cp "$here/HANDLES" "$work/"
    cd "$work"
}

# `program_crate NAME CRATE..` makes the folder of a program crate that stands on these crates, and sets `bench` to it.
program_crate() {
    echo "$1: ${*:2}" >>crates.txt
    bench=$PWD/crates/$1
    mkdir -p "$bench/src" "$bench/specs" "$bench/proofs"
    : >"$bench/specs/Lib.antt"
    : >"$bench/proofs/Lib.antt"
}

# `naming_module` gives the program a module with names of signals.
naming_module() {
    cat >"$bench/src/naming.rt" <<'END'
// Names of signals.

use std::alloc::{AllocError, Global};
use tm_circuit::Name;

/// The name of a signal: letters for the digits of its number.
pub fn name(alloc: Global, number: u32) -> Result<Name, AllocError> {
    let mut bytes = Vec::new(alloc);
    let mut left = number;
    for _ in 0..6u32 {
        bytes.push(b'a' + (left % 26) as u8)?;
        left /= 26;
    }
    Ok(Name::new(bytes))
}
END
}
