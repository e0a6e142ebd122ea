#!/bin/bash
# Times prime covers of random tables of 8 inputs, with the proved build, and counts their rows.
#
#   bench/prime.sh
#
# The first row has the mean time of 10,000 tables and the number of rows of all their covers, the second the processor
# time of the whole run, which tells more where other programs run at the same time. The next ones have the numbers of
# rows that other programs find for the first 200 tables, beside those of their prime covers: ABC's `sop -s`, which may
# say a table by the rows of value 0, and `sop -sd`, which may not, and `espresso`. A program that the machine lacks is
# skipped.
#
# A program crate is made in a temporary repository beside copies of the crates that it stands on.
set -eu
. "$(dirname "$0")/repository.sh"
repository tm_bits prime_cover
program_crate prime_times tm_bits prime_cover
mkdir -p "$bench/proofs/random_table"

cat >"$bench/proofs/random_table/Invariants.antt" <<'END'
use Rattle.std.proofs.Common.{◌≡◌}
use Rattle.prime_times.proofs.random_table.Given as goal

abbrev pub invariant-loop-row : goal.invariant-loop-row
invariant-loop-row l = l.table.inputs ≡ 8
END

cat >"$bench/src/main.rt" <<'END'
//! Times prime covers of random tables of 8 inputs, and counts their rows.
//! The first lines are the first tables, as the values of the rows in order, with the rows of their covers.
//! The last line has the number of tables, the mean nanoseconds of a cover and the number of all rows.
#![tactic(auto)]

ghost use Rattle.std.specs.Prelude.{◌≡◌};

use prime_cover::prime;
use std::io;
use std::rt::Clock;
use std::time::Instant;
use tm_bits::Table;

/// The numbers that xorshift makes of a seed.
fn next(seed: u64) -> u64 {
    let mut word = seed;
    word ^= word.wrapping_shl(13);
    word ^= word >> 7;
    word ^ word.wrapping_shl(17)
}

/// A table of 8 inputs, and the seed after it.
fn random_table(seed: u64) -> (Table, u64)
    ensures { result.0.inputs ≡ 8 }
{
    let mut table = Table::constant(8, false);
    let mut word = seed;
    for row in 0..256u64 {
        word = next(word);
        table.set(row, (word >> 32) & 1 == 1);
    }
    (table, word)
}

/// Prints the values of the rows of a table.
fn show<R: Print + Alloc + AllocGlobal>(rt: &R, table: &Table, rows: usize) -> io::Result<()> {
    print!(rt; "table ")?;
    for word in &table.words {
        print!(rt; "{word:016x}")?;
    }
    println!(rt; " {rows}")?;
    Ok(())
}

fn main(rt: HostRuntime) -> io::Result<()> {
    let mut seed = 0x9E37_79B9_7F4A_7C15;
    let mut rows = 0u64;
    let mut nanoseconds = 0u64;
    for number in 0..10_000u32 {
        let (table, after) = random_table(seed);
        seed = after;
        let start = Instant::now(&rt)?;
        let cover = prime(rt.alloc(), &table);
        let time = start.elapsed(&rt)?;
        nanoseconds = nanoseconds.wrapping_add(u64::try_from(time.as_nanos()).unwrap_or(0));
        if let Ok(found) = cover {
            rows = rows.wrapping_add(found.rows().len() as u64);
            if number < 200 {
                show(&rt, &table, found.rows().len())?;
            }
        }
    }
    let each = nanoseconds / 10_000;
    println!(rt; "tables 10000, {each} ns a cover, {rows} rows")?;
    Ok(())
}
END
cd "$bench"
rt fmt >/dev/null
rt run >tables.txt
grep '^tables' tables.txt
TIMEFORMAT="%U s of the processor for all 10000, the making of the tables included"
time ./out/prime_times >/dev/null

# The first tables as the gates of one circuit, and as the outputs of one table for espresso.
rows_of() { awk '/^table / { rows += $3 } END { print rows }' tables.txt; }
ones_of() {
    awk '/^table / {
        for (word = 0; word < 4; word++)
            for (digit = 0; digit < 16; digit++) {
                value = index("0123456789abcdef", substr($2, 16 * word + 16 - digit, 1)) - 1
                for (bit = 0; bit < 4; bit++)
                    if (int(value / 2 ^ bit) % 2) {
                        row = 64 * word + 4 * digit + bit
                        bits = ""
                        for (place = 7; place >= 0; place--) bits = bits int(row / 2 ^ place) % 2
                        print number + 0, bits
                    }
            }
        number++
    }' tables.txt
}
ones_of >ones.txt
{
    echo ".model tables"
    echo ".inputs a b c d e f g h"
    echo ".outputs $(awk '/^table / { printf "t%d ", number++ }' tables.txt)"
    awk '$1 != last { print ".names a b c d e f g h t" ($1 + 0); last = $1 } { print $2, 1 }' ones.txt
    echo ".end"
} >tables.blif
echo "first 200 tables: $(rows_of) rows of prime covers, $(wc -l <ones.txt) rows of value 1"
abc=$(command -v abc || command -v berkeley-abc || command -v yosys-abc || true)
if [ -n "$abc" ]; then
    for words in "sop -s" "sop -sd"; do
        "$abc" -c "read_blif tables.blif; bdd; $words; write_blif out.blif" >/dev/null 2>&1
        echo "ABC $words: $(grep -c '^[01-]* [01]$' out.blif) rows"
    done
fi
if command -v espresso >/dev/null; then
    total=0
    for number in $(seq 0 199); do
        awk -v number="$number" 'BEGIN { print ".i 8\n.o 1" } $1 + 0 == number { print $2, 1 } END { print ".e" }' ones.txt >one.pla
        total=$((total + $(espresso one.pla | grep -c '^[01-]* 1$' || true)))
    done
    echo "espresso: $total rows"
fi
