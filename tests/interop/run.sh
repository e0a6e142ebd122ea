#!/usr/bin/env bash
# What Yosys and ABC write is read, and what is written is read by ABC as an equivalent circuit.
# Installs nothing: skips where a tool or the program is missing. docs/FORMATS.md names the packages.
cd "$(dirname "$0")/../.." || exit 1

program=crates/turbomap/out/turbomap
yosys=$(command -v yosys)
abc=$(command -v berkeley-abc || command -v abc || command -v yosys-abc)

if [ ! -x "$program" ] || [ -z "$yosys" ] || [ -z "$abc" ]; then
    echo "interop: skipped, it wants the built program, yosys and berkeley-abc"
    exit 0
fi

folder=$(mktemp -d)
trap 'rm -rf "$folder"' EXIT
failed=0

fail() {
    echo "interop: $*"
    failed=1
}

# Asks ABC whether two texts are sequentially equivalent.
compare() {
    "$abc" -c "dsec $1 $2" >"$folder/verdict" 2>&1
    grep -q 'Networks are equivalent' "$folder/verdict" || fail "$2 isn't shown equivalent: $(tail -n 3 "$folder/verdict")"
}

# Maps a text with lags of at most so many steps, 0 unless given, and has what is written compared with the text, or with another BLIF
# text of the same design.
map_and_compare() {
    local text=$1 mapped=$2 lags=${3:-0} other=${4:-$1}
    "$program" map 4 "$lags" "$text" "$mapped" >"$folder/said" || { fail "$text is refused: $(cat "$folder/said")"; return; }
    compare "$other" "$mapped"
}

for design in gray_counter serial_sender; do
    "$yosys" -q -p "read_verilog tests/interop/$design.v; synth -flatten -top $design; dfflegalize -cell \$_DFF_P_ 01; abc -g simple; opt_clean -purge; rename -enumerate; write_blif $folder/$design.blif" ||
        fail "yosys ends with an error on $design"
    map_and_compare "$folder/$design.blif" "$folder/$design.out.blif"
    "$abc" -c "read_blif $folder/$design.blif; strash; write_blif $folder/$design.abc.blif" >/dev/null 2>&1
    map_and_compare "$folder/$design.abc.blif" "$folder/$design.abc.out.blif"
    "$yosys" -q -p "read_verilog tests/interop/$design.v; synth -flatten -top $design; dfflegalize -cell \$_DFF_P_ 01; aigmap; opt_clean -purge; write_aiger -ascii -symbols $folder/$design.aag" ||
        fail "yosys ends with an error on $design as AIGER"
    map_and_compare "$folder/$design.aag" "$folder/$design.aag.blif" 1 "$folder/$design.blif"
done

# A design of which registers are moved.
"$yosys" -q -p "read_verilog bench/designs/checksum.v; synth -flatten -top checksum; dfflegalize -cell \$_DFF_P_ 01; abc -g simple; setundef -zero -undriven; opt_clean -purge; rename -enumerate; write_blif $folder/checksum.blif" ||
    fail "yosys ends with an error on checksum"
for lags in 0 2; do
    map_and_compare "$folder/checksum.blif" "$folder/checksum.$lags.blif" "$lags"
    echo "interop: checksum with lags of at most $lags: $(cat "$folder/said")"
done

# A design in its three modules, one of them placed twice and one with a parameter, against the same design flattened by Yosys, and
# against its modules as ABC nests them.
gates="dfflegalize -cell \$_DFF_P_ 01; abc -g simple; setundef -zero -undriven; opt_clean -purge; rename -enumerate"
"$yosys" -q -p "read_verilog tests/interop/line_race.v; synth -top line_race; $gates; write_blif $folder/written.blif" &&
    "$yosys" -q -p "read_verilog tests/interop/line_race.v; synth -flatten -top line_race; $gates; write_blif $folder/flat.blif" ||
    fail "yosys ends with an error on line_race"
sed '/^\.\(model\|subckt\) /s/\\/./g' "$folder/written.blif" >"$folder/modules.blif"
[ "$(grep -c '^\.model ' "$folder/modules.blif"):$(grep -c '^\.subckt ' "$folder/modules.blif")" = 3:3 ] ||
    fail "yosys leaves other modules than those of line_race"
for lags in 0 1; do
    map_and_compare "$folder/modules.blif" "$folder/modules.$lags.blif" "$lags" "$folder/flat.blif"
    compare "$folder/modules.blif" "$folder/modules.$lags.blif"
    echo "interop: line_race with lags of at most $lags: $(cat "$folder/said")"
done

[ "$failed" -eq 0 ] && echo "interop: 10 texts passed"
exit "$failed"
