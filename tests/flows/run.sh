#!/usr/bin/env bash
# The flows on small designs: what they say, that their Verilog is equivalent to the source, and what they make of refusals.
# Skips where Yosys or ABC is missing.
. "$(dirname "$0")/../expect.sh" flows
abc=$(command -v berkeley-abc || command -v abc || command -v yosys-abc)
if [ -z "$abc" ] || ! command -v yosys >/dev/null; then
    echo "flows: skipped, they want yosys and berkeley-abc"
    exit 0
fi
unset TURBOMAP

# Whether ABC shows the two texts equivalent.
same() {
    "$abc" -c "dsec -T 20 $1 $2" 2>&1 | grep -o 'Networks are equivalent'
}

# From the cells of Verilog back to a text of gates.
gates_of_cells() {
    yosys -q -p "read_verilog -icells $1; techmap; abc -g simple; opt_clean -purge; rename -hide; rename -enumerate; write_blif $2"
}

# `refused WHAT STATUS LINES MODULE`: the flow on a module t ends with the status and says the lines, without its name.
refused() {
    echo "$4" >"$folder/t.v"
    flows/verilog_to_tables.sh "$folder/t.v" t 4 2 "$folder/none.v" >"$folder/said" 2>&1
    expect "status of $1" "$2" $?
    expect "$1" "$3" "$(sed 's/^verilog_to_tables: //; s/FF t\.[^ ]*/FF t.NAME/' "$folder/said")"
}

expect "tables of a counter" "gates 23, period 5 with a table for each
period 2 at D = 0
period 2 at D = 2, tables 10, registers 7
turbomap check: accepted period 2 drops 12
equivalence: shown by ABC" "$(flows/verilog_to_tables.sh tests/interop/gray_counter.v gray_counter 4 2 "$folder/tables.v" "$folder/kept")"
expect "the texts that are kept" "certificate mapped.blif source.blif" "$(ls "$folder/kept" | tr '\n' ' ' | sed 's/ $//')"
gates_of_cells "$folder/tables.v" "$folder/back.blif"
expect "the Verilog written" "Networks are equivalent" "$(same "$folder/kept/source.blif" "$folder/back.blif")"
expect "its cells" "\$_DFF_P_ \$lut" "$(grep -oE '\\\$(lut|_DFF_P_) ' "$folder/tables.v" | tr -d '\\ ' | sort -u | tr '\n' ' ' | sed 's/ $//')"

# A larger design: the names that autoname makes are too long, those of the flow aren't.
yosys -q -p "read_verilog bench/designs/rotation.v; synth -flatten -top rotation; dfflegalize -cell \$_DFF_?_ 01; abc -g simple; setundef -zero -undriven; opt_clean -purge; autoname; write_blif $folder/long.blif"
expect "names by autoname" "$folder/long.blif: line N: LongName" "$("$program" map 4 2 "$folder/long.blif" "$folder/none.blif" | sed 's/line [0-9]*/line N/')"
expect "a rotation" "gates 2202, period 49 with a table for each
period 16 at D = 0
period 11 at D = 2, tables 963, registers 286
turbomap check: accepted period 11 drops 2221
equivalence: shown by ABC" "$(flows/verilog_to_tables.sh bench/designs/rotation.v rotation 4 2 "$folder/tables.v" "$folder/kept")"

expect "registers without an initial value" "registers without an initial value, read as 0: 1" \
    "$(echo 'module t(input c, d, output reg q); always @(posedge c) q <= d; endmodule' >"$folder/t.v"
        flows/verilog_to_tables.sh "$folder/t.v" t 4 2 "$folder/tables.v" | grep initial)"
refused "two clocks" 5 "source.blif: line 11: ManyClocks
the line is: .latch d q re c 0
hint: there are several clocks, or both edges of one: map the part of each clock by itself" \
    'module t(input c, e, d, output reg q = 0, output reg r = 0); always @(posedge c) q <= d; always @(posedge e) r <= d; endmodule'
refused "a gated clock" 5 "source.blif: line 10: GatedClock
the line is: .names on c _0_
hint: a gate or register makes the clock: give the registers an enable, \`if (on) q <= d;\`, in its place" \
    'module t(input c, on, d, output reg q = 0); always @(posedge (c & on)) q <= d; endmodule'
refused "a clock as data" 5 "source.blif: line 10: ClockAsData
the line is: .names d c p
hint: the clock is also read as data, or is an output: pass it around the part that is mapped" \
    'module t(input c, d, output reg q = 0, output p); always @(posedge c) q <= d; assign p = c & d; endmodule'
refused "a name with a backslash" 5 "source.blif: line 4: BadByte
the line is: .inputs c a\\b
hint: a name has a \`\\\` or a byte that can't be printed: rename it in the source" \
    'module t(input c, \a\b , output reg q = 0); always @(posedge c) q <= \a\b ; endmodule'
refused "a black box" 5 "source.blif: line 10: NoModel
the line is: .subckt b d=d q=q
hint: a cell or statement isn't made of gates: leave black boxes and memories outside" \
    '(* blackbox *) module b(input d, output q); endmodule module t(input d, output q); b x(.d(d), .q(q)); endmodule'
refused "an asynchronous reset" 1 "ERROR: FF t.NAME (type \$_DFF_PP0_) cannot be legalized: dffs with async set or reset are not supported
hint: make resets synchronous, \`always @(posedge clk) if (reset) ...\`" \
    'module t(input c, r, d, output reg q = 0); always @(posedge c or posedge r) if (r) q <= 0; else q <= d; endmodule'
flows/verilog_to_tables.sh tests/interop/gray_counter.v gray_counter 9 2 "$folder/none.v" >"$folder/said" 2>&1
expect "status of a K of 9" 2 $?
expect "a K of 9" "verilog_to_tables: bad command line verilog_to_tables: hint: K is 2 to 8, and D is 0 to 8" "$(tr '\n' ' ' <"$folder/said" | sed 's/ $//')"
flows/verilog_to_tables.sh tests/interop/gray_counter.v >"$folder/said" 2>&1
expect "status of too few words" 2 $?
[ ! -e "$folder/none.v" ] || expect "no file after a refusal" "" "$folder/none.v"

expect "a sweep" "D  period  tables  registers  two-way bound
0       2       3          5              1
$(for d in 1 2 3 4 5 6 7 8; do echo "$d       1       3          3              1"; done)
the least period is 1, from D = 1 on" "$(flows/sweep.sh examples/two_levels.blif 2)"
flows/sweep.sh examples/missing.blif 2 >"$folder/said" 2>&1
expect "status of a sweep of a missing file" 3 $?
expect "a sweep of a missing file" "sweep: cannot read examples/missing.blif" "$(cat "$folder/said")"

# An iCE40's cells of the sender, whose registers have an enable and begin with 1.
same_cells() {
    yosys -q -p "read_blif $1; setundef -init -zero; techmap; dfflegalize -cell \$_DFF_?_ 01; abc -g simple; rename -hide; rename -enumerate; write_blif $folder/cells.blif"
    same "$folder/kept/source.blif" "$folder/cells.blif"
}
if command -v nextpnr-ice40 >/dev/null; then
    flows/verilog_to_tables.sh tests/interop/serial_sender.v serial_sender 4 0 "$folder/tables.v" "$folder/kept" >/dev/null
    flows/ice40.sh --keep-enables tests/interop/serial_sender.v serial_sender 1 "$folder/ice40" >"$folder/said" 2>&1
    expect "status of ice40" 0 $?
    expect "rows of ice40" 5 "$(sed '1,/^flow/d' "$folder/said" | grep -c ' [1-9][0-9]*  *[0-9]*  *[0-9]*  *[1-9][0-9]*  *[1-9][0-9]*$')"
    expect "cells that moved" "Networks are equivalent" "$(same_cells "$folder/ice40/turbomap.blif")"
    expect "cells of which some are kept" "Networks are equivalent" "$(same_cells "$folder/ice40/keeping.blif")"
    expect "cells that are kept" '$_SDFFCE_PP0P_' "$(grep -o -m 1 '$_SDFFCE_PP0P_' "$folder/ice40/keeping.blif")"
    echo 'module t(input c, r, d, output reg q = 0); always @(posedge c or posedge r) if (r) q <= 0; else q <= ~d; endmodule' >"$folder/t.v"
    expect "a row with an asynchronous reset" 1 "$(flows/ice40.sh "$folder/t.v" t 2 | grep -c '^turbomap, D = 2  *[01]  *1  *0 ')"
else
    echo "flows: ice40 left out, it wants nextpnr-ice40"
fi

[ "$failed" -eq 0 ] && echo "flows: $checks checks passed"
exit "$failed"
