#!/usr/bin/env bash
# From Verilog to Verilog of tables and flip-flops, through Yosys, TurboMap with its checker, ABC as a second judge, and Yosys again.
# Debian's packages yosys and berkeley-abc are wanted. The cells of OUT.v are Yosys' `$lut` and `$_DFF_P_`: `read_verilog -icells`
# reads them, and its simlib.v and simcells.v simulate them. With FOLDER the texts and the certificate are kept there.
flow=verilog_to_tables
if [ $# -ne 5 ] && [ $# -ne 6 ]; then
    echo "usage: flows/verilog_to_tables.sh X.v TOP K D OUT.v [FOLDER]" >&2
    exit 2
fi
. "$(dirname "$0")/common.sh"
need yosys abc
source=$(realpath "$1") top=$2 k=$3 d=$4 out=$(realpath "$5") kept=${6:+$(realpath "$6")}
cd "$folder" || exit 1

gates_of "$source" "$top" source.blif
run_turbomap show source.blif
gates=$(sed -n 's/.* gates //p' <<<"$said")
before=$(sed -n 's/^period //p' <<<"$said")
free=$(grep -c '^\.latch .* 2$' source.blif)
run_turbomap map "$k" 0 source.blif mapped.blif
resting=${said#period }
run_turbomap map "$k" "$d" source.blif mapped.blif certificate
read -r _ period _ tables _ registers <<<"$said"
run_turbomap check "$k" "$d" source.blif mapped.blif certificate
accepted=$said
verdict=$(compare source.blif mapped.blif 60) || exit 1

tidy mapped.blif tidied.blif
told=$(yosys -q -p "read_blif -wideports tidied.blif; simplemap t:\$dff; opt_clean -purge; write_verilog -noexpr tables.v" 2>&1) || stop 1 "$told"
cp tables.v "$out" || stop 1 "cannot write $5"
if [ -n "$kept" ]; then
    mkdir -p "$kept" && cp source.blif mapped.blif certificate "$kept" || stop 1 "cannot write into $6"
fi

echo "gates $gates, period $before with a table for each"
[ "$free" -eq 0 ] || echo "registers without an initial value, read as 0: $free"
echo "period ${resting%% *} at D = 0"
echo "period $period at D = $d, tables $tables, registers $registers"
echo "turbomap check: $accepted"
echo "equivalence: $verdict"
