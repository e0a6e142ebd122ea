#!/usr/bin/env bash
# Prints docs/RESULTS.md: TurboMap on the designs of bench/designs beside ABC and, placed and routed, beside synth_ice40.
#
# Run by hand, outside the gate, after the launcher has built the program, on a machine with Debian's packages yosys, berkeley-abc and
# nextpnr-ice40:
#     bench/results.sh [DESIGNS...] >docs/RESULTS.md
# Periods, tables and registers are the same on each machine; processor times are the least of three runs, as ratios to ABC's.
flow=results
bench=$(cd "$(dirname "$0")" && pwd)
. "$bench/../flows/common.sh"
need yosys abc nextpnr-ice40
[ $# -gt 0 ] || set -- arbiter checksum datapath filter multiplier rotation
cd "$folder" || exit 1

# The least processor time of three runs of a command, in milliseconds; its standard output stands in `told`.
least_time() {
    local best= took TIMEFORMAT='%3U %3S'
    for _ in 1 2 3; do
        took=$({ time "$@" >told 2>&1; } 2>&1 | awk '{ print int(1000 * ($1 + $2)) }')
        [ -n "$best" ] && [ "$best" -le "$took" ] || best=$took
    done
    [ "$best" -gt 0 ] && echo "$best" || echo 1
}

# What ABC's print_stats says, as PERIOD/TABLES/REGISTERS.
abc_size() { sed -n 's/.*lat = *\([0-9]*\) *nd = *\([0-9]*\).*lev = *\([0-9]*\).*/\3\/\2\/\1/p' told | tail -n 1; }

# What TurboMap's line says, in the same form.
turbomap_size() { awk '{ print $2 "/" $4 "/" $6 }' told; }

# `forward DESIGN K`: the least that ABC reaches with forward moves, of the flows that dsec shows equivalent to the source. The last one
# of a smaller period that it doesn't show is noted in the file `unshown`.
forward() {
    local size best= step missed=
    for step in "retime -M 1; if -K $2" "if -K $2; retime -M 1" "dretime -f; if -K $2" "if -K $2; strash; dretime -f; if -K $2" \
        "dretime -m; if -K $2" "retime -M 4 -f; if -K $2" "if -K $2; retime -M 4 -f"; do
        timeout 60 "$abc" -c "read_blif $1.blif; strash; $step; print_stats; write_blif forward.blif" >told 2>&1 || continue
        size=$(abc_size)
        [ -n "$size" ] && { [ -z "$best" ] || [ "${size%%/*}" -lt "${best%%/*}" ]; } || continue
        timeout 60 "$abc" -c "dsec -T 20 $1.source.blif forward.blif" >told 2>&1
        if grep -q 'Networks are equivalent' told; then
            best=$size
        elif grep -q 'NOT EQUIVALENT' told; then
            missed="- $1, K $2: \`$step\` gives the period ${size%%/*}, but \`dsec\` finds the result different from the source."
        else
            missed="- $1, K $2: \`$step\` gives the period ${size%%/*}, but \`dsec\` doesn't decide whether the result is equivalent."
        fi
    done
    [ -z "$missed" ] || echo "$missed" >>unshown
    echo "${best:--}"
}

# `design_row DESIGN K`
design_row() {
    local d sizes= ratios= base theirs text=$1.blif
    base=$(least_time "$abc" -c "read_blif $text; strash; if -K $2; print_stats; write_blif out.blif")
    theirs=$(abc_size)
    for d in 0 2 8; do
        ratios+=" $(least_time "$turbomap" map "$2" "$d" "$text" out.blif | awk -v base="$base" '{ printf "%.2f", $1 / base }')"
        sizes+=" $(turbomap_size) |"
    done
    run_turbomap bound "$2" 8 8 "$text"
    echo "| $1 | $2 | $theirs | $(forward "$1" "$2") |$sizes ${said##* } |$ratios |" | tee -a rows
}

# `designs_where CONDITION`: names with their K of rows for which an awk condition holds, on the periods and tables of `if`, ABC's forward
# flow, D = 0, D = 2 and D = 8 (p and t, 1 to 5) and the two-way bound.
designs_where() {
    awk -F' *[|] *' "{ for (n = 1; n <= 5; n++) { split(\$(n + 3), size, \"/\"); p[n] = size[1] + 0; t[n] = size[2] + 0 }; bound = \$9 + 0 }
        $1 { found = found (found ? \", \" : \"\") \$2 \" (K \" \$3 \")\" }
        END { print (found ? found : \"none\") \".\" }" rows
}

# `routed_rows DESIGN`: the table of flows/ice40.sh at the least D that reaches the least period.
routed_rows() {
    local source=$bench/designs/$1.v d
    d=$("$flows/sweep.sh" "$1.blif" 4 | sed -n 's/.*from D = \([0-9]\) on/\1/p')
    "$flows/ice40.sh" --keep-enables "$source" "$1" "$d" | sed '1,/^flow/d' | sed 's/   */|/g; s/| *\([0-9]\)/|\1/g' |
        awk -F'|' -v design="$1" '{ printf "| %s | %s | %s | %s | %s | %s, %s |\n", design, $1, $2, $3, $4, $5, $6 }' | tee -a routed
}

# `routed_where FLOW CONDITION`: designs for which an awk condition holds on the tables and mean frequencies of TurboMap with enables
# kept (t and f) and of a flow of synth_ice40 (u and g).
routed_where() {
    awk -F' *[|,] *' -v flow="$1" "/enables kept/ { t = \$6; f = (\$9 + \$10) / 2 }
        \$3 == flow { u = \$4; g = (\$7 + \$8) / 2; if ($2) found = found (found ? \", \" : \"\") \$2 }
        END { print (found ? found : \"none\") \".\" }" routed
}

: >rows
: >routed
: >unshown
cat <<TEXT
# Results

Made by \`bench/results.sh\` alone, on $(lscpu | sed -n 's/^Model name: *//p' | head -n 1), with $(yosys -V | cut -d ' ' -f 1,2), Debian's berkeley-abc
$(dpkg-query -W -f '${Version}' berkeley-abc 2>/dev/null || echo unknown) and $(nextpnr-ice40 --version 2>&1 | sed -n 's/.*Version \([^)]*\)).*/nextpnr-ice40 \1/p').

## Covers and moves

Yosys makes each design of bench/designs into gates, and ABC's \`strash\` writes the text that both map. A cell says period/tables/registers.
\`if\` is ABC's mapper. *Forward* is the least period that ABC reaches with forward moves before or after \`if\` (\`retime -M 1\`, \`retime -M 4 -f\`,
\`dretime -f\`, \`dretime -m\`), of the results that \`dsec\` shows equivalent to the source. *Bound* is the two-way bound with D and B 8. The last
column is TurboMap's processor time at D 0, 2 and 8 as ratios to that of ABC's \`if\`.

| design | K | \`if\` | forward | D = 0 | D = 2 | D = 8 | bound | time |
|---|---|---|---|---|---|---|---|---|
TEXT
for design; do
    gates_of "$bench/designs/$design.v" "$design" "$design.source.blif"
    "$abc" -c "read_blif $design.source.blif; strash; write_blif $design.blif" >/dev/null 2>&1
    for k in 4 6; do design_row "$design" "$k"; done
done
cat <<TEXT

- At D = 8 the period is smaller than that of ABC's forward flows on $(designs_where 'p[5] < p[2]')
- It is greater on $(designs_where 'p[2] && p[5] > p[2]')
- ABC's \`if\` has fewer tables than TurboMap at D = 0 on $(designs_where 't[1] < t[3]')
- Its forward flow has fewer tables than TurboMap at D = 8, with the same period, on $(designs_where 'p[2] == p[5] && t[2] < t[5]')
- Backward moves, which TurboMap doesn't make, could reach a smaller period on $(designs_where 'bound < p[5]')
TEXT
cat unshown - <<TEXT

## Placed and routed

\`flows/ice40.sh --keep-enables\` at the least D that reaches the least period: frequencies in MHz for two seeds.

| design | flow | tables | flip-flops | carries | MHz |
|---|---|---|---|---|---|
TEXT
for design; do routed_rows "$design"; done
cat <<TEXT

- With enables kept, TurboMap has at most 1.2 times the tables of \`synth_ice40 -nocarry\` on $(routed_where 'synth_ice40 -nocarry' 't <= 1.2 * u')
- It has more on $(routed_where 'synth_ice40 -nocarry' 't > 1.2 * u')
- Its frequency, the mean of the seeds, is below that of \`synth_ice40 -nocarry\` on $(routed_where 'synth_ice40 -nocarry' 'f < g')
- It is below that of \`synth_ice40\`, with carry chains, on $(routed_where 'synth_ice40' 'f < g')
- It is below that of \`synth_ice40 -nocarry -retime\`, which drops initial states, on $(routed_where 'synth_ice40 -nocarry -retime' 'f < g')
- Carry chains take fewer tables on $(routed_where 'synth_ice40' 'u < t')
TEXT
