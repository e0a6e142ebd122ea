#!/usr/bin/env bash
# From Verilog to a placed and routed iCE40 (hx8k): TurboMap's tables of four inputs with lags of at most D, which ABC covers again where
# that takes fewer tables, beside what synth_ice40 makes of the same design. It says tables, flip-flops and carry cells, and the
# frequencies that nextpnr reaches with two seeds.
# Flip-flops with an asynchronous reset stay cells of their own, which don't move. With --keep-enables there is also a result in which
# those with an enable or a synchronous reset do, too.
# Debian's packages yosys, berkeley-abc and nextpnr-ice40 are wanted. With FOLDER the designs are kept there: NAME.json for nextpnr, and
# TurboMap's as NAME.blif, too.
flow=ice40
keeps=
if [ "$1" = --keep-enables ]; then
    keeps=1
    shift
fi
if [ $# -ne 3 ] && [ $# -ne 4 ]; then
    echo "usage: flows/ice40.sh [--keep-enables] X.v TOP D [FOLDER]" >&2
    exit 2
fi
. "$(dirname "$0")/common.sh"
need yosys abc nextpnr-ice40
source=$(realpath "$1") top=$2 d=$3 kept=${4:+$(realpath "$4")}
cd "$folder" || exit 1

# The cells of an iCE40 with an asynchronous reset, and those with others or an enable. All of them begin with 0.
reset_cells='-cell $_DFF_?P?_ 0'
own_cells="$reset_cells -cell \$_DFFE_?P_ 0 -cell \$_DFFE_?P?P_ 0 -cell \$_SDFF_?P?_ 0 -cell \$_SDFFCE_?P?P_ 0"

# `cells_of NAME COMMANDS` has Yosys make NAME.json and NAME.stat.
cells_of() {
    local told
    told=$(yosys -q -p "$2; tee -q -o $1.stat stat; write_json $1.json" 2>&1) || stop 1 "$told"
}

# `by_abc IN COMMANDS OUT`: what ABC makes of a text, on whole lines and with the clock, which ABC forgets. Names that ABC made bear
# that of OUT, since ABC stops where it makes one that it has read.
by_abc() {
    local clock
    clock=$(awk '/^\.latch/ && NF == 6 { print $4, $5; exit }' "$1")
    { "$abc" -c "read_blif $1; $2; write_blif abc.blif"; } >/dev/null 2>&1 || return 1
    sed -e ':join' -e '/\\$/ { N; s/\\\n//; b join' -e '}' abc.blif | awk -v clock="$clock" -v prefix="${3%.blif}_" '
        function name(word) { return word in known ? word : prefix word }
        FNR == NR { for (place = 2; place <= NF; place++) known[$place] = 1; next }
        /^\.latch/ { print $1, name($2), name($3), clock, $4; next }
        /^\.names/ { for (place = 2; place <= NF; place++) $place = name($place) }
        /^[^#]/ { print }' "$1" - >"$3"
}

# Leaves in source.blif what maps better, the text or ABC's graph of it: fewer tables where the period is no greater.
choose_source() {
    local period tables other fewer
    run_turbomap map 4 "$d" source.blif mapped.blif
    read -r _ period _ tables _ <<<"$said"
    by_abc source.blif strash graph.blif || return 0
    read -r _ other _ fewer _ < <("$turbomap" map 4 "$d" graph.blif mapped.blif)
    if [[ $other = [0-9]* ]] && { [ "$other" -lt "$period" ] || { [ "$other" -eq "$period" ] && [ "$fewer" -lt "$tables" ]; }; }; then
        mv graph.blif source.blif
    fi
}

# `cover_again PERIOD TABLES`: has ABC cover mapped.blif again where its registers stand now, into tidied.blif. That is kept where there
# are fewer tables, the period is no greater, and `dsec` shows it equivalent.
cover_again() {
    local period tables
    tidy mapped.blif tidied.blif
    by_abc tidied.blif 'strash; dch -f; if -K 4; mfs2; lutpack' again.blif || return 0
    read -r period tables < <("$turbomap" show again.blif | awk '/^inputs/ { gates = $NF } /^period/ { print $2, gates }')
    [[ $period = [0-9]* ]] && [ "$period" -le "$1" ] && [ "$tables" -lt "$2" ] || return 0
    [ "$(compare mapped.blif again.blif 60)" = "shown by ABC" ] && tidy again.blif tidied.blif
}

# `map_cells NAME FLIP_FLOPS`: through TurboMap, with the flip-flops that the words for `dfflegalize` add kept as cells.
map_cells() {
    local line period tables
    gates_of "$source" "$top" design.blif "-cell \$_DFF_?_ 01 $2"
    awk -v kept=cells -f "$flows/lift.awk" design.blif >source.blif
    choose_source
    run_turbomap map 4 "$d" source.blif mapped.blif certificate
    line="$1: $said"
    echo "$line"
    run_turbomap check 4 "$d" source.blif mapped.blif certificate
    echo "$1: $said"
    read -r _ _ period _ tables _ <<<"$line"
    cover_again "$period" "$tables"
    awk -f "$flows/complement.awk" tidied.blif >complemented.blif
    awk -v kept=cells -f "$flows/put_back.awk" complemented.blif >"$1.blif"
    cells_of "$1" "read_verilog -lib +/ice40/cells_sim.v; read_blif -wideports $1.blif; hierarchy -top $top; proc
        simplemap t:\$dff; opt_lut; techmap -map +/ice40/ff_map.v; techmap -map +/ice40/cells_map.v; opt_clean -purge"
}

# The frequency that nextpnr reaches for a design with a seed, in MHz, or `-` where there is no clock.
frequency() {
    nextpnr-ice40 --hx8k --package ct256 --pcf-allow-unconstrained --timing-allow-fail --seed "$2" --json "$1.json" >"$1.log" 2>&1 ||
        stop 1 "nextpnr can't place or route $1" "$(grep -m 1 '^ERROR' "$1.log")"
    sed -n 's/.*Max frequency for clock .*: *\([0-9]*\)\.[0-9]* MHz.*/\1/p' "$1.log" | tail -n 1 | grep . || echo -
}

# How many cells of a kind a design has.
cells() {
    awk -v kind="$2" '$1 ~ kind { sum += $2 } END { print sum + 0 }' "$1.stat"
}

row() { printf '%-29s %7s %11s %8s %5s %5s\n' "$@"; }

# `report NAME WORDS`: the line of a design.
report() {
    local first second
    first=$(frequency "$1" 1) && second=$(frequency "$1" 2) || exit 1
    row "$2" "$(cells "$1" '^SB_LUT4$')" "$(cells "$1" '^SB_DFF')" "$(cells "$1" '^SB_CARRY$')" "$first" "$second"
}

map_cells turbomap "$reset_cells"
[ -z "$keeps" ] || map_cells keeping "$own_cells"
cells_of nocarry "read_verilog \"$source\"; synth_ice40 -top $top -nocarry"
cells_of carry "read_verilog \"$source\"; synth_ice40 -top $top"
cells_of retime "read_verilog \"$source\"; synth_ice40 -top $top -nocarry -retime"
if [ -n "$kept" ]; then
    mkdir -p "$kept" && cp ./*.json turbomap.blif "$kept" && { [ -z "$keeps" ] || cp keeping.blif "$kept"; } || stop 1 "cannot write into $4"
fi

row flow tables flip-flops carries MHz MHz
report turbomap "turbomap, D = $d"
[ -z "$keeps" ] || report keeping "turbomap, D = $d, enables kept"
report nocarry "synth_ice40 -nocarry"
report carry "synth_ice40"
report retime "synth_ice40 -nocarry -retime"
