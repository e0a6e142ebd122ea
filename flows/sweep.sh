#!/usr/bin/env bash
# What more lags bring: for each D from 0 to 8 the period, the tables and the registers that `map` reaches, and beside them the period
# that registers could reach at best if they might also move backward, by up to 8. Then the least D that reaches the least period.
flow=sweep
if [ $# -ne 2 ]; then
    echo "usage: flows/sweep.sh X.blif K" >&2
    exit 2
fi
. "$(dirname "$0")/common.sh"
need

least=
row() { printf '%1s %7s %7s %10s %14s\n' "$@"; }
for d in 0 1 2 3 4 5 6 7 8; do
    run_turbomap map "$2" "$d" "$1" "$folder/mapped.blif"
    read -r _ period _ tables _ registers <<<"$said"
    run_turbomap bound "$2" "$d" 8 "$1"
    [ "$d" -ne 0 ] || row D period tables registers 'two-way bound'
    row "$d" "$period" "$tables" "$registers" "${said##* }"
    if [ -z "$least" ] || [ "$period" -lt "$least" ]; then
        least=$period at=$d
    fi
done
echo "the least period is $least, from D = $at on"
