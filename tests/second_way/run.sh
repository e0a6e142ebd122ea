#!/usr/bin/env bash
# Random circuits of up to four gates against a second way of finding their least period and their outputs: `run.sh [SEED [NUMBER]]`.
. "$(dirname "$0")/../expect.sh" second_way

if ! command -v python3 >/dev/null; then
    echo "second_way: skipped, it wants python3"
    exit 0
fi
python3 -B tests/second_way/reckoned.py && python3 -B tests/second_way/second_way.py "$program" "$folder" "${1:-1}" "${2:-300}"
