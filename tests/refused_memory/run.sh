#!/usr/bin/env bash
# Each allocation of each command is refused in turn, by a small library that is loaded before the C library.
. "$(dirname "$0")/../expect.sh" refused_memory

compiler=$(command -v cc || command -v gcc) || {
    echo "refused_memory: skipped, there is no C compiler"
    exit 0
}
"$compiler" -O1 -shared -fPIC -o "$folder/refuse.so" tests/refused_memory/refuse.c || exit 1
python3 tests/refused_memory/refused_memory.py "$program" "$folder/refuse.so" "$folder"
