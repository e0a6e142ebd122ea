#!/usr/bin/env bash
# Texts at every limit and one past it: their statuses, time, memory and files. With the word `all` the longest, too.
. "$(dirname "$0")/../expect.sh" hostile

if ! command -v python3 >/dev/null; then
    echo "hostile: skipped, it wants python3"
    exit 0
fi
python3 -B "tests/hostile/hostile.py" "$program" "$folder" "$@"
