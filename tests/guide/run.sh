#!/usr/bin/env bash
# docs/GUIDE.md shows what its commands say today. Skips where Yosys or ABC is missing.
. "$(dirname "$0")/../expect.sh" guide
if ! command -v yosys >/dev/null || ! command -v berkeley-abc >/dev/null; then
    echo "guide: skipped, it wants yosys and berkeley-abc"
    exit 0
fi
unset TURBOMAP

docs/guide.sh >"$folder/guide.md"
if ! diff docs/GUIDE.md "$folder/guide.md"; then
    echo "guide: the lines with < stand in docs/GUIDE.md, those with > are said now; docs/guide.sh prints it anew"
    failed=1
fi

[ "$failed" -eq 0 ] && echo "guide: $(grep -c '^    \$ ' docs/GUIDE.md) commands say what it shows"
exit "$failed"
