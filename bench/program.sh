# Sourced by benches of the program: sets `here` to their folder, and ends the bench where the program isn't built.
here=$(cd "$(dirname "${BASH_SOURCE[0]}")" && pwd)
if [ ! -x "$here/../crates/turbomap/out/turbomap" ]; then
    echo "$(basename "$0" .sh): skipped, the program isn't built"
    exit 0
fi
