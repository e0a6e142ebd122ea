# Sourced by tests of the built program, with the name of the test: goes to the top of the repository, ends where the program isn't built
# (`rt ci` leaves it built), and makes a folder that is removed at the end. `failed` says whether an expectation failed, `checks` how
# many there were.

cd "$(dirname "${BASH_SOURCE[0]}")/.." || exit 1
test_name=$1
program=$PWD/crates/turbomap/out/turbomap
if [ ! -x "$program" ]; then
    echo "$test_name: skipped, the program isn't built"
    exit 0
fi

folder=$(mktemp -d)
trap 'rm -rf "$folder"' EXIT
failed=0
checks=0

# `expect WHAT WANTED GOT`
expect() {
    checks=$((checks + 1))
    if [ "$2" != "$3" ]; then
        printf '%s: %s: wanted %s, got %s\n' "$test_name" "$1" "$2" "$3"
        failed=1
    fi
}
