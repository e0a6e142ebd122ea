#!/usr/bin/env bash
# The launcher on the examples: the line that is said, the text of the first command of the README, and a refusal.
. "$(dirname "$0")/../expect.sh" launcher

said() {
    expect "map $1 $2 of $3" "$4" "$(./turbomap map "$1" "$2" "examples/$3.blif" "$folder/$3.blif")"
}

said 2 0 toggle "period 1 tables 1 registers 1"
said 2 0 two_levels "period 2 tables 3 registers 5"
said 2 1 two_levels "period 1 tables 3 registers 3"
said 4 0 two_levels "period 1 tables 1 registers 5"
said 2 0 ring_of_latches "period 0 tables 0 registers 2"
said 2 0 counter "period 1 tables 2 registers 2"
said 3 0 traffic_light "period 1 tables 5 registers 2"
expect "map 2 0 of an AIGER text" "period 1 tables 2 registers 1" "$(./turbomap map 2 0 examples/toggle.aag "$folder/toggle.aag.blif")"

expect "text of toggle" "$(grep -v '^#' examples/toggle.blif | sed 's/^10 1$/x/; s/^01 1$/10 1/; s/^x$/01 1/')" "$(cat "$folder/toggle.blif")"

printf '1\n1\n0\n1\n' >"$folder/vectors"
expect "line of sim" "steps 4" "$(./turbomap sim examples/toggle.blif "$folder/vectors" "$folder/rows")"
expect "rows of sim" "0 1 0 0" "$(tr '\n' ' ' <"$folder/rows" | sed 's/ $//')"
expect "report of toggle" "model toggle
inputs 1 outputs 1 latches 1 gates 1
widest 2
period 1
chain d
slack d 0" "$(./turbomap show examples/toggle.blif)"

expect "a bound" "bound period 1" "$(./turbomap bound 2 1 0 examples/two_levels.blif)"
expect "prime rows" "period 1 tables 1 registers 5" "$(./turbomap prime 4 0 examples/two_levels.blif "$folder/prime.blif")"
expect "rows of the one table" "11-- 1 --11 1" "$(grep '^[01-]* 1$' "$folder/prime.blif" | tr '\n' ' ' | sed 's/ $//')"

# As many signals as a text may have, and one more.
{ echo -n .inputs; seq -f ' i%g' -s '' 100000; } >"$folder/many.blif"
expect "100,000 signals" "period 0 tables 0 registers 0" "$(./turbomap map 2 0 "$folder/many.blif" "$folder/many.out.blif")"
echo .latch i1 l 0 >>"$folder/many.blif"
expect "one more" "$folder/many.blif: line 0: TooManySignals" "$(./turbomap map 2 0 "$folder/many.blif" "$folder/many.out.blif")"

# File names are those of the caller's folder.
here=$PWD
cp examples/toggle.blif "$folder/in.blif"
expect "a name from another folder" "period 1 tables 1 registers 1" "$(cd "$folder" && "$here/turbomap" map 2 0 in.blif out.blif)"

./turbomap map 2 0 "$folder/missing.blif" "$folder/none.blif" >"$folder/said"
expect "status of a missing file" 3 $?
expect "line of a missing file" "cannot read $folder/missing.blif" "$(cat "$folder/said")"
[ ! -e "$folder/none.blif" ] || { echo "launcher: a file was written"; failed=1; }

# What the launcher answers itself: in a screen, with the nine forms and the ten statuses.
help=$(./turbomap --help)
expect "lines of help, at most" 24 "$({ echo 24; wc -l <<<"$help"; } | sort -n | tail -n 1)"
expect "columns of help, at most" 80 "$({ echo 80; wc -L <<<"$help"; } | sort -n | tail -n 1)"
for form in 'map K D IN OUT [CERT]' 'prime K D IN OUT [CERT]' 'check K D IN OUT CERT' 'sim IN VECTORS OUT' 'show IN' 'large N K D' 'bound K D B IN'; do
    expect "help of $form" 1 "$(grep -cF "$form " <<<"$help")"
done
expect "statuses of help" "0 1 2 3 4 5 6 7 8 9" "$(sed -n '/^Status:/,/^Example/p' <<<"$help" | grep -oE '(: |, |^)[0-9] ' | grep -o '[0-9]' | tr '\n' ' ' | sed 's/ $//')"
expect "the example of help" "period 1 tables 1 registers 2" "$($(grep '^    ./turbomap' <<<"$help" | sed "s|out.blif|$folder/out.blif|"))"
expect "version" "TurboMap, proved with $(sed -n 's/^Proved with `\(.*\)`\.$/\1/p' README.md)" "$(./turbomap --version | head -n 1)"
expect "commit" "commit $(git rev-parse HEAD 2>/dev/null || echo unknown)" "$(./turbomap --version | tail -n 1 | sed 's/ with changes$//')"
mkdir "$folder/installed"
./turbomap --install "$folder/installed"
expect "status of an installation" 0 $?
expect "what is installed" "period 1 tables 1 registers 1" "$("$folder/installed/turbomap" map 2 0 examples/toggle.blif "$folder/out.blif")"
./turbomap --install "$folder/missing" 2>/dev/null
expect "status where the folder is missing" 9 $?
expect "other words" "bad command line" "$(./turbomap --help me)"

# In a copy with an `rt` that only makes a file: built where the program is missing or a source is newer, and not otherwise.
copy=$folder/copy
mkdir -p "$copy/crates/turbomap/src" "$folder/bin"
cp turbomap "$copy/turbomap"
touch -d '2 hours ago' "$copy/crates.txt" "$copy/crates/turbomap/src/main.rt"
cat >"$folder/bin/rt" <<'END'
#!/bin/sh
if [ "$1" = all ]; then
    sed 's/:.*//' crates.txt | while read -r name; do
        mkdir -p "crates/$name/out/rlib" && touch "crates/$name/out/rlib/stamp" && echo "== $name"
    done
    exit
fi
[ -e refuse ] && exit 1
echo bad command line
mkdir -p out && printf '#!/bin/sh\necho ran\n' >out/turbomap && chmod +x out/turbomap
END
chmod +x "$folder/bin/rt"
launch() { PATH=$folder/bin:$PATH "$copy/turbomap" 2>"$folder/built"; }
expect "a missing program" "ran" "$(launch)"
expect "the build of a missing program" 1 "$(grep -c building "$folder/built")"
expect "what the build says of its own words" 0 "$(grep -c 'bad command line' "$folder/built")"
touch -d '1 hour ago' "$copy/crates/turbomap/out/turbomap"
expect "a program that is newer" "ran" "$(launch)"
expect "no build of a newer program" 0 "$(grep -c building "$folder/built")"
touch -d '1 hour ago' "$copy/crates/turbomap/out/launcher-built"
touch "$copy/crates/turbomap/src/main.rt"
expect "a newer source" "ran" "$(launch)"
expect "the build for a newer source" 1 "$(grep -c building "$folder/built")"
touch -d '1 hour ago' "$copy/crates/turbomap/out/turbomap" "$copy/crates/turbomap/out/launcher-built"
touch "$copy/crates/turbomap/refuse" "$copy/crates/turbomap/src/main.rt"
launch >/dev/null
expect "the status where it can't be built" 9 $?

# A first build proves the crates that the program stands on side by side, and no others.
rm -rf "$copy/crates/turbomap/out" "$copy/crates/turbomap/refuse"
touch "$copy/HANDLES"
for name in a b c d e f; do mkdir -p "$copy/crates/$name"; done
printf '%s\n' '# all' 'a: kit' 'b: a' 'c: kit' 'd: b' 'e: d c' 'turbomap: e' 'f: a' >"$copy/crates.txt"
expect "a first build" "ran" "$(launch)"
expect "its crates" "1 of 6 crates: a
6 of 6 crates: turbomap" "$(sed -n 's/^turbomap: \([16] of .*\)/\1/p' "$folder/built")"
expect "what it leaves" "a b c d e " "$(for name in a b c d e f; do [ -e "$copy/crates/$name/out/rlib/stamp" ] && echo -n "$name "; done)"

[ "$failed" -eq 0 ] && echo "launcher: $checks checks passed"
exit "$failed"
