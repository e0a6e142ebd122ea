#!/usr/bin/env bash
# Samples that are too long for the gate's tests: two runs of `large` say the same line, and `map`, `check` and `bound` say its numbers
# of the sample's text, which is made here in a second way.
. "$(dirname "$0")/../expect.sh" large

# The sample text of a number.
sample() {
    awk -v n="$1" '
        function next_number() { x = (75 * x + 74) % 65537; return x }
        function choice(c) { return c < 8 ? "i" c : c < 8 + m ? "l" (c - 8) : "g" (c - 8 - m) }
        BEGIN {
            x = n; m = int(n / 4)
            rows[0] = "11 1"; rows[1] = "1- 1\n-1 1"; rows[2] = "10 1\n01 1"
            print ".model sample\n.inputs i0 i1 i2 i3 i4 i5 i6 i7"
            line = ".outputs"
            for (j = n - 8; j < n; j++) line = line " g" j
            print line
            for (j = 0; j < m; j++) print ".latch g" (4 * j + 3) " l" j " " (j % 2)
            for (j = 0; j < n; j++) {
                first = choice(next_number() % (8 + m + j))
                second = choice(next_number() % (8 + m + j))
                print ".names " first " " second " g" j
                print rows[next_number() % 3]
            }
            print ".end"
        }'
}

# The sample of a number with K and D: the lines of `large` twice, of `map` with `check`, and of `bound` with B 0.
compare() {
    local number=$1 k=$2 d=$3 line mapped checked
    local text=$folder/$number.blif out=$folder/$number.out.blif cert=$folder/$number.cert
    sample "$number" >"$text"
    line=$("$program" large "$number" "$k" "$d")
    expect "second run of large $number $k $d" "$line" "$("$program" large "$number" "$k" "$d")"
    mapped=$("$program" map "$k" "$d" "$text" "$out" "$cert")
    checked=$("$program" check "$k" "$d" "$text" "$out" "$cert")
    expect "large $number $k $d" "large $number $mapped drops ${checked##* } accepted" "$line"
    expect "bound $k $d 0 of $number" "bound ${mapped%% tables*}" "$("$program" bound "$k" "$d" 0 "$text")"
}

compare 8 2 0
compare 400 4 2
compare 3000 4 2

exit $failed
