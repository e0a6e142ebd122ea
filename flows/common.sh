# Sourced by the flows with `flow` set to the name of the flow: the tools, a folder that is removed at the end, where texts have short
# names, and TurboMap with a hint where it refuses. TURBOMAP names another program than the one that the launcher built.

flows=$(cd "$(dirname "${BASH_SOURCE[0]}")" && pwd)
turbomap=$(realpath -m "${TURBOMAP:-$flows/../crates/turbomap/out/turbomap}")
abc=$(command -v berkeley-abc || command -v abc || command -v yosys-abc)

folder=$(mktemp -d)
trap 'rm -rf "$folder"' EXIT

# `stop STATUS LINE...` ends the flow.
stop() {
    local status=$1
    shift
    printf "$flow: %s\n" "$@" >&2
    exit "$status"
}

# `need TOOLS...`: TurboMap and each of the tools is there, or the flow says what is wanted.
need() {
    local tool
    [ -x "$turbomap" ] || stop 1 "TurboMap isn't built: ./turbomap builds it, or TURBOMAP may name a program"
    for tool; do
        if [ "$tool" = abc ]; then
            [ -n "$abc" ] || stop 1 "ABC is missing: Debian's package is berkeley-abc"
        else
            command -v "$tool" >/dev/null || stop 1 "$tool is missing: Debian's package is $tool"
        fi
    done
}

# What to do about a line by which TurboMap refuses.
hint() {
    case $1 in
        *": UnknownInit") echo "a register has no initial value: write \`reg q = 0;\` in the Verilog, or \`zero\` in ABC" ;;
        *": BadByte") echo "a name has a \`\\\` or a byte that can't be printed: rename it in the source" ;;
        *": LongName") echo "a name has more than 255 bytes: rename it in the source, or use \`rename -enumerate\` in place of \`autoname\`" ;;
        *": ManyClocks") echo "there are several clocks, or both edges of one: map the part of each clock by itself" ;;
        *": GatedClock") echo "a gate or register makes the clock: give the registers an enable, \`if (on) q <= d;\`, in its place" ;;
        *": ClockAsData") echo "the clock is also read as data, or is an output: pass it around the part that is mapped" ;;
        *": LeftOut" | *": NoModel") echo "a cell or statement isn't made of gates: leave black boxes and memories outside" ;;
        *": Undriven") echo "a signal that is read has no driver" ;;
        *": Loop") echo "gates read one another in a circle without a register" ;;
        *": TooManySignals") echo "more than 100,000 inputs, registers and gates: map parts of the design" ;;
        *": RepeatedDriver") echo "two signals have one name; Yosys writes \`#\`, \`=\`, \`<\` and \`>\` in names as \`?\`" ;;
        "bad command line") echo "K is 2 to 8, and D is 0 to 8" ;;
    esac
}

# Runs TurboMap with the words given and leaves its line in `said`; where it refuses, the flow ends with its status, its line, the
# line of the text that is meant, and a hint.
run_turbomap() {
    local status lines text
    said=$("$turbomap" "$@")
    status=$?
    [ "$status" -eq 0 ] && return
    lines=("$said")
    if [[ $said =~ ^(.*):\ line\ ([1-9][0-9]*):\ [A-Za-z]+$ ]]; then
        text=$(sed -n "${BASH_REMATCH[2]}p" "${BASH_REMATCH[1]}" | cut -c 1-200)
        lines+=("the line is: $text")
    fi
    text=$(hint "$said")
    [ -z "$text" ] || lines+=("hint: $text")
    stop "$status" "${lines[@]}"
}

# `gates_of X.v TOP OUT.blif [FLIP_FLOPS]`: simple gates and flip-flops, without enable or reset unless other words for `dfflegalize`
# are given, under names that TurboMap takes.
gates_of() {
    local told
    told=$(yosys -q -f verilog -p "synth -flatten -top $2; dfflegalize ${4:--cell \$_DFF_?_ 01}; abc -g simple; setundef -zero -undriven
        opt_clean -purge; rename -enumerate; write_blif $3" "$1" 2>&1) && return
    case $told in
        *"async set or reset"*) stop 1 "$told" "hint: make resets synchronous, \`always @(posedge clk) if (reset) ...\`" ;;
        *"cannot be legalized"*) stop 1 "$told" "hint: make latches and other registers flip-flops of one clock" ;;
        *) stop 1 "$told" ;;
    esac
}

# `tidy IN OUT`: a table that is constant 0 loses its pins, since ABC refuses a table with pins and without rows, and Yosys takes it
# for unknown.
tidy() {
    awk '
        function flush() { if (held != "") print rows ? held : (".names " name); held = "" }
        /^\.names / { flush(); held = $0; name = $NF; rows = 0; next }
        /^\./ { flush(); print; next }
        { if (!rows) { rows = 1; flush() } print }
        END { flush() }' "$1" >"$2"
}

# `compare A.blif B.blif SECONDS`: whether ABC shows the two equivalent within about so many seconds; ends the flow where they differ.
compare() {
    tidy "$1" one.blif
    tidy "$2" two.blif
    timeout $((2 * $3)) "$abc" -c "dsec -T $3 one.blif two.blif" >verdict 2>&1
    if grep -q 'Networks are equivalent' verdict; then
        echo "shown by ABC"
    elif grep -q 'NOT EQUIVALENT' verdict; then
        stop 1 "ABC finds the circuits different"
    else
        echo "ABC gave up"
    fi
}
