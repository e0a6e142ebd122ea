# Complements each latch of a mapped text whose initial value is 1, for flip-flops that begin with 0: its table before gives the
# complement, and the tables after read the complement. A table of which both are wanted is doubled. An inverter is added only behind
# an input, before an output, and between latches of which one is complemented.

# A signal's complement where so asked; an inverted latch or table is itself one.
function version(signal, complemented) { return complemented ? signal mark : signal }

# The table of the signal, or of its complement.
function print_table(signal, complemented,    row, count, rows, flips, column, bits) {
    count = split(pins[signal], names, " ")
    printf ".names"
    for (column = 1; column <= count; column++) printf " %s", version(names[column], names[column] in inverted)
    print " " version(signal, complemented)
    if (!count) { if ((covers[signal] != "") != complemented) print 1; return }
    rows = split(covers[signal], list, "\n")
    for (row = 1; row <= rows; row++) {
        split(list[row], parts, " ")
        bits = ""
        for (column = 1; column <= count; column++) {
            flips = substr(parts[1], column, 1)
            if (names[column] in inverted && flips != "-") flips = 1 - flips
            bits = bits flips
        }
        print bits " " (complemented ? 1 - parts[2] : parts[2])
    }
}

# Says that a latch or an output wants the signal, or its complement, and gives its name.
function want(signal, complemented) { wanted[signal, complemented] = 1; return version(signal, complemented) }

BEGIN { mark = "!" }
{ while (index($0, mark)) mark = mark "!" }
/^\.latch / { latches[++latch_count] = $0; if ($NF == 1) inverted[$3] = 1; next }
/^\.names / {
    gate = $NF
    gates[++gate_count] = gate
    pins[gate] = covers[gate] = ""
    for (column = 2; column < NF; column++) pins[gate] = pins[gate] " " $column
    next
}
/^\./ { if ($1 != ".end") print; if ($1 == ".outputs") outputs = $0; next }
{ covers[gate] = covers[gate] (covers[gate] == "" ? "" : "\n") $0 }
END {
    for (number = 1; number <= latch_count; number++) {
        count = split(latches[number], words, " ")
        opposite = words[3] in inverted
        words[2] = want(words[2], opposite)
        words[3] = version(words[3], opposite)
        words[count] = 0
        for (place = 1; place <= count; place++) printf "%s%s", words[place], place < count ? " " : "\n"
    }
    count = split(outputs, words, " ")
    for (place = 2; place <= count; place++) want(words[place], 0)
    for (number = 1; number <= gate_count; number++) {
        gate = gates[number]
        has[gate] = 1
        if (((gate, 1) in wanted) && !((gate, 0) in wanted)) inverted[gate] = 1
    }
    for (number = 1; number <= gate_count; number++) {
        gate = gates[number]
        if ((gate, 1) in wanted) print_table(gate, 1)
        if (!(gate in inverted)) print_table(gate, 0)
    }
    for (key in wanted) {
        split(key, parts, SUBSEP)
        if (!(parts[1] in has) && parts[2] != (parts[1] in inverted))
            print ".names " version(parts[1], !parts[2]) " " version(parts[1], parts[2]) "\n0 1"
    }
    print ".end"
}
