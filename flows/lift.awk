# Takes flip-flops that Yosys keeps as cells (`.subckt` lines with pins D and Q) out of a text: what they read becomes outputs, what they
# drive inputs, and outputs no longer. The cells go to the file `kept`, behind the lists of the text as it was, for flows/put_back.awk.
/^\.inputs/ { inputs = $0; print >kept; next }
/^\.outputs/ { outputs = $0; print >kept; next }
/^\.subckt / {
    print >kept
    for (place = 3; place <= NF; place++) {
        split($place, pin, "=")
        if (pin[1] == "Q") driven[pin[2]] = 1
        else if (pin[1] != "C") read[++count] = pin[2]
    }
    next
}
{ lines[++length_of_text] = $0 }
END {
    number = split(inputs, words, " ")
    for (place = 2; place <= number; place++) outside[words[place]] = 1
    for (name in driven) if (!(name in outside)) inputs = inputs " " name
    number = split(outputs, words, " ")
    outputs = ".outputs"
    for (place = 2; place <= number; place++)
        if (!(words[place] in driven)) { outputs = outputs " " words[place]; listed[words[place]] = 1 }
    for (place = 1; place <= count; place++) {
        name = read[place]
        if (!(name in outside || name in driven || name in listed)) outputs = outputs " " name
        listed[name] = 1
    }
    for (place = 1; place <= length_of_text; place++) {
        print lines[place]
        if (lines[place] ~ /^\.model/) print inputs "\n" outputs
    }
}
