#!/usr/bin/env bash
# Texts with several models: two for each kind of fault that only they have, some in which faults compete, and some that are mapped.
. "$(dirname "$0")/../expect.sh" several_models

text=$folder/t.blif
out=$folder/out.blif

# `said`: what `map 2 0` says of the text on the standard input.
said() {
    cat >"$text"
    rm -f "$out"
    (cd "$folder" && "$program" map 2 0 t.blif out.blif)
}

# `refused WHAT LINE: KIND`, with the text on the standard input.
refused() { expect "$1" "t.blif: line $2" "$(said)"; }

# `mapped WHAT LINE`, with the text on the standard input.
mapped() { expect "$1" "$2" "$(said)"; }

# A model `NAME` that is an inverter from x to y.
inverter() { printf '.model %s\n.inputs x\n.outputs y\n.names x y\n0 1\n' "$1"; }

# `tower LEVELS`: models that each place the next one, the last one an inverter; the path of the innermost has LEVELS numbers.
tower() {
    printf '.model m0\n.inputs a\n.outputs b\n.subckt m1 x=a y=b\n'
    for ((level = 1; level < $1; level++)); do
        printf '.model m%d\n.inputs x\n.outputs y\n.subckt m%d x=x y=y\n' "$level" "$((level + 1))"
    done
    inverter "m$1"
}

# `doubled LEVELS NAMES`: models that each place the next one twice, the last one with an input of that name.
doubled() {
    for ((level = 0; level < $1; level++)); do
        printf '.model d%d\n.subckt d%d\n.subckt d%d\n' "$level" "$((level + 1))" "$((level + 1))"
    done
    printf '.model d%d\n%s' "$1" "$2"
}

refused "a binding without =" "4: BadBinding" < <(printf '.model t\n.inputs a\n.outputs b\n.subckt m x=a y\n'; inverter m)
refused "a binding with an empty side" "4: BadBinding" < <(printf '.model t\n.inputs a\n.outputs b\n.subckt m x=a =b\n'; inverter m)
refused "a model twice" "6: RepeatedModel" < <(inverter m; inverter m)
refused "a model like the one without a name" "3: RepeatedModel" < <(printf '.inputs a\n.outputs a\n.model top\n')
refused "no such model" "3: NoModel" < <(printf '.inputs a\n.outputs a\n.subckt n x=a\n'; inverter m)
refused "no such model where none is placed" "9: NoModel" < <(printf '.inputs a\n.outputs a\n'; inverter m; printf '.model p\n.subckt n\n')
refused "no such formal" "4: UnknownFormal" < <(printf '.model t\n.inputs a\n.outputs b\n.subckt m x=a z=b\n'; inverter m)
refused "a formal that is a name inside" "3: UnknownFormal" < <(printf '.inputs a\n.outputs b\n.subckt m x=a v=b\n.model m\n.inputs x\n.outputs y\n.names x v\n1 1\n.names v y\n1 1\n')
refused "an input twice" "3: RepeatedFormal" < <(printf '.inputs a\n.outputs b\n.subckt m x=a x=a y=b\n'; inverter m)
refused "an output twice" "3: RepeatedFormal" < <(printf '.inputs a\n.outputs b\n.subckt m y=b x=a y=c\n'; inverter m)
refused "an input that isn't bound" "3: Unbound" < <(printf '.inputs a\n.outputs b\n.subckt m y=b\n'; inverter m)
refused "a clock among the inputs that isn't bound" "3: Unbound" < <(printf '.inputs a\n.outputs b\n.subckt m x=a y=b\n.model m\n.inputs x c\n.outputs y\n.latch x y re c 0\n')
refused "a model in itself" "0: Recursion" < <(printf '.inputs a\n.outputs b\n.subckt m x=a y=b\n.model m\n.inputs x\n.outputs y\n.subckt m x=x y=y\n')
refused "three models in a circle beside the top" "0: Recursion" < <(printf '.inputs a\n.outputs a\n.model m\n.subckt n\n.model n\n.subckt o\n.model o\n.subckt m\n')
refused "65 levels" "0: TooDeep" < <(tower 65)
refused "65 levels behind a first instance of one" "0: TooDeep" < <(printf '.model t\n.inputs a\n.outputs b c\n.subckt m64 x=a y=c\n.subckt m0 a=a b=b\n'; tower 64)
refused "2^27 instances" "0: TooLarge" < <(doubled 26 '')
refused "names of 2^18 instances" "0: TooLarge" < <(doubled 18 "$(printf '.names %0250d\n1\n' 0)"; echo)

refused "the earlier line of two" "3: NoModel" < <(printf '.inputs a\n.outputs b\n.subckt n x=a\n.subckt m z=a\n'; inverter m)
refused "the earlier kind of two on a line" "3: UnknownFormal" < <(printf '.inputs a\n.outputs b\n.subckt m x=a x=a z=b\n'; inverter m)
refused "the earlier pass of two" "4: BadBinding" < <(printf '.inputs a\n.outputs b\n.subckt n x=a\n.subckt m x\n'; inverter m)
refused "a circle before depth" "0: Recursion" < <(tower 65; printf '.model c\n.subckt c\n')
refused "the least line of an undriven name" "4: Undriven" < <(printf '.model t\n.inputs a\n.subckt h x=a z=m\n.outputs y\n.end\n.model h\n.inputs x\n.outputs z\n.names v z\n1 1\n.end\n')
refused "an output that is bound to an input outside" "6: RepeatedDriver" < <(printf '.inputs a\n.outputs a\n.subckt m x=a y=a\n'; printf '.model m\n.inputs x\n.names x y\n0 1\n.outputs y\n')

mapped "64 levels" "period 1 tables 1 registers 0" < <(tower 64)
mapped "a model never placed with a loop inside" "period 1 tables 1 registers 0" < <(printf '.inputs a\n.outputs b\n.subckt m x=a y=b\n'; inverter m; printf '.model l\n.names v w\n1 1\n.names w v\n1 1\n')
mapped "a clock that is bound" "period 0 tables 0 registers 1" < <(printf '.inputs a k\n.outputs b\n.subckt m x=a c=k y=b\n.model m\n.inputs x c\n.outputs y\n.latch x y re c 0\n')
expect "its clock" ".latch a b re k 0" "$(grep latch "$out")"
mapped "a clock that isn't bound" "period 0 tables 0 registers 1" < <(printf '.inputs a\n.outputs b\n.subckt m x=a y=b\n.model m\n.inputs x\n.outputs y\n.clock c\n.latch x y re c 0\n')
expect "its clock's name" ".latch a b re c@1 0" "$(grep latch "$out")"
mapped "names with runs of @" "period 0 tables 0 registers 2" < <(printf '.inputs a@@\n.outputs q\n.subckt m x=a@@ y=q\n.model m\n.inputs x\n.outputs y\n.latch x v@ 0\n.latch v@ y 1\n')
expect "its joiner" ".latch a@@ v@@@@1 0" "$(grep -m 1 latch "$out")"
mapped "a .subckt on a joined line" "period 1 tables 1 registers 0" < <(printf '.inputs a\n.outputs b\n.subckt m \\\nx=a \\\ny=b\n'; inverter m)
mapped "two instances that share a net" "period 1 tables 1 registers 0" < <(printf '.inputs a\n.outputs c\n.subckt m x=a y=b\n.subckt m x=b y=c\n'; inverter m)
mapped "an output that isn't bound" "period 1 tables 1 registers 0" < <(printf '.inputs a\n.outputs b\n.subckt m x=a\n.subckt m x=a y=b\n'; inverter m)

[ "$failed" = 0 ] && echo "several_models: $checks checks passed"
exit "$failed"
