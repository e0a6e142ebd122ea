#!/usr/bin/env bash
# The rows of examples/README.md: each circuit is mapped by the words, and what is said compared; `check` accepts what is written.
. "$(dirname "$0")/../expect.sh" examples

while IFS='|' read -r _ circuit _ words said _; do
    read -r circuit <<<"$circuit"
    read -r _ k d <<<"${words//\`/}"
    read -r said <<<"${said//\`/}"
    expect "map $k $d of $circuit" "$said" "$("$program" map "$k" "$d" "examples/$circuit" "$folder/out" "$folder/certificate")"
    [[ $said = *": line "* ]] && continue
    expect "check $k $d of $circuit" "accepted ${said%% tables*}" \
        "$("$program" check "$k" "$d" "examples/$circuit" "$folder/out" "$folder/certificate" | sed 's/ drops .*//')"
done < <(grep '^| [a-z]' examples/README.md)

# Every circuit has a row.
for text in examples/*.*; do
    [ "$text" = examples/README.md ] || expect "a row of $text" 1 "$(grep -c -m 1 "| $(basename "$text") |" examples/README.md)"
done

[ "$failed" -eq 0 ] && echo "examples: $checks checks passed"
exit "$failed"
