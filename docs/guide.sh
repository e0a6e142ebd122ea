#!/usr/bin/env bash
# Prints docs/GUIDE.md with what each of its commands says made anew: `docs/guide.sh >new` writes the guide again after a change.
# A command is a line that begins with `    $ `; what it says stands below, up to a line that isn't indented so. Its file names are
# those of a folder that is removed at the end, where the repository's own are links.
top=$(cd "$(dirname "$0")/.." && pwd)
folder=$(mktemp -d)
trap 'rm -rf "$folder"' EXIT
cd "$folder" || exit 1
ln -s "$top"/{bench,docs,examples,flows} .
printf '#!/bin/sh\nexec "%s/crates/turbomap/out/turbomap" "$@"\n' "$top" >turbomap
chmod +x turbomap

shown=
while IFS= read -r line; do
    case $line in
        '    $ '*)
            printf '%s\n' "$line"
            bash -c "${line#    \$ }" 2>&1 </dev/null | sed 's/^\(.\)/    \1/'
            shown=1
            ;;
        '    '*) [ -n "$shown" ] || printf '%s\n' "$line" ;;
        *)
            printf '%s\n' "$line"
            shown=
            ;;
    esac
done <"$top/docs/GUIDE.md"
