# Puts the cells that flows/lift.awk took out, in the file `kept`, back into a mapped text, with its lists of inputs and outputs.
BEGIN {
    while ((getline line <kept) > 0)
        if (line ~ /^\.(in|out)puts/) lists = lists line "\n"
        else cells = cells line "\n"
}
/^\.model/ { print; printf "%s", lists; next }
/^\.(in|out)puts/ { next }
/^\.end/ { printf "%s", cells }
{ print }
