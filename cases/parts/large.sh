# Prints large jobs for the cases. It is read by their scripts.
sum=$(dirname "${BASH_SOURCE[0]}")/sum.lido

# Prints a text so many times.
repeat() {
    head -c "$2" /dev/zero | sed "s|\x00|$1|g"
}

# Fills what comes in up with blanks to so many bytes.
filled() {
    local text
    text=$(cat; printf .)
    text=${text%.}
    printf '%s' "$text"
    head -c "$(($1 - ${#text}))" /dev/zero | tr '\0' ' '
}

# Prints the job of sums with a tree in which two texts stand so often around the number 1.
nested() {
    cat "$sum"
    printf '(rTop '
    repeat "$1" "$3"
    printf '(rNum 1)'
    repeat "$2" "$3"
    printf ')'
}

# Prints the job of sums with the tree of 3 and 4.
small() {
    cat "$sum"
    printf '(rTop (rAdd (rNum 3) (rNum 4)))\n'
}
