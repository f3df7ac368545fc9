# To be read by a script.

# OLD, which stands in the file once, becomes NEW. If it does not stand there once the file stays as it is, and the status is 1.
replace() { # FILE OLD NEW
    OLD=$2 NEW=$3 awk '{ text = text $0 "\n" } END {
        size = length(ENVIRON["OLD"]); at = index(text, ENVIRON["OLD"])
        if (!at || index(substr(text, at + size), ENVIRON["OLD"])) exit 1
        printf "%s%s%s", substr(text, 1, at - 1), ENVIRON["NEW"], substr(text, at + size) }' "$1" >"$1.edited" || { rm "$1.edited"; return 1; }
    mv "$1.edited" "$1"
}
