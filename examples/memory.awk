# The table of README.md, 'How much memory a worker needs', made of what `./calls examples/memory.calls` writes: the bytes of a page, the
# words that are enough for a scan of it, and for a worker, with a share for each of sixteen places, the words and their bytes, four to a word.
# Use: ./calls examples/memory.calls | awk -f examples/memory.awk
function grouped(number,   text) {
    text = sprintf("%d", number)
    while (match(text, /^[0-9]+[0-9][0-9][0-9]($|,)/)) {
        match(text, /^[0-9]+/)
        text = substr(text, 1, RLENGTH - 3) "," substr(text, RLENGTH - 2)
    }
    return text
}
$1 == "words" && $4 == "Words" {
    print "| " grouped($2) " | " grouped($5) " | " grouped(16 * $5) " | " grouped(64 * $5) " |"
}
