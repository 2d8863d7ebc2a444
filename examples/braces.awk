# Answered lines of `cases` held to the rule of where braces close: a `{` closes at the first later `}` with equally many `{` and `}`
# between the two. A counting expression at a `{` is Done behind that, or Eof 19 at the page's end where there is none. A counting tag
# leaves each expression that it opens behind that, or never where there is none, which is where it is Eof 19, and nowhere else.
# Passed over is what the rule does not speak of: verdicts, ESM, other starts, refused calls, too little room, and Nok without events.
# The last line has the counts. Status 1 where something differs, 2 where a line can't be read.
# Use: awk -f examples/braces.awk vectors/braces.txt

# A page with a letter for each byte: its braces, and `.` for all else.
function letters(hex,   page, i, byte) {
    for (i = 1; i < length(hex); i += 2) {
        byte = substr(hex, i, 2)
        page = page (byte == "7b" ? "{" : byte == "7d" ? "}" : ".")
    }
    return page
}

function letter(page, at) { return substr(page, at + 1, 1) }

function count(brace, text) { return gsub("[" brace "]", brace, text) }

# Where the `{` at an offset closes; -1 if it never does.
function closing(page, open,   at, between) {
    for (at = open + 1; at < length(page); at++) {
        if (letter(page, at) != "}") continue
        between = substr(page, open + 2, at - open - 1)
        if (count("{", between) == count("}", between)) return at
    }
    return -1
}

function expression_agrees(page, open, answer,   closes) {
    expressions++
    closes = closing(page, open)
    if (closes >= 0) {
        closed++
        return answer == "Done " (closes + 1)
    }
    never++
    return answer ~ ("^Eof " length(page) ":[0-9]+:[0-9]+ 19$")
}

# The offset of the next event of a name behind the one with a number; -1 if there is none.
function next_offset(wanted, number) {
    while (++number <= all) if (name[number] == wanted) return offset[number]
    return -1
}

function tag_agrees(page, answer, events,   words, parts, i, exit_name, closes, agrees, unclosed) {
    tags++
    all = split(events, words, " ")
    for (i = 1; i <= all; i++) {
        split(words[i], parts, /[@:]/)
        name[i] = parts[1]
        offset[i] = parts[2] + 0
    }
    agrees = 1
    unclosed = 0
    for (i = 1; i <= all; i++) {
        if (name[i] !~ /^[+]jsx-tag-attribute(-value)?-expression$/) continue
        opened++
        closes = closing(page, offset[i])
        if (closes < 0) unclosed = 1
        exit_name = "-" substr(name[i], 2)
        if (letter(page, offset[i]) != "{") agrees = 0
        if (next_offset("+expression-marker", i) != offset[i]) agrees = 0
        if (next_offset(exit_name, i) != (closes < 0 ? -1 : closes + 1)) agrees = 0
    }
    return agrees && (answer ~ /^Eof .* 19$/) == unclosed
}

{ recorded = before == "DIFFERS"; before = $0 }
recorded || /^#/ || /^batch / || !match($0, / => /) { next }
{
    answer = substr($0, RSTART + 4)
    if (!match(answer, / [|] events/)) {
        unread = $0
        exit
    }
    events = substr(answer, RSTART + 9)
    answer = substr(answer, 1, RSTART - 1)
    sub(/ [|] steps [0-9]+$/, "", answer)
    page = letters($6)
    agrees = 1
    if ($3 != "c" || answer ~ /^(Full|TooLong|BadStart|BadText|BadCall|Paused|Outside)/) passed++
    else if ($1 == "e" && letter(page, $5) == "{") agrees = expression_agrees(page, $5, answer)
    else if ($1 == "t" && (answer != "Nok" || events != "")) agrees = tag_agrees(page, answer, events)
    else passed++
    if (!agrees && ++differ <= 10) print "DIFFERS: " $0
}
END {
    if (unread != "") {
        print "not an answered case: " unread
        exit 2
    }
    printf "%d expressions, %d closed, %d never, %d tags, %d opened in them, ", expressions, closed, never, tags, opened
    printf "%d passed over, %d differ\n", passed, differ
    exit (differ > 0)
}
