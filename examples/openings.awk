# Lists that `cases` answered, read again: for each job that was answered, the single case that `cases` takes, with the list's answer:
# the same page and numbers, the room that the jobs before it left, and its own of the list's events. A single scan must answer the same.
# Use: awk -f examples/openings.awk crates/cases/stdout | ./cases
{ recorded = before == "DIFFERS"; before = $0 }
!recorded && /^batch / && match($0, / => /) {
    count = split(substr($0, 1, RSTART - 1), asked, " ")
    answer = substr($0, RSTART + 4)
    if (answer !~ / steps /) next
    match(answer, / \| events/)
    split(substr(answer, 1, RSTART - 1), parts, " ; ")
    split(substr(answer, RSTART + 10), events, " ")
    left = substr(asked[3], 6)
    passed = 0
    for (i = 4; i <= count && parts[i - 3] != "-"; i++) {
        split(asked[i], job, ":")
        words = split(parts[i - 3], word, " ")
        said = word[1]
        for (w = 2; w <= words - 4; w++) said = said " " word[w]
        printf "%s %s c %d %s %s - room=%.0f => %s | steps %s | events", job[1], job[2], job[3] / 2, job[4], asked[2], left, said, word[words - 2]
        for (e = 1; e <= word[words]; e++) printf " %s", events[passed + e]
        print ""
        passed += word[words]
        left -= word[words]
    }
}
