# What `calls` wrote, read again: for each page that was collected, the case that `cases` takes, with the answer that the worker gave:
# the same page, numbers and verdicts, and as many events of room as a share has. A single scan must answer the same.
# Use: awk -f examples/collected.awk crates/calls/stdout | ./cases
$1 == "lend" && $NF == "Lent" { lent = $2 == "-" ? "" : $2 }
$1 == "start" && $(NF - 1) == "Started" { room = int($3 / 64) }
$1 == "admit" && $(NF - 1) == "Place" {
    place = $NF
    case_of[place] = $2 " " $3 " " $4 " " $5 " " $6 " " ($8 == 0 ? "-" : substr(lent, 2 * $7 + 1, 2 * $8))
    verdicts[place] = ""
}
$1 == "verdict" && $NF == "Kept" { verdicts[$2] = verdicts[$2] (verdicts[$2] == "" ? "" : ",") $3 }
$1 == "collect" && / \| steps / {
    answer = $0
    sub(/^collect [0-9]+ => /, "", answer)
    print case_of[$2] " " (verdicts[$2] == "" ? "-" : verdicts[$2]) " room=" room " => " answer
}
