# The tables of oracle/compare, one for ends that belong to the axis and one for excluded ends: from what the replays printed,
# for the lengths of lists, and from their tallies, in which a line is operation, kind, outcome, question, requests. Which end
# it is stands before the files, as end=included or end=excluded.

$1 == "replay:" && $3 == "lists" { lists += $2; ticks += $5; calls += $7 }
NF == 5 && $1 != "replay:" {
    count[end, $1, $2, $3, $4] += $5
    sum[end, $1, $2, $3] += $5
    all[end, $3] += $5
    if ($3 != "unasked" && $3 != "left-out")
        compared[end, $1, $2] += $5
}

function commas(n, text) {
    for (text = ""; n >= 1000; n = int(n / 1000))
        text = sprintf(",%03d", n % 1000) text
    return sprintf("%d", n) text
}

# The requests of some kinds with an outcome, for each question that has any: `question: requests`.
function by_question(end, operation, kinds, outcome, each, number, question, i, n, text) {
    number = split(kinds, each, " ")
    for (question = 1; question <= 14; question++) {
        n = 0
        for (i = 1; i <= number; i++)
            n += count[end, operation, each[i], outcome, question]
        if (n)
            text = text (text ? "; " : "") question ": " commas(n)
    }
    return text ? text : "0"
}

function print_row(end, operation, kind) {
    printf "| %s | %s | %s | %s | %s | %s | %s | %s | %s | %s |\n", operation, kind ? kind : "-",
        commas(compared[end, operation, kind]), commas(sum[end, operation, kind, "equal"]),
        by_question(end, operation, kind, "narrower"), by_question(end, operation, kind, "panic"),
        commas(sum[end, operation, kind, "logarithm"]), commas(sum[end, operation, kind, "wrapped"]),
        commas(sum[end, operation, kind, "unexplained"]), by_question(end, operation, kind, "unasked")
}

function print_table(end, operation, operations_count, i, kind, others, total) {
    print "| Operation | Kind | Compared | Equal | Narrower on purpose | Refused where the Rust panics |" \
        " The rounded logarithm | A wrapped index | Unexplained | Not compared |"
    print "|---|---|---|---|---|---|---|---|---|---|"
    operations_count = split(operations, operation, " ")
    for (i = 1; i <= operations_count; i++) {
        others = ""
        for (kind = 0; kind <= 7; kind++)
            if (compared[end, operation[i], kind])
                print_row(end, operation[i], kind)
            else
                others = others " " kind
        if (by_question(end, operation[i], others, "unasked") != "0")
            printf "| %s | others | 0 | | | | | | | %s |\n", operation[i], by_question(end, operation[i], others, "unasked")
    }
    total = all[end, "equal"] + all[end, "narrower"] + all[end, "panic"] + all[end, "logarithm"] + all[end, "wrapped"] \
        + all[end, "unexplained"]
    printf "| **all** | | **%s** | %s | %s | %s | %s | %s | **%s** | %s |\n\n", commas(total), commas(all[end, "equal"]),
        commas(all[end, "narrower"]), commas(all[end, "panic"]), commas(all[end, "logarithm"]), commas(all[end, "wrapped"]),
        commas(all[end, "unexplained"]), commas(all[end, "unasked"])
}

END {
    print_table("included")
    print "With the end excluded: the Rust maps on the axis to the written end, and lists and counts on the one that ends a day"
    print "earlier (`oracle/README.md`).\n"
    print_table("excluded")
    print "The four columns after Equal are sections of `DIFFERENCES.md`; before a colon stands the question by which Ordered"
    print "refuses. The rows of ticks compare each list and, without segments, its count: " commas(lists) " accepted lists with"
    print commas(ticks) " ticks, asked for with " commas(calls) " lent slices, too short, exact and longer ones. Not compared are"
    print "refusals that have no oracle: an unknown kind, an operation that the kind lacks, a kind that excludes no end, a number"
    print "that no type of the Rust holds, a list that never ends. There the archive has the number of documents 01 and 02. The"
    print "Rust lacks kind 8 and week dates: they are left out, and so are " \
        commas(all["included", "left-out"] + all["excluded", "left-out"]) " accepted requests that were drawn with"
    print "8 in place of their kind. `tests/weeks/run` compares them with a second implementation."
}
