# The log files of five clubs after a run of the example network, held to what the protocol promises. Knows the files' form, and nothing of the program.
#   awk -v commit=3 -v abort=3 -f network_logs.awk DIR/club0.log .. DIR/club4.log
# Quorums are numbers of clubs. Prints what is wrong, a line each; the last line is the one outcome of all logs: commit, abort or none. Exits 1 if
# something is wrong.

function wrong(what) {
    print what
    faults++
}

function of(what) {
    wrong(FILENAME ": " what)
}

# What a group record says of each club: its own code is the group's, and no code is above 5.
function look_at_codes(codes, own) {
    if (length(codes) != 5 || codes !~ /^[0-5]+$/)
        return of("a group record with codes '" codes "'")
    if (substr(codes, club + 1, 1) != own)
        of("a group record whose own code is not " own)
    said[club] = codes
}

# A code of another club says what stood in its log then, and nothing is ever taken out of a log.
function has(of_club, code) {
    if (code == 1)
        return prepares[of_club] > 0
    if (code == 2 || code == 3)
        return group[of_club] == (code == 2 ? "commit" : "abort")
    return code == 0 || outcome[of_club] == (code == 4 ? "commit" : "abort")
}

FNR == 1 {
    club = files++
    if ($0 != "club " club)
        of("the first line is '" $0 "'")
    next
}

outcome[club] != "" { of("'" $0 "' after the outcome") }

$0 == "prepare" {
    if (prepares[club]++ > 0)
        of("a second prepare record")
    if (group[club] != "")
        of("a prepare record after the group record")
    next
}

/^group (commit|abort) [^ ]*$/ {
    if (group[club] != "")
        of("a second group record")
    if ($2 == "commit" && prepares[club] == 0)
        of("in the commit group without a prepare record")
    group[club] = $2
    look_at_codes($3, $2 == "commit" ? 2 : 3)
    next
}

/^outcome (commit|abort)$/ {
    if (outcome[club] != "")
        of("a second outcome record")
    outcome[club] = $2
    next
}

{ of("no line of a log: '" $0 "'") }

END {
    for (club = 0; club < 5; club++) {
        prepared += prepares[club] == 1
        groups[group[club]]++
        outcomes[outcome[club]]++
        unasked += outcome[club] == "abort" && prepares[club] == 0 && group[club] == ""
        for (other = 0; other < 5 && club in said; other++)
            if (!has(other, substr(said[club], other + 1, 1)))
                wrong("club " club " says " substr(said[club], other + 1, 1) " of club " other ", whose log does not")
    }
    if (files != 5)
        wrong(files + 0 " logs, not 5")
    if (outcomes["commit"] && outcomes["abort"])
        wrong("two outcomes")
    if (outcomes["commit"] && prepared != 5)
        wrong("a commit, and " prepared + 0 " clubs with one prepare record")
    if (outcomes["commit"] && groups["commit"] < commit)
        wrong("a commit with " groups["commit"] + 0 " clubs in the commit group")
    if (outcomes["abort"] && groups["abort"] < abort && !unasked)
        wrong("an abort with " groups["abort"] + 0 " clubs in the abort group, and no club that had neither prepared nor joined")
    print outcomes["commit"] ? "commit" : outcomes["abort"] ? "abort" : "none"
    exit faults > 0
}
