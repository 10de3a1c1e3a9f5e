# The meaning of a refusal, and what to do (over share/refusals.tsv), or of a check of the verdict (kind V, over share/checks.tsv).
# Variables: kind, number, place (may be empty). Status 1: there is no such number.
BEGIN { FS = "\t" }
$1 == number "" && kind == "V" {
    print number ? "not Mobile XMF, check " number ": " $2 : $2
    found = 1
}
$1 == number "" && kind == "R" {
    print "refusal " number (place == "" ? "" : " at " place) ": " $3
    print "what to do: " $4
    found = 1
}
END { exit !found }
