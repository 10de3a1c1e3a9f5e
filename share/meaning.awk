# Passes lines on, and adds the meaning of each refusal on standard error. The environment's XMF_SHARE is the folder of the tables.
BEGIN {
    FS = "\t"
    while ((getline line <(ENVIRON["XMF_SHARE"] "/refusals.tsv")) > 0) if (split(line, part, "\t") == 4) meaning[part[1]] = part[3]
}
{ print }
$1 == "R" && $2 in meaning {
    fflush()
    print "xmf: refusal " $2 ": " meaning[$2] " (xmf why " $2 ")" >"/dev/stderr"
}
