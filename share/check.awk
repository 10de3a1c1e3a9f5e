# The lines of `check` with colours (variable color) and, with -v among flags, the meanings of refusals. The environment's XMF_SHARE is the folder of the tables.
BEGIN {
    FS = OFS = "\t"
    while ((getline line <(ENVIRON["XMF_SHARE"] "/refusals.tsv")) > 0) if (split(line, part, "\t") == 4) meaning[part[1]] = part[3]
    verbose = index(flags, " -v ")
    code["ok"] = 32
    code["R"] = 31
    code["too long"] = 33
}
{
    tag = $1
    if (color) $1 = "\033[" code[tag] "m" tag "\033[0m"
    print verbose && tag == "R" ? $0 OFS meaning[$2] : $0
}
