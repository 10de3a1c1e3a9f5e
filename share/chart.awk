# Bars for the lines of `bytes`: KIND, tab, bytes; `total` ends the lines of one file, or of the sum. A bar of 40 cells is all of it, in halves of a cell where the
# variable utf8 is 1, and otherwise in whole ones; with colour where the variable color is set. A line F has a file's name. Lines of another form are passed on.
BEGIN { FS = "\t" }

function bar(share, whole, half, out) {
    half = int(share * 80)
    whole = int(half / 2)
    while (whole-- > 0) out = out (utf8 ? "█" : "#")
    return out (utf8 && half % 2 ? "▌" : "")
}

function show(name, bytes, total, share, line, cells) {
    share = total ? bytes / total : 0
    line = sprintf("%-16s %9d %5.1f %%", name, bytes, share * 100)
    cells = bar(share)
    if (cells != "") line = line " " (color ? "\033[36m" cells "\033[0m" : cells)
    print line
}

NF == 2 && $1 == "total" {
    for (i = 1; i <= kinds; i++) show(kind[i], count[i], $2)
    printf "%-16s %9d\n", $1, $2
    kinds = 0
    next
}
NF == 2 && $1 == "F" {
    print $2 ":"
    next
}
NF == 2 && ($1 == "files" || $1 == "refused") {
    printf "%-16s %9d\n", $1, $2
    next
}
NF == 2 {
    kind[++kinds] = $1
    count[kinds] = $2
    next
}
{ print }
