# The sheet for people; after share/safe.awk. Over what `xmf` prints for `show`: of each file F with its name, the sheet, the verdict (V) and what the
# tune needs (C), or one line. The environment's XMF_SHARE is the folder of the tables. Variables: several, 1 if there is more than one file; color, 1 for colours.
BEGIN {
    FS = "\t"
    while ((getline line <(ENVIRON["XMF_SHARE"] "/fields.tsv")) > 0) if (split(line, part, "\t") == 2) field[part[1]] = part[2]
    while ((getline line <(ENVIRON["XMF_SHARE"] "/checks.tsv")) > 0) if (split(line, part, "\t") == 2) check[part[1]] = part[2]
    while ((getline line <(ENVIRON["XMF_SHARE"] "/refusals.tsv")) > 0) if (split(line, part, "\t") == 4) { meaning[part[1]] = part[3]; advice[part[1]] = part[4] }
    split("General MIDI voices,Mobile DLS voices,Mobile DLS voices with filter and vibrato,KB of wavetable memory,KB of uncompressed wavetable memory", standard, ",")
    for (i = 0; i < 16; i++) hex[substr("0123456789abcdef", i + 1, 1)] = i
    for (i = 32; i < 127; i++) byte[sprintf("%c", i)] = i
}

function paint(code, text) { return color ? "\033[" code "m" text "\033[0m" : text }
function many(n, what) { return n " " what (n == 1 ? "" : "s") }

# A content description's bytes, off the sheet's text: `data` from 0; `at` reads on.
function bytes(text, i, n) {
    split("", data)
    n = 0
    for (i = 1; i <= length(text); i++)
        if (substr(text, i, 1) == "\\") {
            data[n++] = hex[substr(text, i + 1, 1)] * 16 + hex[substr(text, i + 2, 1)]
            i += 2
        } else
            data[n++] = byte[substr(text, i, 1)]
}
function number(value) {
    do value = value * 128 + data[at] % 128
    while (data[at++] > 127)
    return value
}

# The resources of a description: their number, and `name` of each.
function resources(text, channels, n, k, kind, value) {
    bytes(text)
    at = 0
    number()
    channels = number()
    n = number()
    for (k = 0; k < n; k++) {
        kind = data[at++]
        if (kind == 1) at += data[at] == 0 ? 3 : 1
        if (kind == 3 || kind == 5) at += 16
        else value = number()
        name[k] = kind == 0 && value < 5 ? standard[value + 1] : "of resource " k
    }
    return channels ? n : 0
}

function items(row, indent, k, label) {
    for (k = 1; k <= items_of[row]; k++) {
        split(item[row, k], part, "\t")
        label = part[3] == "C" ? "\"" safe(part[4]) "\"" : part[4] in field ? field[part[4]] : "field " part[4]
        if (part[5] != 0) label = label " (version " part[5] ")"
        printf "%s      %s %s\n", indent, paint(36, sprintf("%-22s", label)), safe(part[7])
    }
}

function node(row, indent, words) {
    indent = sprintf("%" (depth[row] > 1 ? 2 * (depth[row] - 1) : 0) "s", "")
    words = reference[row] == 3 ? "same as the node at byte " target[row] : \
        reference[row] == 4 ? "URI outside the file" : \
        row in holds ? "folder" : \
        "file, " many(extent[row], "byte") " at byte " target[row] (reference[row] == 2 ? ", to the file's end" : "")
    print indent paint(1, "node " row) ": " words (depth[row] == 0 ? ", outside the tree" : "")
    items(row, indent)
}

# Of each description the last channel's counts: what the whole tune needs.
function needs(d, k, text) {
    for (d = 1; d <= descriptions; d++) {
        if (!(d in needed)) continue
        resources(described[d])
        text = ""
        for (k = 0; (d, k) in count; k++) text = text (k ? ", " : "") count[d, k] " " name[k]
        print "needs " text
    }
}

function finish(k) {
    if (!begun) return
    for (k = 0; k < nodes; k++) node(k)
    if (hidden) print many(hidden, "item") (hidden == 1 ? " is" : " are") " hidden and not shown"
    if (verdict != "") print verdict == 0 ? paint(32, "Mobile XMF: all checks hold") : paint(33, "not Mobile XMF") ": " check[verdict]
    needs()
    if (unreadable != "") print "what the tune needs is not readable: refusal " unreadable
    begun = 0
}

$1 == "F" {
    finish()
    if (several) print (shown++ ? "\n" : "") paint(1, safe($2)) ":"
}
$1 == "XMF" {
    begun = 1
    nodes = $4
    hidden = $5
    verdict = ""
    descriptions = next_described = 0
    last = unreadable = ""
    split("", holds)
    split("", items_of)
    split("", needed)
    split("", count)
    print "XMF " $2 ", " many($3, "byte") ", " many($4, "node") ", " many($5, "item")
}
$1 == "N" {
    depth[$2] = $4
    reference[$2] = $5
    target[$2] = $6
    extent[$2] = $7
    if ($3 != $2) holds[$3] = 1
}
$1 == "M" {
    item[$2, ++items_of[$2]] = $0
    hidden--
    if ($3 == "S" && $4 == 13 && $5 == 0 && $6 == 6) described[++descriptions] = $7
}
$1 == "V" { verdict = $2 }
# the item rows of C lines are those of the descriptions that say anything, in the same order
$1 == "C" {
    if ($2 != last) {
        last = $2
        do next_described++
        while (next_described < descriptions && resources(described[next_described]) == 0)
        needed[next_described] = 1
    }
    count[next_described, $4] = $5
}
# what the tune needs may be refused of a file that is shown
$1 == "R" && begun {
    unreadable = $2 " at " $3
    next
}
$1 == "R" {
    print paint(31, "refused " $2 " at " $3) ": " meaning[$2]
    print "what to do: " advice[$2]
}
$1 == "too long" { print paint(31, "too long") ": more than 65,536 bytes" }
END { finish() }
