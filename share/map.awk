# The picture of a file as SVG, from the lines of `bytes --runs`: K, place, length, kind, in file order. 64 bytes a row, one rectangle a run and row, with its places as a
# title; beside it the bytes of each kind. Only kinds and places are in it, never a byte's value. The environment's NAME is the file's name, as a message has it.
# Status 1: the lines are not runs, and nothing is printed. With LC_ALL=C.
BEGIN {
    FS = "\t"
    name = ENVIRON["NAME"]
    columns = 64
    cell = 10
    tall = 14
    left = 64
    top = 44
    # the colours of Okabe and Ito, which colour-blind readers tell apart, and a grey
    split("file header,node frames,metadata frames,visible data,hidden data,unpackers,references,inline resources,all else", kinds, ",")
    split("#000000,#0072B2,#56B4E9,#009E73,#D55E00,#CC79A7,#F0E442,#E69F00,#C8C8C8", colours, ",")
    for (i = 1; i <= 9; i++) colour[kinds[i]] = colours[i]
}

# A text as XML has it, which has no U+FFFE and U+FFFF.
function xml(text) {
    gsub(/\357\277[\276\277]/, "?", text)
    gsub(/&/, "\\&amp;", text)
    gsub(/</, "\\&lt;", text)
    gsub(/>/, "\\&gt;", text)
    return text
}

function places(from, length_) { return length_ == 1 ? "place " from : "places " from " to " from + length_ - 1 }

$1 != "K" || NF != 4 || $2 + 0 != bytes || $3 + 0 < 1 || !($4 in colour) {
    bad = 1
    exit 1
}
{
    from[++runs] = bytes
    size[runs] = $3 + 0
    kind[runs] = $4
    sum[$4] += $3
    bytes += $3
}

END {
    if (bad || !runs) exit 1
    rows = int((bytes + columns - 1) / columns)
    side = left + columns * cell + 28
    width = side + 250
    height = top + rows * tall + 20
    least = top + 10 * 24 + 10
    if (height < least) height = least
    printf "<svg xmlns=\"http://www.w3.org/2000/svg\" width=\"%d\" height=\"%d\" viewBox=\"0 0 %d %d\" font-family=\"sans-serif\" font-size=\"12\">\n", width, height, width, height
    printf "<rect width=\"%d\" height=\"%d\" fill=\"#FFFFFF\"/>\n", width, height
    printf "<text x=\"%d\" y=\"24\" font-size=\"15\">%s%d bytes, %d a row</text>\n", left, name == "" ? "" : xml(name) ": ", bytes, columns
    for (row = 0; row < rows; row++)
        if (rows <= 8 || row % 4 == 0)
            printf "<text x=\"%d\" y=\"%d\" text-anchor=\"end\" fill=\"#555555\" font-size=\"10\">%d</text>\n", left - 6, top + row * tall + tall - 4, row * columns
    for (i = 1; i <= runs; i++) {
        printf "<g fill=\"%s\" stroke=\"#FFFFFF\" stroke-width=\"1\"><title>%s: %s, %d byte%s</title>\n", colour[kind[i]], places(from[i], size[i]), kind[i], size[i], size[i] == 1 ? "" : "s"
        at = from[i]
        end = from[i] + size[i]
        while (at < end) {
            row = int(at / columns)
            next_ = (row + 1) * columns
            if (next_ > end) next_ = end
            printf "<rect x=\"%d\" y=\"%d\" width=\"%d\" height=\"%d\"/>\n", left + (at - row * columns) * cell, top + row * tall, (next_ - at) * cell, tall
            at = next_
        }
        print "</g>"
    }
    for (i = 1; i <= 9; i++) {
        y = top + (i - 1) * 24
        printf "<rect x=\"%d\" y=\"%d\" width=\"14\" height=\"14\" fill=\"%s\"/>\n", side, y, colours[i]
        printf "<text x=\"%d\" y=\"%d\">%s</text>\n", side + 22, y + 12, kinds[i]
        printf "<text x=\"%d\" y=\"%d\" text-anchor=\"end\">%d</text>\n", side + 180, y + 12, sum[kinds[i]]
        printf "<text x=\"%d\" y=\"%d\" text-anchor=\"end\">%.1f %%</text>\n", side + 236, y + 12, sum[kinds[i]] * 100 / bytes
    }
    print "</svg>"
}
