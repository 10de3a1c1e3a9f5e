# safe(text): the text with every character escaped that may steer a terminal or turn or part a line, as a backslash and two hex digits a byte:
# bytes below 20h and 7Fh, what is no good UTF-8, U+0080 to U+009F, U+061C, U+200B to U+200F, U+2028 to U+202E, U+2060 to U+206F, U+FEFF, U+FFF9 to
# U+FFFB and U+E0000 to U+E007F. Runs on bytes: with LC_ALL=C.
function safe(text, out, i, n, size, c, k) {
    if (text !~ /[^ -~]/) return text
    if (!("A" in safe_byte)) for (i = 1; i < 256; i++) safe_byte[sprintf("%c", i)] = i
    n = length(text)
    for (i = 1; i <= n; i += size) {
        size = safe_size(text, i)
        c = substr(text, i, size)
        if (size == 1 && c ~ /[ -~]/ || size > 1 && !safe_bad(c))
            out = out c
        else
            for (k = 0; k < size; k++) out = out sprintf("\\%02x", safe_byte[substr(text, i + k, 1)])
    }
    return out
}

# The bytes of the good character at i, or 1.
function safe_size(text, i, first, second, size, k) {
    first = safe_byte[substr(text, i, 1)]
    size = first >= 194 && first < 224 ? 2 : first >= 224 && first < 240 ? 3 : first >= 240 && first < 245 ? 4 : 1
    for (k = 1; k < size; k++) {
        second = safe_byte[substr(text, i + k, 1)] + 0
        if (second < 128 || second > 191) return 1
        if (k == 1 && (first == 224 && second < 160 || first == 237 && second > 159 || first == 240 && second < 144 || first == 244 && second > 143)) return 1
    }
    return size
}

function safe_bad(c) {
    return c ~ /^\302[\200-\237]|^\330\234|^\342\200[\213-\217\250-\256]|^\342\201[\240-\257]|^\357\273\277|^\357\277[\271-\273]|^\363\240[\200\201]/
}
