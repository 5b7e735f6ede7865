# Shows a line of a document around the byte AT: reads the document up to there,
# a dot and a line end, and the front of what follows. Tells four lines: the
# line's number and the column, by characters; the rest of the line; the line;
# and a mark under the place. A byte that is no UTF-8, a control character and a
# mark of direction are shown as U+FFFD. What is far from the place is left out.
BEGIN {
    AT = ENVIRON["AT"]
    for (i = 128; i < 256; i++) code[sprintf("%c", i)] = i
    most = 60
}

function byte(c) { return c in code ? code[c] : 0 }

# How many bytes the character at i has, and `odd` where it has to be replaced.
function width(s, i,    first, n, k, c, second) {
    c = substr(s, i, 1)
    odd = c < " " && c != "\t" || c == "\177"
    if (!(c in code)) return 1
    first = code[c]
    n = first < 194 ? 0 : first < 224 ? 2 : first < 240 ? 3 : first < 245 ? 4 : 0
    second = byte(substr(s, i + 1, 1))
    odd = n == 0 || first == 224 && second < 160 || first == 237 && second > 159 || \
        first == 240 && second < 144 || first == 244 && second > 143
    for (k = 1; !odd && k < n; k++) odd = byte(substr(s, i + k, 1)) < 128 || byte(substr(s, i + k, 1)) > 191
    if (odd) return 1
    if (first == 194 && second < 160) odd = 1
    if (substr(s, i, 3) ~ /^\342(\200[\216\217\252-\256]|\201[\246-\251])/) odd = 1
    return n
}

# How many columns a character takes in a terminal, as far as this matters.
function columns(c) {
    if (c ~ /^(\314|\315[\200-\257]|\342\200\215|\357\270\217)/) return 0
    if (c ~ /^([\343-\350]|\351[\200-\277]|\352[\260-\277]|[\353-\354]|\355[\200-\236]|\357[\244-\253]|\357\274|\357\275[\200-\237]|\360\237[\214-\277]|\360[\240-\257])/) return 2
    return 1
}

function split_up(s, chars,    i, n, count) {
    count = 0
    for (i = 1; i <= length(s); i += n) {
        n = width(s, i)
        chars[++count] = odd ? "\357\277\275" : substr(s, i, n)
    }
    return count
}

# The front of the text ends with the first record that passes the place.
!front_is_whole {
    passed += length($0) + 1
    if (passed <= AT + 1) next
    front_is_whole = 1
    line = NR
    $0 = substr($0, 1, length($0) - 1)
    if (line == 1) sub(/^\357\273\277/, "")
    counted = $0
    column = length($0) - gsub(/[\200-\277]/, "", counted) + 1
    count = split_up(substr($0, length($0) > 400 ? length($0) - 399 : 1), front)
    from = count > most ? count - most + 4 : 1
    if (from > 1) { text = "..."; mark = "   " }
    for (i = from; i <= count; i++) {
        text = text front[i]
        mark = mark (front[i] == "\t" ? "\t" : substr("  ", 1, columns(front[i])))
    }
    next
}

{
    sub(/\r$/, "")
    rest = $0
    count = split_up($0, back)
    to = count > most ? most - 3 : count
    for (i = 1; i <= to; i++) text = text back[i]
    if (to < count) text = text "..."
    exit
}

END {
    print line ":" column
    print rest
    print text
    print mark "^"
}
