# Finds a fault of a graph in a document of Turtle that reads: goes through its
# triples, and tells in bytes where the first stands that is wanted.
#
# The environment has the wanted terms in full, as the program writes them:
# WANT_S, WANT_P and WANT_O of a triple, or WANT_S alone of a node; in GENS the
# number that comes before that of the first blank node without a label; and in
# BASE the IRI that is the base of the document, if there is one.
# Lines that are told: `at S P O` with the places of a triple's terms, or `node
# AT` with that of a node; `type TERM TYPE` of the terms that are wanted; `has
# PREDICATE OBJECT AT` of a node; `prefix NAME IRI`.
BEGIN {
    rdf = "http://www.w3.org/1999/02/22-rdf-syntax-ns#"
    s = ENVIRON["WANT_S"]; p = ENVIRON["WANT_P"]; o = ENVIRON["WANT_O"]
    gens = ENVIRON["GENS"] + 0
    root = ENVIRON["BASE"]
    depth = 0; kind[0] = "T"; state[0] = 0
}

function gen() { return "_:gen" (++gens) }

# An IRI against the base, by what is enough for most documents.
function resolved(iri,    scheme) {
    if (iri ~ /^[A-Za-z][A-Za-z0-9+.-]*:/ || root == "") return iri
    if (iri == "") { sub(/#.*/, "", root); return root }
    if (iri ~ /^#/) { scheme = root; sub(/#.*/, "", scheme); return scheme iri }
    if (iri ~ /^\//) { match(root, /^[A-Za-z][A-Za-z0-9+.-]*:(\/\/[^\/]*)?/); return substr(root, 1, RLENGTH) iri }
    scheme = root
    sub(/[?#].*/, "", scheme)
    sub(/[^\/]*$/, "", scheme)
    return scheme iri
}

function emit(sub_, pred, obj, sat, pat, oat,    near) {
    if (pred == "<" rdf "type>") {
        if (sub_ == s || sub_ == p || sub_ == o) print "type", sub_, obj
    }
    if (p == "" && sub_ == s) {
        if (!found) print "node", sat
        found = 1
        print "has", pred, obj, oat, pat
    }
    if (p != "" && sub_ == s && pred == p) {
        near = obj == o ? 2 : substr(obj, 1, 1) == "\"" && substr(o, 1, 1) == "\"" ? 1 : 0
        if (near > found) { found = near; best = sat " " pat " " oat }
    }
}

# Inside a list each element stands in a cell, which comes before it.
function begin_element(at,    cell) {
    if (kind[depth] != "L") return
    cell = gen()
    if (head[depth] == "") head[depth] = cell
    else emit(last[depth], "<" rdf "rest>", cell, lat[depth], at, at)
    last[depth] = cell
    lat[depth] = at
}

function term(t, at) {
    if (kind[depth] == "L") emit(last[depth], "<" rdf "first>", t, lat[depth], at, at)
    else if (state[depth] == 0) { subj[depth] = t; sats[depth] = at; state[depth] = 1 }
    else if (state[depth] == 1) { pred_[depth] = t; pats[depth] = at; state[depth] = 2 }
    else emit(subj[depth], pred_[depth], t, sats[depth], pats[depth], at)
}

function single(t, at) { begin_element(at); term(t, at) }

function flush(    t) {
    if (literal == "") return
    t = literal
    literal = ""
    single(t, literal_at)
}

function open(as, at) {
    begin_element(at)
    depth++
    kind[depth] = as
    opened[depth] = at
    head[depth] = last[depth] = ""
    if (as == "B") { subj[depth] = gen(); sats[depth] = at; state[depth] = 1 }
}

function shut(    t, at) {
    if (depth == 0) return
    at = opened[depth]
    if (kind[depth] == "B") t = subj[depth]
    else if (last[depth] == "") t = "<" rdf "nil>"
    else { t = head[depth]; emit(last[depth], "<" rdf "rest>", "<" rdf "nil>", lat[depth], at, at) }
    depth--
    term(t, at)
}

function iri(text, at) {
    if (directive == "base") { root = resolved(text); directive = ""; return }
    if (directive == "name") { prefix[named] = resolved(text); print "prefix", named, prefix[named]; directive = ""; return }
    if (typed) { typed = 0; if (text != "http://www.w3.org/2001/XMLSchema#string") literal = literal "^^<" text ">"; flush(); return }
    flush()
    single("<" resolved(text) ">", at)
}

function name(text, at,    colon, local) {
    colon = index(text, ":")
    if (directive == "prefix") { named = substr(text, 1, colon); directive = "name"; return }
    local = substr(text, colon + 1)
    gsub(/\\/, "", local)
    iri(prefix[substr(text, 1, colon)] local, at)
}

function word(text, at) {
    flush()
    if (text ~ /^[Pp][Rr][Ee][Ff][Ii][Xx]$/) directive = "prefix"
    else if (text ~ /^[Bb][Aa][Ss][Ee]$/) directive = "base"
    else if (text == "a") term("<" rdf "type>", at)
    else if (text == "true" || text == "false") single("\"" text "\"^^<http://www.w3.org/2001/XMLSchema#boolean>", at)
    else single("\"" text "\"^^<http://www.w3.org/2001/XMLSchema#" (text ~ /[eE]/ ? "double" : text ~ /\./ ? "decimal" : "integer") ">", at)
}

function sign(c, at) {
    flush()
    if (c == "[") open("B", at)
    else if (c == "(") open("L", at)
    else if (c == "]" || c == ")") shut()
    else if (c == ".") { if (depth == 0 && directive == "") state[0] = 0 }
    else if (c == ";") state[depth] = 1
}

function take(n) { piece = substr(rest, 1, n); at = here; here += n; rest = substr(rest, n + 1) }

{
    rest = $0
    here = offset
    offset += length($0) + 1
    while (rest != "") {
        if (long != "") {
            n = index(rest, long)
            if (n == 0) { literal = literal rest "\\n"; break }
            literal = literal substr(rest, 1, n - 1) "\""
            take(n + 2)
            long = ""
        }
        else if (match(rest, /^[ \t\r]+/)) take(RLENGTH)
        else if (rest ~ /^#/) break
        else if (rest ~ /^("""|\047\047\047)/) { flush(); take(3); long = piece; literal = "\""; literal_at = at }
        else if (match(rest, /^"([^"\\]|\\.)*"/) || match(rest, /^\047([^\047\\]|\\.)*\047/)) {
            flush(); take(RLENGTH); literal = "\"" substr(piece, 2, length(piece) - 2) "\""; literal_at = at
        }
        else if (match(rest, /^@[A-Za-z]+(-[A-Za-z0-9]+)*/)) {
            take(RLENGTH)
            if (literal != "") { literal = literal piece; flush() }
            else if (piece == "@prefix") directive = "prefix"
            else if (piece == "@base") directive = "base"
        }
        else if (rest ~ /^\^\^/) { take(2); typed = 1 }
        else if (match(rest, /^<[^<>" ]*>/)) { take(RLENGTH); iri(substr(piece, 2, length(piece) - 2), at) }
        else if (match(rest, /^_:[^][(){}<>,;"\047#@^ \t\r]+/)) {
            n = RLENGTH
            while (substr(rest, n, 1) == ".") n--
            flush(); take(n); single(piece, at)
        }
        else if (match(rest, /^[^][(){}<>,;"\047#@^ \t\r:\\]*:([^][(){}<>,;"\047@^ \t\r\\]|\\.)*/)) {
            n = RLENGTH
            while (substr(rest, n, 1) == ".") n--
            take(n); name(piece, at)
        }
        else if (match(rest, /^[+-]?[0-9]*\.?[0-9]+([eE][+-]?[0-9]+)?/) || match(rest, /^[A-Za-z]+/)) { take(RLENGTH); word(piece, at) }
        else { take(1); sign(piece, at) }
    }
}

END { if (best != "") print "at", best }
