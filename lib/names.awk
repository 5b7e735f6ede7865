# Finds where an IRI is named in a document in any of the three syntaxes: tells
# the bytes at which names begin that say WANT, as far as its text shows. Where
# AXIOM is a keyword of Functional-Style Syntax and IRIS has IRIs in < and >, only
# the first axiom counts that has this keyword and names these IRIs and no other:
# it tells where it begins, and where it names WANT first.
BEGIN {
    want = ENVIRON["WANT"]
    bare = ENVIRON["BARE"]
    axiom = ENVIRON["AXIOM"]
    wanted = split(ENVIRON["IRIS"], list, " ")
    for (k = 1; k <= wanted; k++) is_wanted[list[k]] = 1
    if (bare != "ttl") {
        prefix["rdf:"] = "http://www.w3.org/1999/02/22-rdf-syntax-ns#"
        prefix["rdfs:"] = "http://www.w3.org/2000/01/rdf-schema#"
        prefix["xsd:"] = "http://www.w3.org/2001/XMLSchema#"
        prefix["owl:"] = "http://www.w3.org/2002/07/owl#"
    }
}

function tell(iri, at) {
    if (defining) return
    if (axiom == "") { if (iri == want) print at }
    else if (open > 0) {
        if (!(("<" iri ">") in is_wanted)) other = 1
        else if (!(iri in had)) { had[iri] = 1; count++ }
        if (iri == want && first == "") first = at
    }
}

# A bracket, and the keyword in front of the first of an axiom.
function bracket(c, at) {
    if (c == "(" && open > 0) open++
    else if (c == "(" && word == axiom) {
        open = 1; other = count = 0; first = ""; begun = word_at
        split("", had)
    }
    else if (c == ")" && open > 0 && --open == 0 && !other && count == wanted) {
        print begun
        if (first != "") print first
        exit
    }
}

{
    rest = $0
    here = offset
    offset += length($0) + 1
    while (rest != "") {
        if (quotes != "") {
            n = index(rest, quotes)
            if (n == 0) break
            here += n + length(quotes) - 1
            rest = substr(rest, n + length(quotes))
            quotes = ""
            continue
        }
        if (match(rest, /^[ \t\r]+/)) n = RLENGTH
        else if (rest ~ /^#/) break
        else if (rest ~ /^("""|\047\047\047)/ && bare != "ofn") { quotes = substr(rest, 1, 3); n = 3 }
        else if (match(rest, /^"([^"\\]|\\.)*"/)) n = RLENGTH
        else if (rest ~ /^"/) { quotes = "\""; n = 1 }
        else if (match(rest, /^<[^<>" ]*>/)) {
            n = RLENGTH
            if (defining && named != "") { prefix[named] = substr(rest, 2, n - 2); defining = 0 }
            else tell(substr(rest, 2, n - 2), here)
        }
        else if (match(rest, /^[^][(){}<>,;"\047#@^= \t\r:]*:[^][(){}<>,;"\047@^= \t\r]*/)) {
            n = RLENGTH
            while (substr(rest, n, 1) == "." && n > 1) n--
            text = substr(rest, 1, n)
            colon = index(text, ":")
            if (text == "Prefix:") { defining = 1; named = "" }
            else if (defining) named = substr(text, 1, colon)
            else if (substr(text, 1, colon) in prefix) tell(prefix[substr(text, 1, colon)] substr(text, colon + 1), here)
        }
        else if (match(rest, /^@?[A-Za-z0-9_.~-]+/)) {
            n = RLENGTH
            text = substr(rest, 1, n)
            word = text
            word_at = here
            if (text ~ /^(Prefix|@prefix|[Pp][Rr][Ee][Ff][Ii][Xx])$/) { defining = 1; named = "" }
            else if (bare == "omn" && ":" in prefix) tell(prefix[":"] text, here)
        }
        else {
            n = 1
            if (axiom != "") bracket(substr(rest, 1, 1), here)
        }
        here += n
        rest = substr(rest, n + 1)
    }
}
