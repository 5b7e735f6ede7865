# Says to people, on standard error, why the program ended with a status that is
# not 0: what is wrong, where it stands in the document, and what to do. The
# script `owl` sources it behind the program's own line, which says the same for
# programs. Documents are looked at again only where they are regular files.
# shellcheck shell=bash source-path=SCRIPTDIR disable=SC2154 # the script sets top, program, out and err

# The longest text in which the places of a graph's terms are searched.
most_searched=8000000

# Says one line, and behind it what `locate` has shown.
say() {
    local format=$1
    shift
    # shellcheck disable=SC2059 # each format is one of this file's
    printf -v format "$format" "$@"
    # A name may have control characters, too.
    printf 'owl: %s%s\n%s' "${place//[[:cntrl:]]/?}" "$format" "$shown" >&"$err"
}

# The front of a text, without a character that may be cut at its end.
front() {
    local text=${1:0:$2}
    while [[ $text == *[$'\x80'-$'\xbf'] ]]; do text=${text%?}; done
    printf '%s' "${text%[$'\xc0'-$'\xff']}"
}

# A word as it can be shown: not too long, and without control characters.
clean() {
    local text=${1//[[:cntrl:]]/?}
    if ((${#text} > 80)); then
        front "$text" 80
        printf '...'
    else
        printf '%s' "$text"
    fi
}

# The word of several that is nearest to the first, if one is near.
nearest() {
    local word=$1
    shift
    awk '
        function least(a, b) { return a < b ? a : b }
        function distance(a, b,    i, j, d, n, m) {
            n = length(a); m = length(b)
            for (i = 0; i <= n; i++) d[i, 0] = i
            for (j = 0; j <= m; j++) d[0, j] = j
            for (i = 1; i <= n; i++) for (j = 1; j <= m; j++) {
                d[i, j] = least(least(d[i - 1, j], d[i, j - 1]) + 1, d[i - 1, j - 1] + (substr(a, i, 1) != substr(b, j, 1)))
                if (i > 1 && j > 1 && substr(a, i, 1) == substr(b, j - 1, 1) && substr(a, i - 1, 1) == substr(b, j, 1))
                    d[i, j] = least(d[i, j], d[i - 2, j - 2] + 1)
            }
            return d[n, m]
        }
        BEGIN {
            word = tolower(ARGV[1])
            best = length(word) < 4 ? 2 : length(word) < 9 ? 3 : 4
            for (k = 2; k < ARGC; k++) {
                gap = length(ARGV[k]) - length(word)
                if (gap >= best || -gap >= best) continue
                n = distance(word, tolower(ARGV[k]))
                if (n < best) { best = n; found = ARGV[k] }
            }
            print found
        }' "$word" "$@"
}

# --- Places.

# Sets `place` and `shown` for the byte at which something stands in a document,
# and `rest` to what stands in the line from there on.
locate() {
    local file=$1 at=$2 size
    local -a told
    place="$file: " shown='' rest='' ended=''
    [[ -f $file && -r $file ]] && size=$(stat -L -c %s -- "$file") || return 0
    if ((at >= size)); then
        ended=yes
        at=$(text_end "$file" "$size")
    fi
    mapfile -t told < <({
        head -c "$at" -- "$file"
        echo .
        tail -c "+$((at + 1))" -- "$file" | head -c 400
    } | tr '\0' '\1' | AT=$at awk -f "$lib/line.awk")
    place="$file:${told[0]}: "
    rest=${told[1]}
    printf -v shown '    %s\n    %s\n' "${told[2]}" "${told[3]}"
}

# How many bytes a text has without the white space at its end.
text_end() {
    local file=$1 size=$2 tail
    tail=$(tail -c 4096 -- "$file" | tr '\0' '\1' && printf .)
    tail=${tail%.}
    tail=${tail##*[![:space:]]}
    echo $((size - ${#tail}))
}

# The word, name, string or sign that begins at the place.
token() {
    local text=${rest%%[[:space:]]*} pattern='^[^][(){}<>,;"'\''=^@#]+'
    if [[ $text =~ $pattern ]]; then
        text=${BASH_REMATCH[0]}
        while [[ $text == ?*. ]]; do text=${text%.}; done
    elif [[ $text == '<'*'>'* ]]; then
        text=${text%%'>'*}'>'
    elif [[ $text == @[a-zA-Z]* ]]; then
        text=${text%%[!@a-zA-Z0-9-]*}
    else
        text=${text:0:1}
    fi
    clean "$text"
}

# A name as it stands at the place, or the IRI where no place was found.
named() {
    if [[ -n $rest ]]; then
        token
    else
        clean "$1"
    fi
}

# The syntax of a document, by its name.
syntax_of() {
    case $1 in
    *.ttl) echo Turtle ;;
    *.omn) echo 'Manchester Syntax' ;;
    *) echo 'Functional-Style Syntax' ;;
    esac
}

# Whether a document can be searched, as a text.
is_searched() {
    [[ $1 != *.owc && -f $1 && -r $1 ]] && (($(stat -L -c %s -- "$1") <= most_searched))
}

# What a document looks like, where that is not the syntax of its name: a few
# words on what it is, and what to do.
sniff() {
    local file=$1 start first is=
    [[ -f $file && -r $file ]] || return 1
    start=$(head -c 4096 -- "$file" | tr '\0' '\1')
    start=${start#$'\xef\xbb\xbf'}
    while IFS=$' \t\r' read -r first; do
        [[ -z $first || $first == '#'* ]] || break
    done <<<"$start"
    local a_prefix='^(@prefix|@base|[Pp][Rr][Ee][Ff][Ii][Xx]|[Bb][Aa][Ss][Ee])[[:space:]]+[^(]*<'
    local a_triple='^(<[^>]*>|_:[^ ]+)[[:space:]]+<[^>]*>[[:space:]].*\.[[:space:]]*$'
    local fss='^(Prefix[[:space:]]*\(|Ontology[[:space:]]*\()' omn='^(Prefix:|Ontology:|Namespace:)'
    case $start in
    $'\x1f\x8b'*) is='is compressed by gzip: unpack it first, as by gunzip' ;;
    PK$'\x03'*) is='is a zip archive: unpack it first' ;;
    $'\xfd'7zXZ* | BZh*) is='is compressed: unpack it first' ;;
    $'OWL2C1\n'*) [[ $file == *.owc ]] || is='has the canonical bytes of an ontology: its name has to end in .owc' ;;
    $'\xff\xfe'* | $'\xfe\xff'*) is='is in UTF-16: turn it into UTF-8 first, as by iconv -f UTF-16 -t UTF-8' ;;
    esac
    if [[ -z $is ]]; then
        case $first in
        '<?xml'* | '<!DOCTYPE'* | '<!--'* | '<rdf:RDF'* | '<Ontology' | '<Ontology '* | '<html'[\ \>]* | '<HTML'[\ \>]*)
            case $start in
            *'<rdf:RDF'* | *:RDF[[:space:]]*) is='looks like RDF/XML, which owl does not read: translate it first, as by rapper -i rdfxml -o turtle' ;;
            *'<Ontology'* | *owl/xml*) is='looks like OWL/XML, which owl does not read: save it as Functional-Style Syntax or Turtle' ;;
            *'<html'* | *'<HTML'*) is='looks like HTML: is it the page of the ontology, and not the ontology?' ;;
            *) is='looks like XML, which owl does not read' ;;
            esac
            ;;
        'format-version: '* | '[Term]'* | '[Typedef]'*) is='looks like OBO, which owl does not read: save it as Functional-Style Syntax or Turtle' ;;
        '{'*) is='looks like JSON, as JSON-LD, which owl does not read: translate it to Turtle first' ;;
        '['*)
            [[ $start =~ ^[[:space:]]*\[[[:space:]]*\{ ]] && is='looks like JSON, as JSON-LD, which owl does not read: translate it to Turtle first'
            ;;
        esac
    fi
    if [[ -z $is ]]; then
        if [[ $first =~ $a_prefix ]]; then
            [[ $file == *.ttl ]] || is='looks like Turtle: its name has to end in .ttl'
        elif [[ $first =~ $fss ]]; then
            [[ $file == *.ofn ]] || is='looks like Functional-Style Syntax: its name has to end in .ofn'
        elif [[ $first =~ $omn ]]; then
            [[ $file == *.omn ]] || is='looks like Manchester Syntax: its name has to end in .omn'
        elif [[ $first =~ $a_triple ]]; then
            [[ $file == *.ttl ]] || is='looks like N-Triples, which Turtle has in it: its name has to end in .ttl'
        fi
    fi
    [[ -n $is ]] && echo "$is"
}

# --- Texts that are wrong at a place.

functional_words=(Prefix Ontology Import Annotation Declaration Class Datatype ObjectProperty DataProperty
    AnnotationProperty NamedIndividual SubClassOf EquivalentClasses DisjointClasses DisjointUnion SubObjectPropertyOf
    ObjectPropertyChain EquivalentObjectProperties DisjointObjectProperties InverseObjectProperties ObjectPropertyDomain
    ObjectPropertyRange FunctionalObjectProperty InverseFunctionalObjectProperty ReflexiveObjectProperty
    IrreflexiveObjectProperty SymmetricObjectProperty AsymmetricObjectProperty TransitiveObjectProperty SubDataPropertyOf
    EquivalentDataProperties DisjointDataProperties DataPropertyDomain DataPropertyRange FunctionalDataProperty
    DatatypeDefinition HasKey SameIndividual DifferentIndividuals ClassAssertion ObjectPropertyAssertion
    NegativeObjectPropertyAssertion DataPropertyAssertion NegativeDataPropertyAssertion AnnotationAssertion
    SubAnnotationPropertyOf AnnotationPropertyDomain AnnotationPropertyRange ObjectInverseOf ObjectIntersectionOf
    ObjectUnionOf ObjectComplementOf ObjectOneOf ObjectSomeValuesFrom ObjectAllValuesFrom ObjectHasValue ObjectHasSelf
    ObjectMinCardinality ObjectMaxCardinality ObjectExactCardinality DataSomeValuesFrom DataAllValuesFrom DataHasValue
    DataMinCardinality DataMaxCardinality DataExactCardinality DataIntersectionOf DataUnionOf DataComplementOf DataOneOf
    DatatypeRestriction)
frame_words=(Prefix: Ontology: Import: Annotations: Class: Datatype: ObjectProperty: DataProperty: AnnotationProperty:
    Individual: EquivalentTo: SubClassOf: DisjointWith: DisjointUnionOf: HasKey: Domain: Range: Characteristics:
    SubPropertyOf: InverseOf: SubPropertyChain: Types: Facts: SameAs: DifferentFrom: EquivalentClasses: DisjointClasses:
    EquivalentProperties: DisjointProperties: SameIndividual: DifferentIndividuals:)
frame_signs=(some only value Self min max exactly and or not that inverse o Functional InverseFunctional Reflexive
    Irreflexive Symmetric Asymmetric Transitive)

# Whether a word is one of the others.
is_among() {
    local word=$1 other
    shift
    for other; do [[ $word != "$other" ]] || return 0; done
    return 1
}

# Whether a text is UTF-8.
is_utf8() {
    local two='[\xC2-\xDF][\x80-\xBF]' three='\xE0[\xA0-\xBF][\x80-\xBF]|[\xE1-\xEC\xEE\xEF][\x80-\xBF]{2}|\xED[\x80-\x9F][\x80-\xBF]'
    local four='\xF0[\x90-\xBF][\x80-\xBF]{2}|[\xF1-\xF3][\x80-\xBF]{3}|\xF4[\x80-\x8F][\x80-\xBF]{2}'
    [[ $(printf '%s' "$1" | sed -E "s/$two|$three|$four/x/g") != *[$'\x80'-$'\xff']* ]]
}

# How a prefix is declared.
prefix_form() {
    local iri=IRI
    case $2 in
    owl:) iri=$owl_iri ;;
    rdf:) iri=$rdf_iri ;;
    rdfs:) iri=$rdfs_iri ;;
    xsd:) iri=$xsd_iri ;;
    skos:) iri=http://www.w3.org/2004/02/skos/core# ;;
    dc:) iri=http://purl.org/dc/elements/1.1/ ;;
    dcterms: | dct: | terms:) iri=http://purl.org/dc/terms/ ;;
    foaf:) iri=http://xmlns.com/foaf/0.1/ ;;
    obo:) iri=http://purl.obolibrary.org/obo/ ;;
    esac
    case $1 in
    *.ttl) echo "@prefix $2 <$iri> ." ;;
    *.omn) echo "Prefix: $2 <$iri>" ;;
    *) echo "Prefix($2=<$iri>)" ;;
    esac
}

# Where a bracket of a document in Functional-Style Syntax is open at its end.
open_brackets() {
    is_searched "$1" || return 0
    tr '\0' ' ' <"$1" | awk '{
        gsub(/<[^<>" ]*>/, ""); gsub(/\\./, ""); line = $0
        while (line != "") {
            if (inside) { n = index(line, "\""); if (!n) break; inside = 0 }
            else {
                if (!match(line, /[()"#]/)) break
                n = RSTART
                c = substr(line, n, 1)
                if (c == "#") break
                if (c == "(") open++
                else if (c == ")") open--
                else inside = 1
            }
            line = substr(line, n + 1)
        }
    } END { print open + 0 }'
}

not_here() {
    local file=$1 word near language open text
    language=$(syntax_of "$file")
    if [[ -f $file && ! -s $file || -n $ended && $place == "$file:1:1: " ]]; then
        place="$file: " shown=
        say 'the document is empty'
        return
    fi
    if [[ -n $ended ]]; then
        case $file in
        *.ttl) say 'the document ends behind this, inside of a statement: a dot, a bracket or a part is missing' ;;
        *.omn) say 'the document ends behind this, and something is missing there: a name, an expression or a bracket' ;;
        *)
            open=$(open_brackets "$file")
            if [[ -n $open ]] && ((open > 0)); then
                say 'the document ends behind this, and %s %s open' "$open" "$( ((open == 1)) && echo 'bracket is' || echo 'brackets are')"
            else
                say 'the document ends behind this, and something is missing there'
            fi
            ;;
        esac
        return
    fi
    word=$(token)
    if [[ $word == [\"\'] ]]; then
        say 'a string may not stand here'
        return
    fi
    case $file in
    *.ofn)
        if [[ $word == ')' && $item == "$at" ]]; then
            say 'this bracket is one too many: the ontology ended before it'
        elif [[ $word == ')' ]]; then
            say 'this bracket comes too early: a part is missing in front of it'
        elif is_among "$word" "${functional_words[@]}" || [[ ! $word =~ ^[A-Za-z_] || $word == *:* ]]; then
            say '"%s" may not stand here: it is one too many, or a bracket or another part is missing in front of it' "$word"
        elif near=$(nearest "$word" "${functional_words[@]}") && [[ -n $near ]]; then
            say '"%s" is no word of %s: is "%s" meant?' "$word" "$language" "$near"
        else
            say '"%s" is no word of %s, and a name has a colon in it or stands in < and >' "$word" "$language"
        fi
        ;;
    *.omn)
        if [[ $rest =~ ^[A-Za-z]+: ]] && ! is_among "${BASH_REMATCH[0]}" "${frame_words[@]}" &&
            near=$(nearest "${BASH_REMATCH[0]}" "${frame_words[@]}") && [[ -n $near ]]; then
            say '"%s" is no keyword of %s: is "%s" meant?' "${BASH_REMATCH[0]}" "$language" "$near"
        elif [[ $word =~ ^[A-Za-z]+$ ]] && ! is_among "$word" "${frame_signs[@]}" &&
            near=$(nearest "$word" "${frame_signs[@]}") && [[ -n $near ]]; then
            say '"%s" may not stand here: is "%s" meant?' "$word" "$near"
        elif is_among "$word" "${frame_words[@]}"; then
            say '"%s" may not stand here: a part is missing in front of it, or this frame has no such section' "$word"
        else
            say '"%s" may not stand here' "$word"
        fi
        ;;
    *)
        if [[ $word == [].\;,\)] ]]; then
            say '"%s" comes too early: a term or a bracket is missing in front of it' "$word"
        else
            text=${shown%%$'\n'*}
            text=${text#"${text%%[![:space:]]*}"}
            if [[ $text == "$word"* ]]; then
                say '"%s" may not stand here: the statement above it has no dot at its end, or another sign is missing there' "$word"
            else
                say '"%s" may not stand here: a dot or another sign is missing in front of it, or a word is one too many' "$word"
            fi
        fi
        ;;
    esac
}

bad_token() {
    local file=$1 word
    word=$(token)
    case $rest in
    \"* | \'*)
        if [[ ${rest:0:1} == \' && $file != *.ttl ]]; then
            say 'strings stand in double quotes in %s' "$(syntax_of "$file")"
        elif ((${#rest} < 400)) && ! is_utf8 "$rest" || ! is_utf8 "$(front "$rest" 400)"; then
            say 'in or behind the string that begins here stands a byte that is no UTF-8; as for Latin-1, iconv -f LATIN1 -t UTF-8 turns it into that'
        elif [[ $file == *.ttl ]]; then
            say 'the string that begins here does not end, has a line end, or a bad escape behind a backslash in it'
        else
            say 'the string that begins here does not end, or has a backslash in it that stands before no " and no backslash'
        fi
        ;;
    '<'*) say 'no IRI begins here: one stands in < and >, with a scheme in front and without spaces' ;;
    _:*) say 'no label of a blank node begins here' ;;
    [A-Za-z]*) say '"%s" is no word of %s: a name has a colon in it, as :%s, or stands in < and >' "$word" "$(syntax_of "$file")" "$word" ;;
    *) say 'nothing that %s knows begins with "%s"' "$(syntax_of "$file")" "$word" ;;
    esac
}

# The reason for which a text is refused at a place.
explain_text() {
    local file=$1 at=$2 reason=$3 item=$4 looks word near line
    locate "$file" "$at"
    if [[ -z $shown ]]; then
        say 'this is no file that can be looked at again; docs/REFUSALS.md has an entry for %s' "$reason"
        return
    fi
    if looks=$(sniff "$file"); then
        say 'this %s' "$looks"
        return
    fi
    case $reason in
    NotHere) not_here "$file" ;;
    BadToken) bad_token "$file" ;;
    BadUtf8)
        say 'this byte is no UTF-8 (%s): the document may be in another encoding; as for Latin-1, iconv -f LATIN1 -t UTF-8 turns it into that' \
            "$(tail -c "+$((at + 1))" -- "$file" 2>/dev/null | head -c 1 | od -A n -t x1 | tr -d ' ')"
        ;;
    UnknownPrefix)
        word=$(token)
        near=
        [[ $file != *.omn ]] || near=$(nearest "${word%%:*}:" "${frame_words[@]}")
        if [[ -n $near ]]; then
            say 'the prefix "%s:" is not declared above this: is the keyword "%s" meant?' "${word%%:*}" "$near"
        else
            say 'the prefix "%s:" is not declared above this: %s declares it' "${word%%:*}" "$(prefix_form "$file" "${word%%:*}:")"
        fi
        ;;
    PrefixTwice)
        word=$(token)
        line=$(grep -a -n -m 1 -F -e "Prefix($word" -e "Prefix: $word" -- "$file")
        say 'the prefix "%s" is declared before%s: it can have one IRI' "$word" "${line:+, in line ${line%%:*}}"
        ;;
    PrefixFixed) say 'rdf:, rdfs:, xsd: and owl: stand for the IRIs of the W3C, with no other: leave this declaration out, or take another prefix' ;;
    BadLiteral) say 'a literal of this datatype is not written in this form: a plain string or one with a language tag has no datatype' ;;
    EmptyKey) say 'a HasKey has at least one property in its two brackets' ;;
    BadIri) say 'no IRI has all of these characters: an escape here stands for one that it may not have' ;;
    RelativeWithoutBase)
        if [[ $file == "$main" ]]; then
            say 'this IRI is relative, and no base is set above it: put --base IRI in front of the names, set one by "@base <IRI> .", or write it in full'
        else
            say 'this IRI is relative, and no base is set above it: "@base <IRI> ." sets one, or write it in full'
        fi
        ;;
    *) say '%s' "docs/REFUSALS.md has an entry for $reason" ;;
    esac
}

# --- Faults of graphs and frames.

owl_words=(AllDifferent AllDisjointClasses AllDisjointProperties Annotation AnnotationProperty AsymmetricProperty Axiom
    Class DataRange DatatypeProperty DeprecatedClass DeprecatedProperty FunctionalProperty InverseFunctionalProperty
    IrreflexiveProperty NamedIndividual NegativePropertyAssertion Nothing ObjectProperty Ontology OntologyProperty
    ReflexiveProperty Restriction SymmetricProperty Thing TransitiveProperty allValuesFrom annotatedProperty
    annotatedSource annotatedTarget assertionProperty backwardCompatibleWith bottomDataProperty bottomObjectProperty
    cardinality complementOf datatypeComplementOf deprecated differentFrom disjointUnionOf disjointWith distinctMembers
    equivalentClass equivalentProperty hasKey hasSelf hasValue imports incompatibleWith intersectionOf inverseOf
    maxCardinality maxQualifiedCardinality members minCardinality minQualifiedCardinality onClass onDataRange onDatatype
    onProperties onProperty oneOf priorVersion propertyChainAxiom propertyDisjointWith qualifiedCardinality rational real
    sameAs someValuesFrom sourceIndividual targetIndividual targetValue topDataProperty topObjectProperty unionOf
    versionIRI versionInfo withRestrictions)
owl_iri=http://www.w3.org/2002/07/owl#
rdf_iri=http://www.w3.org/1999/02/22-rdf-syntax-ns#
rdfs_iri=http://www.w3.org/2000/01/rdf-schema#
xsd_iri=http://www.w3.org/2001/XMLSchema#

# An IRI of the W3C's vocabularies by its usual name, others as they are.
short() {
    case $1 in
    "<$owl_iri"*) printf 'owl:%s' "$(clean "${1:${#owl_iri}+1:-1}")" ;;
    "<$rdf_iri"*) printf 'rdf:%s' "$(clean "${1:${#rdf_iri}+1:-1}")" ;;
    "<$rdfs_iri"*) printf 'rdfs:%s' "$(clean "${1:${#rdfs_iri}+1:-1}")" ;;
    "<$xsd_iri"*) printf 'xsd:%s' "$(clean "${1:${#xsd_iri}+1:-1}")" ;;
    *) clean "$1" ;;
    esac
}

# Where a word of OWL's vocabulary is none: the word that is meant, or nothing.
# Its status is 0 where the IRI has OWL's namespace and is no word of it.
is_no_word() {
    [[ $1 == "<$owl_iri"*'>' ]] || return 1
    local word=${1:${#owl_iri}+1:-1}
    is_among "$word" "${owl_words[@]}" && return 1
    case $word in
    sameIndividualAs | sameClassAs | samePropertyAs) echo "${word/#same*/sameAs}" && return ;;
    esac
    nearest "$word" "${owl_words[@]}"
}

# Says of an IRI that it is no word of OWL 2.
no_word() {
    local iri=$1 near=$2
    if [[ -n $near ]]; then
        say '%s is no word of OWL 2: is owl:%s meant?' "$(short "$iri")" "$near"
    else
        say '%s is no word of OWL 2' "$(short "$iri")"
    fi
}

# Goes through a graph for a triple or a node: sets `at` to the places of a
# triple's terms, `node` to that of a node, `types` to lines `TERM TYPE`, `has`
# to lines `PREDICATE OBJECT AT`.
search_graph() {
    local file=$1 gens line
    at='' node='' types='' has='' prefixes=''
    is_searched "$file" && [[ $file == *.ttl ]] || return 1
    [[ $file == "$main" ]] || local base=
    gens=$(grep -a -o -E '_:gen[1-9][0-9]{0,17}' -- "$file" | cut -c 6- | sort -n | tail -n 1)
    while IFS= read -r line; do
        case $line in
        'at '*) at=${line#at } ;;
        'node '*) node=${line#node } ;;
        'type '*) types+=${line#type }$'\n' ;;
        'has '*) has+=${line#has }$'\n' ;;
        'prefix '*) prefixes+=${line#prefix }$'\n' ;;
        esac
    done < <(tr '\0' '\1' <"$file" | WANT_S=${2-} WANT_P=${3-} WANT_O=${4-} GENS=${gens:-0} BASE=$base awk -f "$lib/turtle.awk")
}

# Says of a graph's triple what is wrong with it.
explain_triple() {
    local file=$1 reason=$2 s=$3 p=$4 o=$5 near term
    local -a places
    search_graph "$file" "$s" "$p" "$o"
    read -r -a places <<<"$at"
    # The first of the three that is no word of OWL 2, or has no type.
    for term in 1 2 0; do
        local word
        case $term in 0) word=$s ;; 1) word=$p ;; *) word=$o ;; esac
        if near=$(is_no_word "$word"); then
            [[ -z $at ]] || locate "$file" "${places[term]}"
            no_word "$word" "$near"
            return
        fi
    done
    [[ -z $at ]] || locate "$file" "${places[1]}"
    if [[ $reason == Reserved ]]; then
        say 'this triple takes a word of a reserved vocabulary for what OWL 2 does not take it for: %s %s %s' "$(short "$s")" "$(short "$p")" "$(short "$o")"
        return
    fi
    explain_untyped "$file" "$s" "$p" "$o"
}

# Whether a term of the triple that was searched has a type in the document.
is_typed() {
    [[ $'\n'$types == *$'\n'"$1 "* ]]
}

# Whether a term of the triple that was searched is a node with the type of an
# expression.
is_expression() {
    local type
    [[ $1 == _:* ]] || return 1
    for type in "${owl_iri}Class" "${owl_iri}Restriction" "${rdfs_iri}Datatype"; do
        [[ $'\n'$types != *$'\n'"$1 <$type>"$'\n'* ]] || return 0
    done
    return 1
}

# The kind that a word of the vocabulary asks of what stands beside it.
wanted_kind() {
    case $1 in
    "<${rdfs_iri}subClassOf>" | "<${owl_iri}equivalentClass>" | "<${owl_iri}disjointWith>" | "<${rdf_iri}type>" | "<${owl_iri}complementOf>" | "<${owl_iri}onClass>") echo owl:Class ;;
    "<${owl_iri}inverseOf>") echo owl:ObjectProperty ;;
    "<${rdfs_iri}subPropertyOf>" | "<${owl_iri}equivalentProperty>" | "<${owl_iri}propertyDisjointWith>" | "<${owl_iri}onProperty>" | "<${rdfs_iri}domain>" | "<${rdfs_iri}range>") echo property ;;
    *) return 1 ;;
    esac
}

# undeclared FILE AT IRI KIND [MORE]: says of a name in a graph how it is declared.
undeclared() {
    local name
    [[ -z $2 ]] || locate "$1" "$2"
    name=$(named "$3")
    if [[ $4 == property ]]; then
        say '%s is not declared here: say what it is, as by "%s a owl:ObjectProperty ." (or owl:DatatypeProperty, or owl:AnnotationProperty)%s' "$name" "$name" "${5-}"
    else
        say '%s is not declared here: add "%s a %s ."' "$name" "$name" "$4"
    fi
}

explain_untyped() {
    local file=$1 s=$2 p=$3 o=$4 kind
    local -a places
    read -r -a places <<<"$at"
    if [[ $p != "<$owl_iri"* && $p != "<$rdf_iri"* && $p != "<$rdfs_iri"* && $p != "<$xsd_iri"* ]]; then
        # What nothing declares is taken as an annotation property where the command guesses.
        if [[ -n $guesses ]] || is_typed "$p"; then
            say 'this triple is no assertion: %s has a kind that does not fit what stands on its two sides' "$(named "$p")"
        elif [[ -n $main ]] && ! is_expression "$s" && ! is_expression "$o"; then
            undeclared "$file" "${places[1]-}" "$p" property '; or put --guess in front of the names to take such properties as annotation properties'
        else
            undeclared "$file" "${places[1]-}" "$p" property
        fi
        return
    fi
    kind=$(wanted_kind "$p") || kind=
    if [[ -n $kind && $s == '<'* && $p != "<${rdf_iri}type>" && $p != "<${owl_iri}onProperty>" ]] && ! is_typed "$s"; then
        undeclared "$file" "${places[0]-}" "$s" "$kind"
    elif [[ -n $kind && $o == '<'* && $o != "<$owl_iri"* && $o != "<$xsd_iri"* ]] && ! is_typed "$o"; then
        undeclared "$file" "${places[2]-}" "$o" "$kind"
    else
        say 'this triple names what may not stand there, by its kind: %s %s %s' "$(short "$s")" "$(short "$p")" "$(short "$o")"
    fi
}

# Says of a graph's node what is wrong with it.
explain_node() {
    local file=$1 reason=$2 label=$3 predicate object spot own near
    search_graph "$file" "$label"
    [[ -z $node ]] || locate "$file" "$node"
    if [[ $reason == BadNode || $reason == Orphan ]]; then
        while read -r predicate object spot own; do
            if near=$(is_no_word "$predicate"); then
                locate "$file" "$own"
                no_word "$predicate" "$near"
                return
            elif near=$(is_no_word "$object"); then
                locate "$file" "$spot"
                no_word "$object" "$near"
                return
            fi
        done <<<"$has"
    fi
    case $reason in
    Mixed) say 'this node has the marks of two things, as of a class and of a list: make two nodes of it' ;;
    BadList) say 'this cell of a list has not one rdf:first and one rdf:rest, or its rest is no list: write the list as ( .. )' ;;
    Cycle) say 'this node is a part of itself, by way of its own parts, which no expression is' ;;
    BadNode) say 'the triples of this node are those of no class expression, data range, axiom or annotation: one is missing, too many or a bad list or number%s' "$(listed)" ;;
    MainMissing) say 'this node annotates a triple that is not in the document: add the triple that its owl:annotatedSource, owl:annotatedProperty and owl:annotatedTarget name' ;;
    Orphan) say 'this node is an expression that no axiom uses: use it in one, or leave it out' ;;
    esac
}

# The predicates of the node that was searched.
listed() {
    local predicate rest found=
    while read -r predicate rest; do
        [[ -z $predicate ]] || found+="${found:+, }$(short "$predicate")"
    done <<<"$has"
    [[ -z $found ]] || printf ' (it has %s)' "$(clean "$found")"
}

# explain_kinds FILE IRI [IS]: says of an IRI that it has two kinds.
explain_kinds() {
    local file=$1 iri=$2 is=${3:-is declared}
    find_name "$file" "${iri:1:-1}"
    say '%s %s as two kinds that no IRI may have together, as class and datatype, or as two kinds of properties: take two IRIs' "$(named "$iri")" "$is"
}

# Sets the place to where an IRI is first named.
find_name() {
    local file=$1 iri=$2 spot
    is_searched "$file" || return 0
    spot=$(tr '\0' '\1' <"$file" | WANT=$iri BARE=${file##*.} awk -f "$lib/names.awk" | sed -n "${3-1}p")
    [[ -z $spot ]] || locate "$file" "$spot"
}

# find_item FILE ITEM IRI: sets the place to where an axiom that the line has in full
# names an IRI, or begins; else to where the IRI is first named.
find_item() {
    local file=$1 item=$2 iri=$3 iris
    local -a spots=()
    if is_searched "$file" && [[ $file == *.ofn && $item == *')' ]]; then
        iris=$(sed -E 's/"([^"\\]|\\.)*"//g' <<<"$item" | grep -o '<[^<>]*>' | sort -u | tr '\n' ' ')
        mapfile -t spots < <(tr '\0' '\1' <"$file" | WANT=$iri BARE=ofn AXIOM=${item%%(*} IRIS=$iris awk -f "$lib/names.awk")
    fi
    if ((${#spots[@]})); then
        locate "$file" "${spots[${#spots[@]} - 1]}"
    elif [[ -n $iri ]]; then
        find_name "$file" "$iri"
    fi
}

no_header() {
    local file=$1
    if [[ ! -s $file && -f $file ]]; then
        place="$file: "
        say 'the document is empty'
    elif is_searched "$file" && grep -a -q -E ':Ontology([^A-Za-z0-9]|$)' -- "$file" && search_graph "$file" '' &&
        [[ $'\n'$prefixes != *$'\n'"owl: $owl_iri"$'\n'* ]]; then
        say 'no node is an owl:Ontology: the prefix owl: has to stand for <%s>' "$owl_iri"
    else
        say 'no node of the graph is an ontology: add "<IRI> a owl:Ontology ."'
    fi
}

# How a kind is declared in the syntax of a document.
declaration() {
    local file=$1 kind=$2 iri=$3
    case $file in
    *.ttl)
        case $kind in
        Datatype) kind=rdfs:Datatype ;;
        DataProperty) kind=owl:DatatypeProperty ;;
        *) kind=owl:$kind ;;
        esac
        echo "$iri a $kind ."
        ;;
    *.omn) echo "${kind/NamedIndividual/Individual}: $iri" ;;
    *) echo "Declaration($kind($iri))" ;;
    esac
}

# What is wrong with the frames of a document, at a place.
explain_frames() {
    local file=$1 fault=$2 iri=$3 at=$4 name
    locate "$file" "$at"
    name=$(named "$iri")
    case $fault in
    Untyped) say '%s is not declared: a frame says what it is, as "Class: %s" (or Datatype:, ObjectProperty:, DataProperty:, AnnotationProperty:)' "$name" "$name" ;;
    WrongKind) say '%s is declared as another kind than has to stand here: objects go with object properties, data with data properties' "$name" ;;
    WrongForm) say 'what stands here may not: an inverse, a restriction or an expression where a name is wanted, or data where objects are' ;;
    esac
}

# What is wrong with bytes that are not canonical.
not_canon() {
    local file=$1 looks
    if [[ -f $file && ! -s $file ]]; then
        say 'the document is empty'
    elif looks=$(sniff "$file"); then
        say 'this %s' "$looks"
    elif [[ -f $file && -r $file && $(head -c 7 -- "$file" | tr '\0' '\1'; echo .) != $'OWL2C1\n.' ]]; then
        say 'canonical bytes begin with a line "OWL2C1", and these do not: "owl canon" writes such bytes'
    else
        say 'these are not the bytes that "owl canon" writes of any ontology: some are missing, too many or changed; write them anew'
    fi
}

# Says what is wrong with a document: `fault` is the line behind its name.
explain_document() {
    local file=$1 fault=$2
    local at_place='^item at ([0-9]+): ([A-Za-z0-9]+) at ([0-9]+)$'
    local of_frames='^(Untyped|WrongKind) (<[^>]*>) at ([0-9]+)$'
    local of_triple='^(Untyped|Reserved) (<[^>]*>|_:[^ ]+) (<[^>]*>) (.*)$'
    local of_import='^MissingImport (<.*>)$' of_kinds='^TwoKinds (<.*>)$' of_header='^BadHeader (.*)$' of_form='^WrongForm at ([0-9]+)$'
    local of_node='^(Mixed|BadList|Cycle|BadNode|MainMissing|Orphan) (_:.*)$'
    place="$file: "
    if [[ $fault =~ $at_place ]]; then
        explain_text "$file" "${BASH_REMATCH[3]}" "${BASH_REMATCH[2]}" "${BASH_REMATCH[1]}"
    elif [[ $fault =~ $of_import ]]; then
        fault=${BASH_REMATCH[1]}
        find_name "$file" "${fault:1:-1}"
        say 'no document that is named has the IRI of this import: name it behind the others, or put --partial in front of the names to do without'
    elif [[ $fault =~ $of_form ]]; then
        explain_frames "$file" WrongForm '' "${BASH_REMATCH[1]}"
    elif [[ $file == *.omn && $fault =~ $of_frames ]]; then
        explain_frames "$file" "${BASH_REMATCH[@]:1:3}"
    elif [[ $fault =~ $of_kinds ]]; then
        explain_kinds "$file" "${BASH_REMATCH[1]}"
    elif [[ $fault == NotCanon ]]; then
        not_canon "$file"
    elif [[ $fault == NoHeader ]]; then
        no_header "$file"
    elif [[ $fault == TwoHeaders ]]; then
        find_name "$file" "${owl_iri}Ontology" 2
        say 'two nodes of the graph are an owl:Ontology, and one may be'
    elif [[ $fault =~ $of_header ]]; then
        fault=${BASH_REMATCH[1]}
        find_name "$file" "${fault:1:-1}"
        say 'this ontology has a version or an import that is no IRI, two versions, or a version without an IRI of its own: %s' "$(clean "$fault")"
    elif [[ $fault =~ $of_triple ]]; then
        explain_triple "$file" "${BASH_REMATCH[@]:1:4}"
    elif [[ $fault =~ $of_node ]]; then
        explain_node "$file" "${BASH_REMATCH[@]:1:2}"
    else
        say 'docs/REFUSALS.md has an entry for %s' "$(clean "${fault%% *}")"
    fi
}

# --- What is not declared, or can't be said.

explain_target() {
    local line=$1 kind iri why other
    local main=${names[0]}
    local of_undeclared='^typing: Undeclared ([A-Za-z]+) (<[^>]*>): ' of_kinds='^typing: TwoKinds (<.*>)$'
    local of_target='^target: ([A-Za-z]+)( <([^>]*)>)?: '
    place="$main: "
    if [[ $line =~ $of_undeclared ]]; then
        kind=${BASH_REMATCH[1]} iri=${BASH_REMATCH[2]}
        find_item "$main" "${line#"${BASH_REMATCH[0]}"}" "${iri:1:-1}"
        iri=$(named "$iri")
        if [[ $main == *.owc ]]; then
            say '%s stands in it as %s and is declared nowhere: "declare" in place of "translate" adds what is missing; or name a document that it imports and that declares it' \
                "$iri" "$(a_kind "$kind")"
            return
        fi
        say '%s stands here as %s and is declared nowhere: "declare" in place of "translate" adds what is missing; or add "%s", or import a document that declares it' \
            "$iri" "$(a_kind "$kind")" "$(declaration "$main" "$kind" "$iri")"
    elif [[ $line =~ $of_kinds ]]; then
        # With what is added, a name is declared as what it stands for.
        explain_kinds "$main" "${BASH_REMATCH[1]}" "${adds:+stands here, or is declared,}"
    elif [[ $line =~ $of_target ]]; then
        why=${BASH_REMATCH[1]} iri=${BASH_REMATCH[3]-}
        find_item "$main" "${line#"${BASH_REMATCH[0]}"}" "$iri"
        other='--to ttl and --to fss can'
        case $why in
        Reserved) say 'a graph cannot say an axiom in which <%s> is taken for what it is not: take an IRI of your own; --to fss can' "$(clean "$iri")" ;;
        FacetName) say 'only --to fss can say a facet with the IRI <%s>, which is none of XML Schema' "$(clean "$iri")" ;;
        UndeclaredSubject) 
            iri=$(named "<$iri>")
            say 'a frame is of a name with a kind, and %s has none: declare it, as by "%s"; %s' "$iri" "$(declaration "$main" NamedIndividual "$iri")" "$other"
            ;;
        UnnamedSubject) say 'a frame is of a name: give the class a name by an EquivalentClasses axiom, and say this of the name; %s' "$other" ;;
        InverseSubject) say 'a frame is of a name: give the inverse of the property a name by InverseObjectProperties, and say this of the name; %s' "$other" ;;
        TwoInverses) say 'a frame is of a name: one of two inverse properties has to have one; %s' "$other" ;;
        InverseAssertion) say 'a frame says no assertion by an inverse: say it by the property, the other way round; %s' "$other" ;;
        ManyProperties) say 'Manchester Syntax has no restriction on several data properties; %s' "$other" ;;
        AnnotatedDeclaration) say 'a frame says no annotation of a declaration: annotate the name itself; %s' "$other" ;;
        *) say 'docs/REFUSALS.md has an entry for %s' "$why" ;;
        esac
    fi
}

# A kind with its article.
a_kind() {
    case $1 in
    Class) echo 'a class' ;;
    Datatype) echo 'a datatype' ;;
    ObjectProperty) echo 'an object property' ;;
    DataProperty) echo 'a data property' ;;
    AnnotationProperty) echo 'an annotation property' ;;
    *) echo 'an individual' ;;
    esac
}

# --- Limits and devices.

# Sets the place to where the first number stands that is above 2^64 - 1.
find_number() {
    local file=$1 spot
    is_searched "$file" || return 0
    spot=$(grep -a -b -o -E '[0-9]{20,}' -- "$file" | awk -F : '{
        digits = $2
        sub(/^0+/, "", digits)
        if (length(digits) > 20 || length(digits) == 20 && digits "x" > "18446744073709551615x") { print $1; exit }
    }')
    [[ -z $spot ]] || locate "$file" "$spot"
}

# explain_limit LIMIT OF COMMAND: says what to do where a limit is passed.
explain_limit() {
    local limit=$1 of=$2 command=$3
    place="$of: "
    [[ $of != output ]] || place=
    case $limit:$of in
    DocumentBytes:*) say 'a document has at most 134217728 bytes (128 MiB), and this has %s: split it, and import the parts' "$(stat -L -c %s -- "$of" 2>/dev/null || echo more)" ;;
    AllBytes:*) say 'all documents together have at most 268435456 bytes (256 MiB), and this one passes that: name fewer' ;;
    Depth:*) say 'an expression has at most 128 levels: give a name to a part of it, by an axiom of its own' ;;
    Weight:output) say 'what would be written has more than 16777216 names, literals and expressions: split the ontology' ;;
    Weight:*) say 'a document says at most 16777216 names, literals and expressions: split it, and import the parts' ;;
    Cardinality:*)
        find_number "$of"
        say 'a cardinality is at most 18446744073709551615'
        ;;
    OutputBytes:*)
        if [[ $command == canon ]]; then
            say 'what would be written has more than 134217728 bytes (128 MiB): split the ontology; "owl digest" has no such limit'
            return
        fi
        say 'what would be written has more than 134217728 bytes (128 MiB): split the ontology, or declare shorter prefixes'
        ;;
    Triples:output) say 'what would be written has more than 16777216 triples: split the ontology, or take --to fss' ;;
    Triples:*) say 'a graph has at most 16777216 triples: split it, and import the parts' ;;
    *) say 'docs/REFUSALS.md has an entry for %s' "$limit" ;;
    esac
}

explain_read() {
    local file=$1 folder=. others=
    place="$file: "
    if [[ $file == */* ]]; then folder=${file%/*}/; fi
    if [[ -d $file ]]; then
        say 'this is a folder: name the documents in it'
    elif [[ -L $file && ! -e $file ]]; then
        say 'this link leads to a file that is not there'
    elif [[ ! -e $file ]]; then
        if [[ ! -d $folder ]]; then
            say 'there is no such file, and no folder %s' "${folder%/}"
            return
        fi
        others=$(for other in "${file%.*}".{ofn,ttl,omn,owc,owl,rdf,owx,obo}; do [[ ! -e $other ]] || printf '%s' " $other"; done)
        if [[ -n $others ]]; then
            say 'there is no such file, but there is%s' "$others"
        else
            say 'there is no such file'
        fi
    elif [[ ! -r $file ]]; then
        say 'this file may not be read by you: chmod u+r lets its owner read it'
    else
        say 'this file cannot be read: the device has a fault, or it is no file'
    fi
}

explain_write() {
    place=
    if [[ $out == - ]]; then
        say 'the standard output is closed'
    elif [[ -p /proc/self/fd/1 ]]; then
        say 'whoever reads the output ended before it was whole'
    elif [[ -f /proc/self/fd/1 ]]; then
        say 'the output cannot be written whole: df tells whether the disk is full, and ulimit -f how long a file may be'
    else
        say 'the output cannot be written whole: the device may be full'
    fi
}

# --- Answers of no.

# Names the entry of each rule that was broken. They are written on the output,
# so the check is made once more where that costs little.
explain_check() {
    local name rule rules='' all=0
    place=
    for name in "${names[@]}"; do
        [[ -f $name && -r $name ]] && all=$((all + $(stat -L -c %s -- "$name"))) || all=$((most_searched + 1))
    done
    if ((all <= most_searched)); then
        while read -r rule; do rules+="${rules:+, }docs/RULES.md#${rule,,}"; done < <("$program" "$@" 2>/dev/null |
            sed -n -E 's/^((DL|EL|QL|RL)-[0-9]+) [0-9]+ .*/\1/p' | uniq)
    fi
    say 'what breaks which rule stands on the output; %s' "${rules:-docs/RULES.md says what each rule asks, and how to mend it}"
}

explain_no() {
    local -a names
    case ${1-} in
    check)
        name_documents "$@"
        explain_check "$@"
        ;;
    same)
        say 'what differs is shown by: diff <(owl translate --to fss %q) <(owl translate --to fss %q)' "$2" "$3"
        ;;
    esac
}

# Sets `names` to the documents that the words of a command name, `main` to the
# main one, if there is one, `adds` where the command adds declarations, `guesses`
# where it guesses, and `base`.
name_documents() {
    local command=$1
    names=()
    case $command in
    translate | declare | check) shift 3 ;;
    *) shift ;;
    esac
    [[ $command != declare ]] || adds=yes
    [[ ${1-} != --nest ]] || shift
    [[ ${1-} != --partial ]] || shift
    [[ ${1-} != --guess ]] || { guesses=yes && shift; }
    [[ ${1-} != --base ]] || { base=$2 && shift 2; }
    names=("$@")
    [[ $command == same ]] || main=${1-}
}

# explain STATUS LINE WORD..: says what people want to know.
explain() {
    local status=$1 line=${2%$'\n'} place='' shown='' rest='' ended='' lib=$top/lib name main='' adds='' guesses='' base=''
    local -a names
    shift 2
    export LC_ALL=C
    case $status in
    1) explain_no "$@" ;;
    2)
        # shellcheck source=words.sh
        source "$lib/words.sh"
        explain_words "$@"
        ;;
    3)
        name_documents "$@"
        # The name is the longest of those that the line begins with.
        local found=
        for name in "${names[@]}"; do
            [[ $line != "$name: "* ]] || ((${#name} <= ${#found})) || found=$name
        done
        [[ -z $found ]] || explain_document "$found" "${line#"$found: "}"
        ;;
    4)
        name_documents "$@"
        explain_target "$line"
        ;;
    5)
        line=${line#limit: }
        explain_limit "${line%%: *}" "${line#*: }" "${1-}"
        ;;
    6) explain_read "${line#read: }" ;;
    7) explain_write ;;
    8) say 'memory ran out: the program wants up to some 25 times the size of the documents; end other programs, or raise ulimit -v' ;;
    *) ((status < 129)) || say 'the program was ended by signal %s%s' "$((status - 128))" "$( ((status != 137)) || echo ', which the system sends where memory runs out')" ;;
    esac
}
