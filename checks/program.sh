#!/usr/bin/env bash
# Runs the program on files, as a user does, and tells what is not as it has to
# be: checks/program.sh [PROGRAM], bin/owl if left out. Each call is made in a
# folder that has to be the same afterwards. The last line counts what passed.
set -uo pipefail
shopt -s nullglob

top=$(dirname -- "$(dirname -- "$(readlink -f -- "${BASH_SOURCE[0]}")")")
program=$(readlink -f -- "${1:-$top/bin/owl}") && [[ -x $program ]] || {
    echo "program: there is no program ${1:-bin/owl}"
    echo "0 passed, 1 failed"
    exit 1
}
room=$(mktemp -d) || exit
trap 'chmod -R u+rwX -- "$room"; rm -rf -- "$room"' EXIT
chmod 755 "$room"
mkdir "$room/bin" "$room/work" "$room/seen"
cp "$program" "$room/bin/owl" && cp "$program" "$room/bin/show" || exit
cd "$room/work" || exit

# An unreadable file can be read by root, so root lets nobody run the program.
as=()
if ((EUID == 0)); then
    as=(setpriv --reuid=65534 --regid=65534 --clear-groups)
    chown 65534:65534 "$room/work" "$room/seen"
fi

passed=0
failed=0
four='Prefix(owl:=<http://www.w3.org/2002/07/owl#>)
Prefix(rdf:=<http://www.w3.org/1999/02/22-rdf-syntax-ns#>)
Prefix(rdfs:=<http://www.w3.org/2000/01/rdf-schema#>)
Prefix(xsd:=<http://www.w3.org/2001/XMLSchema#>)
'
nothing="${four}Ontology(
)
"
done_line='translated; axioms 0; absorbed 0
'
four_of_frames='Prefix: owl: <http://www.w3.org/2002/07/owl#>
Prefix: rdf: <http://www.w3.org/1999/02/22-rdf-syntax-ns#>
Prefix: rdfs: <http://www.w3.org/2000/01/rdf-schema#>
Prefix: xsd: <http://www.w3.org/2001/XMLSchema#>
'

# What is in the folder, and in each file that can be read.
listing() {
    find . -type p -printf '%p %y %m\n' -o -printf '%p %y %m %s %T@\n' | LC_ALL=C sort
    find . -type f -size -1000k -exec sha256sum {} + 2>/dev/null | LC_ALL=C sort
}

judge() {
    local what=$1 wrong=$2
    if [[ -z $wrong ]]; then
        passed=$((passed + 1))
    else
        failed=$((failed + 1))
        echo "program: $what: $wrong"
    fi
}

# Judges a call by its status, its output and its note, which stand in seen/.
# An output that begins with / is the name of the file that has it.
is_so() {
    local what=$1 status=$2 wanted=$3 output=$4 note=$5 before=$6 wrong=
    ((status == wanted)) || wrong="status $status and not $wanted; "
    [[ $output == /* ]] || { printf '%s' "$output" >"$room/wanted" && output=$room/wanted; }
    cmp -s "$output" "$room/seen/output" || wrong+="another output, of $(stat -c %s "$room/seen/output") bytes; "
    printf '%s' "$note" | cmp -s - "$room/seen/note" || wrong+="another note: $(head -c 200 "$room/seen/note"); "
    [[ $(listing) == "$before" ]] || wrong+="the folder is another one; "
    judge "$what" "$wrong"
}

# call WHAT STATUS OUTPUT NOTE WORD..: runs the program with these words.
call() {
    local what=$1 wanted=$2 output=$3 note=$4 before
    shift 4
    before=$(listing)
    "${as[@]}" "$room/bin/owl" "$@" </dev/null >"$room/seen/output" 2>"$room/seen/note"
    is_so "$what" $? "$wanted" "$output" "$note" "$before"
}

# shell WHAT STATUS OUTPUT NOTE COMMAND: runs a command line in which $owl is the
# program, for other streams.
shell() {
    local what=$1 wanted=$2 output=$3 note=$4 before
    before=$(listing)
    owl=$room/bin/owl show=$room/bin/show room=$room "${as[@]}" bash -c "$5" </dev/null >"$room/seen/output" 2>"$room/seen/note"
    is_so "$what" $? "$wanted" "$output" "$note" "$before"
}

# A text so many times.
times() {
    printf "%0.s$2" $(seq "$1")
}

# --- The documents.
printf 'Ontology()' >m.ofn
cp m.ofn 'two words.ofn'
cp m.ofn 'Größe ξ 楽器.ofn'
cp m.ofn ./-m.ofn
long=$(times 240 n).ofn
cp m.ofn "$long"
lost=$(times 120 lost).ofn
printf 'Prefix(:=<http://e/>) Ontology(<http://e/o> <http://e/v> SubClassOf(:A :B) Declaration(Class(:A)))' >a.ofn
printf '\357\273\277Prefix(e:=<http://e/>)\nOntology(e:o e:v # the same\n Declaration(Class(e:A)) SubClassOf(e:A e:B) SubClassOf(e:A e:B))\n' >b.ofn
printf 'Prefix(:=<http://e/>) Ontology(<http://e/o> <http://e/v> SubClassOf(:B :A) Declaration(Class(:A)))' >c.ofn
printf 'Ontology(Declaration(Class(owl:Class)))' >reserved.ofn
printf 'Ontology(<http://e/o> SubClassOf(<http://e/A>))' >wrong.ofn
printf 'Ontology(\377)' >bytes.ofn
printf '@prefix : <http://e/> . @prefix owl: <http://www.w3.org/2002/07/owl#> . :o a owl:Ontology . :A a owl:Class . ' >graph.ttl
{ cat graph.ttl && printf '_:x a owl:Class ; owl:complementOf :A .'; } >orphan.ttl
{ cat graph.ttl && printf '_:x a owl:Class ; owl:complementOf :A . _:x :p "1" .'; } >untyped.ttl
printf 'Prefix(:=<http://e/>) Ontology(<http://e/o> Declaration(Class(:A)))' >graph.ofn
printf 'Prefix: : <http://e/>\nOntology: <http://e/o>\nClass: A # the same\n' >frames.omn
printf 'Prefix: : <http://e/> Ontology: Class: A SubClassOf: p some' >wrong.omn
printf 'Prefix: : <http://e/> Ontology: Class: A SubClassOf: B' >untyped.omn
printf '<http://e/A> <http://e/p> <http://e/B> .' >headless.ttl
printf 'Ontology(Import(<http://e/i>))' >import.ofn
printf 'Ontology(<http://e/i>)' >imported.ofn
printf 'Ontology(<http://e/f> Import(<http://e/j>) Import(<http://e/i>))' >far.ofn
printf 'Ontology(<http://e/j> Import(<http://e/k>))' >importing.ofn
printf 'Prefix(:=<http://e/>) Ontology(<http://e/t> Declaration(ObjectProperty(:p)) TransitiveObjectProperty(:p) AsymmetricObjectProperty(:p))' >breach.ofn
printf 'Ontology(<http://e/c> Import(<http://e/t>) Import(<http://e/i>) SubClassOf(<http://e/A> <http://e/A>))' >checked.ofn
printf 'Ontology(SubClassOf(%s<http://e/A>%s <http://e/B>))' "$(times 127 'ObjectComplementOf(')" "$(times 127 ')')" >deep.ofn
printf 'Ontology(SubClassOf(<http://e/A> ObjectMinCardinality(18446744073709551616 <http://e/p>)))' >large.ofn
string=$(head -c 3000000 /dev/zero | tr '\0' s)
printf 'Ontology(Annotation(rdfs:label "%s"))' "$string" >string.ofn
printf '%sOntology(\nAnnotation(rdfs:label "%s")\n)\n' "$four" "$string" >"$room/string"
truncate -s $((2 ** 27 + 1)) big.ofn
{ printf 'Ontology()' && head -c $((2 ** 27 - 10)) /dev/zero | tr '\0' ' '; } >full.ofn
# A chain of so many properties weighs five more than it has members.
chain() {
    printf 'Prefix(:=<http://e/>) Ontology(SubObjectPropertyOf(ObjectPropertyChain('
    yes ':p' | head -n "$1"
    printf ') :p))'
}
chain $((2 ** 24 - 4)) >heavy.ofn
chain $((2 ** 24 - 3)) >heavier.ofn
size=$(stat -c %s heavier.ofn)
{ head -c $((size - 2)) heavier.ofn && printf ' :p))'; } >crooked.ofn
# A chain of 1,400 times a property with a name of 100,000 bytes.
{
    printf 'Prefix(l:=<http://e/%s>) Ontology(SubObjectPropertyOf(ObjectPropertyChain(' "$(times 100000 l)"
    yes 'l:' | head -n 1400
    printf ') l:))'
} >lengthy.ofn
# The same properties, declared.
sed 's/Ontology(/&Declaration(ObjectProperty(l:)) /' lengthy.ofn >declared.ofn
printf 'Prefix(:=<http://e/>) Ontology(:k Declaration(ObjectProperty(:p)))' >kinds.ofn
sed '1s/Ontology(/&Import(:k) /' heavy.ofn >typed.ofn
# 4,200 axioms over one list of as many classes, half a megabyte.
"$top/tools/make_hostile.py" disjoint_unions 4200 >shared.ttl
# The document of a trial, 2 MB.
"$top/tools/make_trial.py" 20000 >trial.ofn
# A string of so many bytes, behind which its canonical bytes are 159 more.
string_of() {
    printf 'Ontology(Annotation(rdfs:label "'
    head -c "$1" /dev/zero | tr '\0' s
    printf '"))'
}
string_of $((2 ** 27 - 159)) >even.ofn
string_of $((2 ** 27 - 158)) >odd.ofn
python3 "$top/checks/second_canon.py" a.ofn >a.owc
printf 'Ontology(Declaration(Class(<a:b>)))' >class.ofn
python3 "$top/checks/second_canon.py" class.ofn >class.owc
head -c 62 class.owc >cut.owc
{ cat class.owc && echo; } >more.owc
truncate -s $((2 ** 27 + 1)) big.owc
mkdir folder.ofn
cp m.ofn secret.ofn && chmod 000 secret.ofn
mkfifo pipe.ofn
cp "$top/examples/instruments.ofn" instruments.ofn
cp "$top/examples/home.omn" home.omn
[[ ${#as[@]} == 0 ]] || chown -R 65534:65534 .

# --- Each status, with both streams.
call 'an empty ontology is translated' 0 "$nothing" "$done_line" translate --to fss m.ofn
call 'the example is translated' 0 "$top/checks/instruments.ofn" \
    "translated; axioms $(grep -c -v -E '^(Prefix\(|Annotation\(|Ontology\(|\)$)' "$top/checks/instruments.ofn"); absorbed 0
" translate --to fss instruments.ofn
call 'an empty ontology in Turtle' 0 '@prefix owl: <http://www.w3.org/2002/07/owl#> .
@prefix rdf: <http://www.w3.org/1999/02/22-rdf-syntax-ns#> .
@prefix rdfs: <http://www.w3.org/2000/01/rdf-schema#> .
@prefix xsd: <http://www.w3.org/2001/XMLSchema#> .
_:gen1 rdf:type owl:Ontology .
' "$done_line" translate --to ttl m.ofn
python3 "$top/checks/second_mapping.py" instruments.ofn >"$room/turtle" 2>"$room/line"
call 'the example in Turtle' 0 "$room/turtle" "$(<"$room/line")
" translate --to ttl instruments.ofn
call 'an empty ontology in Manchester Syntax' 0 "${four_of_frames}Ontology:
" "$done_line" translate --to omn m.ofn
call 'a graph in Manchester Syntax' 0 "Prefix: : <http://e/>
${four_of_frames}Ontology: <http://e/o>
Class: :A
" 'translated; axioms 1; absorbed 0
' translate --to omn graph.ttl
python3 "$top/checks/second_nest.py" instruments.ofn >"$room/nested" 2>"$room/line"
call 'the example in Turtle with brackets' 0 "$room/nested" "$(<"$room/line")
" translate --to ttl --nest instruments.ofn
call 'brackets with another target' 2 '' 'words
' translate --to fss --nest m.ofn
python3 "$top/checks/second_manchester_writer.py" translate --to omn home.omn >"$room/frames" 2>"$room/line"
call 'the example in Manchester Syntax' 0 "$room/frames" "$(<"$room/line")
" translate --to omn home.omn
call 'an ontology is shown' 0 'ontology <http://e/o>
version <http://e/v>
imports 0
annotations 0
axioms 2
distinct 5
weight 7
' 'shown
' show a.ofn
call 'two documents say the same' 0 'same
' 'same
' same a.ofn b.ofn
call 'and the other way round' 0 'same
' 'same
' same b.ofn a.ofn
call 'two documents differ' 1 'different
' 'different
' same a.ofn c.ofn
call 'imports are compared' 1 'different
' 'different
' same import.ofn m.ofn
call 'a check finds nothing' 0 'yes
' 'profile dl: yes
' check --profile dl m.ofn
call 'a check of a graph' 0 'yes
' 'profile dl: yes
' check --profile dl graph.ttl
call 'a check finds a breach' 1 'no
DL-9 1 AsymmetricObjectProperty(<http://e/p>)
' 'profile dl: no; breaches 1
' check --profile dl breach.ofn
call 'a check of EL' 1 'no
DL-9 1 AsymmetricObjectProperty(<http://e/p>)
EL-1 1 AsymmetricObjectProperty(<http://e/p>)
' 'profile el: no; breaches 2
' check --profile el breach.ofn
call 'a check of QL' 1 'no
DL-9 1 AsymmetricObjectProperty(<http://e/p>)
QL-1 1 TransitiveObjectProperty(<http://e/p>)
' 'profile ql: no; breaches 2
' check --profile ql breach.ofn
call 'a check of RL' 0 'yes
' 'profile rl: yes
' check --profile rl graph.ttl
python3 "$top/checks/second_rules.py" instruments.ofn >"$room/verdict" 2>"$room/line"
call 'a check of the example' 1 "$room/verdict" "$(<"$room/line")
" check --profile dl instruments.ofn
call 'a check of imports, and not of what is named beside them' 1 'no
DL-1 1 SubClassOf(<http://e/A> <http://e/A>)
DL-9 4 AsymmetricObjectProperty(<http://e/p>)
' 'profile dl: no; breaches 2
' check --profile dl checked.ofn reserved.ofn imported.ofn breach.ofn
call 'a check of imports that may be missing' 1 'no
DL-1 1 SubClassOf(<http://e/A> <http://e/A>)
' 'profile dl: no; breaches 1
' check --profile dl --partial checked.ofn
call 'no words' 2 '' 'words
'
call 'no profile' 2 '' 'words
' check m.ofn
call 'a profile that there is not' 2 '' 'words
' check --profile els m.ofn
call 'one word too many' 2 '' 'words
' same m.ofn a.ofn b.ofn
call 'a flag in another place' 2 '' 'words
' translate --partial --to fss m.ofn
call 'another suffix' 2 '' 'words
' show m.owl
call 'a flag' 2 '' 'words
' show -m.ofn
call 'an empty word' 2 '' 'words
' show ''
call 'a word that is no UTF-8' 2 '' 'words
' show $'m\377.ofn'
call 'an empty word for a base' 2 '' 'words
' show --base '' m.ofn
call 'a base with a space' 2 '' 'words
' show --base 'http://h/a b' m.ofn
call 'a base with a control character' 2 '' 'words
' show --base $'http://h/\ta' m.ofn
call 'a base that is no UTF-8' 2 '' 'words
' show --base $'http://h/\377' m.ofn
shell 'the name of the program is no word' 2 '' 'words
' '"$show" m.ofn'
call 'a document ends too early' 3 '' 'wrong.ofn: item at 22: NotHere at 45
' translate --to fss wrong.ofn
call 'a byte that is no UTF-8' 3 '' 'bytes.ofn: item at 9: BadUtf8 at 9
' show bytes.ofn
call 'an import is missing' 3 '' 'import.ofn: MissingImport <http://e/i>
' translate --to fss import.ofn
call 'an import of a check is missing' 3 '' 'checked.ofn: MissingImport <http://e/i>
' check --profile dl checked.ofn breach.ofn
call 'an import may be missing' 0 "${four}Ontology(
Import(<http://e/i>)
)
" "$done_line" translate --to fss --partial import.ofn
call 'an import is there' 0 "${four}Ontology(
Import(<http://e/i>)
)
" "$done_line" translate --to fss import.ofn imported.ofn
call 'an import of an import is missing' 3 '' 'importing.ofn: MissingImport <http://e/k>
' show far.ofn imported.ofn importing.ofn
call 'a document that is not imported is wrong' 3 '' 'wrong.ofn: item at 22: NotHere at 45
' show m.ofn wrong.ofn
call 'a document that is not imported is lost' 6 '' "read: $lost
" show m.ofn "$lost"
call 'the first document is told first' 3 '' 'wrong.ofn: item at 22: NotHere at 45
' same wrong.ofn "$lost"
call 'the second document is wrong' 3 '' 'bytes.ofn: item at 9: BadUtf8 at 9
' same m.ofn bytes.ofn
call 'a class is not declared' 4 '' 'typing: Undeclared Class <http://e/B>: SubClassOf(<http://e/A> <http://e/B>)
' translate --to ttl a.ofn
call 'a class that is not declared is added' 0 "Prefix(:=<http://e/>)
${four}Ontology(<http://e/o> <http://e/v>
Declaration(Class(:A))
Declaration(Class(:B))
SubClassOf(:A :B)
)
" 'declared; added 1; axioms 3; absorbed 0
' declare --to fss a.ofn
call 'canonical bytes of an ontology' 0 "$room/work/a.owc" 'canonical
' canon b.ofn
call 'a digest of an ontology' 0 "$(sha256sum <a.owc | cut -d ' ' -f 1)
" 'digested
' digest b.ofn
call 'canonical bytes of canonical bytes' 0 "$room/work/a.owc" 'canonical
' canon a.owc
call 'a digest of canonical bytes' 0 "$(sha256sum <a.owc | cut -d ' ' -f 1)
" 'digested
' digest a.owc
call 'canonical bytes are translated' 0 "${four}Ontology(
Declaration(Class(<a:b>))
)
" 'translated; axioms 1; absorbed 0
' translate --to fss class.owc
call 'canonical bytes say the same as a text' 0 'same
' 'same
' same a.owc b.ofn
call 'canonical bytes are checked' 1 'no
DL-1 1 SubClassOf(<http://e/A> <http://e/B>)
' 'profile dl: no; breaches 1
' check --profile dl a.owc
call 'canonical bytes of what is not declared' 4 '' 'typing: Undeclared Class <http://e/B>: SubClassOf(<http://e/A> <http://e/B>)
' translate --to fss a.owc
call 'canonical bytes where an import is missing' 3 '' 'import.ofn: MissingImport <http://e/i>
' canon import.ofn
call 'a digest where an import may be missing' 0 "$(python3 "$top/checks/second_canon.py" --digest import.ofn)
" 'digested
' digest --partial import.ofn
call 'bytes that are cut' 3 '' 'cut.owc: NotCanon
' show cut.owc
call 'bytes with one more' 3 '' 'more.owc: NotCanon
' digest m.ofn more.owc
call 'canon without a name' 2 '' 'words
' canon
call 'digest with a target' 2 '' 'words
' digest --to fss m.ofn
call 'a name is reserved' 4 '' 'target: Reserved <http://www.w3.org/2002/07/owl#Class>: Declaration(Class(<http://www.w3.org/2002/07/owl#Class>))
' translate --to ttl reserved.ofn
call 'a reserved name in Manchester Syntax' 0 "${four_of_frames}Ontology:
Class: owl:Class
" 'translated; axioms 1; absorbed 0
' translate --to omn reserved.ofn
call 'a class is not declared, for Manchester Syntax' 4 '' 'typing: Undeclared Class <http://e/B>: SubClassOf(<http://e/A> <http://e/B>)
' translate --to omn a.ofn
python3 "$top/checks/second_manchester_writer.py" translate --to omn instruments.ofn 2>"$room/line"
call 'the example has a subclass without a name' 4 '' "$(<"$room/line")
" translate --to omn instruments.ofn
call 'a graph is translated' 0 "Prefix(:=<http://e/>)
${four}Ontology(<http://e/o>
Declaration(Class(:A))
)
" 'translated; axioms 1; absorbed 0
' translate --to fss graph.ttl
call 'a graph says the same as a text' 0 'same
' 'same
' same graph.ttl graph.ofn
call 'frames are translated' 0 "Prefix(:=<http://e/>)
${four}Ontology(<http://e/o>
Declaration(Class(:A))
)
" 'translated; axioms 1; absorbed 0
' translate --to fss frames.omn
call 'frames say the same as a graph' 0 'same
' 'same
' same frames.omn graph.ttl
call 'a frame ends too early' 3 '' 'wrong.omn: item at 41: NotHere at 59
' show wrong.omn
call 'a frame names what is no class' 3 '' 'untyped.omn: Untyped <http://e/B> at 53
' check --profile dl untyped.omn
call 'a node is of no axiom' 3 '' 'orphan.ttl: Orphan _:x
' translate --to fss orphan.ttl
call 'a triple names what it may not' 3 '' 'untyped.ttl: Untyped _:x <http://e/p> "1"
' translate --to ttl untyped.ttl
call 'a graph without a header' 3 '' 'headless.ttl: NoHeader
' show headless.ttl
call '129 levels' 5 '' 'limit: Depth: deep.ofn
' translate --to fss deep.ofn
call 'a cardinality of 2^64' 5 '' 'limit: Cardinality: large.ofn
' show large.ofn
call 'a weight of 2^24' 0 "ontology none
version none
imports 0
annotations 0
axioms 1
distinct 4
weight $((2 ** 24))
" 'shown
' show heavy.ofn
call 'a weight of 2^24 + 1' 5 '' 'limit: Weight: heavier.ofn
' translate --to fss heavier.ofn
call 'axioms over one list, with more than 2^24 kids together' 5 '' 'limit: Weight: shared.ttl
' show shared.ttl
call 'a weight of 2^24 + 1, and a name too many behind it' 3 '' "crooked.ofn: item at $(head -c 200 heavier.ofn | grep -b -o SubObjectPropertyOf | cut -d: -f1): NotHere at $((size - 1))
" show crooked.ofn
call 'breaches of more than 2^27 bytes' 5 '' 'limit: OutputBytes: output
' check --profile dl lengthy.ofn
call 'frames of more than 2^27 bytes' 5 '' 'limit: OutputBytes: output
' translate --to omn declared.ofn
call 'a weight of 2^24, and a declaration that frames have' 5 '' 'limit: Weight: output
' translate --to omn typed.ofn kinds.ofn
call 'a weight of 2^24, and a declaration that it needs' 5 '' 'limit: Weight: output
' declare --to fss heavy.ofn
call 'a declaration that a text of more than 2^27 bytes needs' 5 '' 'limit: OutputBytes: output
' declare --to omn lengthy.ofn
shell 'canonical bytes of 2^27, and read again' 0 '' 'canonical
canonical
' '"$owl" canon even.ofn >"$room/seen/even.owc" && (($(stat -c %s "$room/seen/even.owc") == 2 ** 27)) && "$owl" canon "$room/seen/even.owc" |
    cmp - "$room/seen/even.owc"; ended=$?; rm "$room/seen/even.owc"; exit $ended'
call 'canonical bytes of 2^27 + 1' 5 '' 'limit: OutputBytes: output
' canon odd.ofn
call 'a digest of canonical bytes of 2^27 and more' 0 "$(python3 "$top/checks/second_canon.py" --digest lengthy.ofn)
" 'digested
' digest lengthy.ofn
call 'canonical bytes with one more than 2^27' 5 '' 'limit: DocumentBytes: big.owc
' canon big.owc
call '2^27 + 1 bytes' 5 '' 'limit: DocumentBytes: big.ofn
' translate --to fss big.ofn
call '2^27 bytes' 0 "$nothing" "$done_line" translate --to fss full.ofn
call 'no file' 6 '' 'read: no.ofn
' translate --to fss no.ofn
call 'no file of canonical bytes' 6 '' 'read: no.owc
' digest no.owc
call 'no file of a long name' 6 '' "read: $lost
" show "$lost"
call 'a folder' 6 '' 'read: folder.ofn
' show folder.ofn
call 'an unreadable file' 6 '' 'read: secret.ofn
' same m.ofn secret.ofn
shell 'a full device' 7 '' 'write
' '"$owl" translate --to fss m.ofn >/dev/full'
shell 'a full device for breaches' 7 '' 'write
' '"$owl" check --profile dl breach.ofn >/dev/full'
shell 'a full device for canonical bytes' 7 '' 'write
' '"$owl" canon class.owc >/dev/full'
shell 'a full device for a digest' 7 '' 'write
' '"$owl" digest m.ofn >/dev/full'
shell 'a full device for a refusal' 3 '' 'bytes.ofn: item at 9: BadUtf8 at 9
' '"$owl" show bytes.ofn >/dev/full'
shell 'a closed output' 7 '' 'write
' '"$owl" show m.ofn >&-'

# --- Names, lengths and streams.
call 'a name with a space' 0 "$nothing" "$done_line" translate --to fss 'two words.ofn'
call 'a name beyond ASCII' 0 "$nothing" "$done_line" translate --to fss 'Größe ξ 楽器.ofn'
call 'a name of 244 bytes' 0 "$nothing" "$done_line" translate --to fss "$long"
call 'a name with its folder' 0 "$nothing" "$done_line" translate --to fss "$room/work/m.ofn"
call 'a hyphen behind a folder' 0 "$nothing" "$done_line" translate --to fss ./-m.ofn
call 'a text of 3 MB' 0 "$room/string" "$done_line" translate --to fss string.ofn
shell 'a document from a pipe' 0 "$nothing" "$done_line" \
    '{ printf "Ontology"; sleep 0.2; printf "()"; } >pipe.ofn & "$owl" translate --to fss pipe.ofn; ended=$?; wait; exit $ended'
shell 'a full note' 0 "$nothing" '' '"$owl" translate --to fss m.ofn 2>/dev/full'
shell 'a closed note' 1 'different
' '' '"$owl" same a.ofn c.ofn 2>&-'
shell 'a closed note of a check' 1 'no
DL-9 1 AsymmetricObjectProperty(<http://e/p>)
' '' '"$owl" check --profile dl breach.ofn 2>&-'
shell 'an output that nobody reads' 7 '' 'write
' '{ sleep 0.2; "$owl" translate --to fss m.ofn; } | true; exit ${PIPESTATUS[0]}'

# --- All of it.
call 'a trial of three classes' 0 'axioms 8
distinct 15
triples 15
ttl same
omn same
dl yes
el yes
ql yes
rl no 2
' 'trial done
' trial 3
call 'a trial of 20,000 classes' 0 'axioms 59999
distinct 100000
triples 119997
ttl same
omn same
dl yes
el yes
ql yes
rl no 19999
' 'trial done
' trial 20000
line='translated; axioms 59999; absorbed 0
'
shell 'four translations of the document of a trial' 0 '' "$line$line$line$line" '
    cd "$room/seen" && "$owl" translate --to fss ../work/trial.ofn >first.ofn && "$owl" translate --to ttl first.ofn >m.ttl &&
    "$owl" translate --to omn m.ttl >m.omn && "$owl" translate --to fss m.omn >last.ofn && cmp first.ofn last.ofn'
shell 'one digest of the document of a trial in four forms' 0 '' "$line${line}canonical
digested
digested
digested
digested
" '
    cd "$room/seen" && "$owl" translate --to ttl ../work/trial.ofn >m.ttl && "$owl" translate --to omn m.ttl >m.omn && "$owl" canon m.omn >m.owc &&
    for name in ../work/trial.ofn m.ttl m.omn m.owc; do "$owl" digest "$name" || exit; done >digests && (($(sort -u digests | wc -l) == 1))'

# --- The script.
script() {
    local what=$1 status=$2 wanted=$3
    shift 3
    "$@" >"$room/seen/output" 2>"$room/seen/note" </dev/null
    local ended=$? wrong=
    ((ended == status)) || wrong="status $ended and not $status; "
    grep -q -- "$wanted" "$room/seen/output" "$room/seen/note" || wrong+="it doesn't say $wanted"
    judge "$what" "$wrong"
}
script 'the script tells how to use it' 0 'translate --to fss' "$top/owl" --help
script 'the script tells the version' 0 "^owl $(<"$top/VERSION")," "$top/owl" --version
script 'the script names its help' 2 'owl --help' "$top/owl"
script 'the script passes words and the status through' 6 'read: no  such.ofn' "$top/owl" show 'no  such.ofn'

echo "$passed passed, $failed failed"
((failed == 0))
