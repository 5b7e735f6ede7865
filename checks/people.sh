#!/usr/bin/env bash
# Calls as a person makes them, by the script `owl`: checks/people.sh [PROGRAM],
# bin/owl if left out. Each is made in a clone in small, and its status and all
# that stands on standard error are compared: the program's line, and what the
# script says behind it to people. The last line counts what passed.
# shellcheck disable=SC2016,SC2030,SC2031 # command lines are for other shells, and each part has a folder of its own
set -uo pipefail

top=$(dirname -- "$(dirname -- "$(readlink -f -- "${BASH_SOURCE[0]}")")")
# shellcheck source-path=SCRIPTDIR/..
source "$top/checks/small_clone.sh"
program=$(readlink -f -- "${1:-$top/bin/owl}")
if [[ ! -x $program ]]; then
    echo "people: there is no program ${1:-bin/owl}"
    echo "0 passed, 1 failed"
    exit 1
fi
room=$(mktemp -d) || exit
trap 'chmod -R u+rwX -- "$room"; rm -rf -- "$room"' EXIT
chmod 755 "$room"
unset OWL_QUIET
clone="$room/the clone ξ"
small_clone "$top" "$program" "$clone" || exit
# Without the toolchain, so that nothing is built here.
PATH=$room/bin:/usr/bin:/bin
mkdir "$room/bin" "$room/work" "$room/seen"
ln -s "../the clone ξ/owl" "$room/bin/owl"
cd "$room/work" || exit

# An unreadable file can be read by root, so root lets nobody call the script.
as=()
if ((EUID == 0)); then
    as=(setpriv --reuid=65534 --regid=65534 --clear-groups)
    chown -R 65534:65534 "$room"
fi

passed=0
failed=0
seen=$room/seen

judge() {
    local what=$1 wrong=$2
    if [[ -z $wrong ]]; then
        passed=$((passed + 1))
    else
        failed=$((failed + 1))
        echo "people: $what: $wrong"
    fi
}

# document NAME: makes a document of what is on the standard input.
document() {
    cat >"$1"
}

# says WHAT STATUS WORD..: calls owl with these words, and compares what it says
# with the standard input.
says() {
    local what=$1 wanted=$2 ended wrong=
    shift 2
    cat >"$seen/wanted"
    "${as[@]}" owl "$@" </dev/null >"$seen/output" 2>"$seen/note"
    ended=$?
    ((ended == wanted)) || wrong="status $ended and not $wanted; "
    cmp -s "$seen/wanted" "$seen/note" || wrong+="it says: $(<"$seen/note")"
    judge "$what" "$wrong"
}

# holds WHAT COMMAND..: whether a command succeeds.
holds() {
    local what=$1 wrong=
    shift
    "$@" || wrong="not so"
    judge "$what" "$wrong"
}

# This takes some seconds, so it begins first. Each file is looked at by itself.
if command -v shellcheck >/dev/null; then
    printf '%s\n' "$top/owl" "$top"/lib/*.sh "$top/completions/owl.bash" |
        xargs -d '\n' -P 3 -n 1 shellcheck -e SC1091 >"$seen/clean" 2>&1 &
    clean=$!
fi

# Runs functions beside each other, each in a folder of its own, and counts what
# passed.
parts() {
    local each count
    local -a jobs=()
    for each; do
        mkdir "$room/$each" "$room/$each.seen"
        [[ ${#as[@]} == 0 ]] || chown 65534:65534 "$room/$each" "$room/$each.seen"
        (
            seen=$room/$each.seen
            cd "$room/$each" && "$each" >"$seen/told"
            echo "$passed $failed" >"$seen/counts"
        ) &
        jobs+=($!)
    done
    wait "${jobs[@]}"
    for each; do
        cat "$room/$each.seen/told"
        read -r -a count <"$room/$each.seen/counts"
        passed=$((passed + count[0]))
        failed=$((failed + count[1]))
    done
}

# --- The words of a command.
of_words() {
document zoo.ofn <<'END'
Prefix(:=<http://e/>)
Ontology(<http://e/zoo>
  Declaration(Class(:Animal))
  SubClassOf(:Cat :Animal))
END
document farm.ofn <<'END'
Ontology(<http://e/farm>)
END
document rdf.owl <<'END'
<?xml version="1.0"?>
<rdf:RDF xmlns:rdf="http://www.w3.org/1999/02/22-rdf-syntax-ns#"/>
END
document old.fss <<'END'
Ontology()
END
document plain.owl <<'END'
hello
END
says 'no words' 2  <<'END'
words
owl: a command is missing: translate, declare, check, show, same, canon, digest or trial; owl --help says more
END
says 'another command' 2 convert zoo.ofn <<'END'
words
owl: "convert" is no command: is "translate" meant? owl --help says what there is
END
says 'a command with a typing error' 2 trnaslate --to fss zoo.ofn <<'END'
words
owl: "trnaslate" is no command: is "translate" meant? owl --help says what there is
END
says 'a command that nobody has' 2 frobnicate zoo.ofn <<'END'
words
owl: "frobnicate" is no command: one of translate, declare, check, show, same, canon, digest and trial; owl --help says more
END
says 'no command' 2 zoo.ofn <<'END'
words
owl: a command is missing in front of "zoo.ofn": translate, declare, check, show, same, canon or digest; owl --help says more
END
says 'a name and no command' 2 --partial show zoo.ofn <<'END'
words
owl: "--partial" stands behind a command: translate, declare, check, show, canon or digest is the first word
END
says 'an option and no command' 2 --to fss zoo.ofn <<'END'
words
owl: "--to" stands behind a command: translate, declare, check, show, canon or digest is the first word
END
says 'help by another word' 2 help <<'END'
words
owl: "help" is no command: owl --help says what there is
END
says 'help by a letter' 2 -h <<'END'
words
owl: "-h" is no command: owl --help says what there is
END
says 'help behind a command' 2 show --help <<'END'
words
owl: "--help" stands alone: owl --help
END
says 'the version by a letter' 2 -v <<'END'
words
owl: "-v" is no command: owl --version tells the version
END
says 'help and more' 2 --help me <<'END'
words
owl: "--help" stands alone: owl --help
END
says 'no target' 2 translate zoo.ofn <<'END'
words
owl: "--to" stands right behind "translate", where "zoo.ofn" is: owl translate --to fss|ttl|omn [--partial] [--guess] [--base IRI] MAIN {IMPORT}
END
says 'no word for the target' 2 translate --to <<'END'
words
owl: a word is missing behind "--to": one of fss, ttl, omn
END
says 'nothing behind translate' 2 translate <<'END'
words
owl: "--to" is missing behind "translate": owl translate --to fss|ttl|omn [--partial] [--guess] [--base IRI] MAIN {IMPORT}
END
says 'a name for the target' 2 translate --to zoo.ofn <<'END'
words
owl: "zoo.ofn" is none of fss, ttl, omn
END
says 'a target with an equals sign' 2 translate --to=fss zoo.ofn <<'END'
words
owl: "--to=fss" has to be two words: --to fss
END
says 'a target by its suffix' 2 translate --to ofn zoo.ofn <<'END'
words
owl: "ofn" is none of fss, ttl, omn: is "fss" meant?
END
says 'a target by its name' 2 translate --to turtle zoo.ofn <<'END'
words
owl: "turtle" is none of fss, ttl, omn: is "ttl" meant?
END
says 'a target that there is not' 2 translate --to rdfxml zoo.ofn <<'END'
words
owl: "rdfxml" is none of fss, ttl, omn
END
says 'a target in capitals' 2 translate --to TTL zoo.ofn <<'END'
words
owl: "TTL" is none of fss, ttl, omn: is "ttl" meant?
END
says 'the target behind the name' 2 translate zoo.ofn --to fss <<'END'
words
owl: "--to" stands right behind "translate", where "zoo.ofn" is: owl translate --to fss|ttl|omn [--partial] [--guess] [--base IRI] MAIN {IMPORT}
END
says 'no name' 2 translate --to fss <<'END'
words
owl: the name of a document is missing: owl translate --to fss|ttl|omn [--partial] [--guess] [--base IRI] MAIN {IMPORT}
END
says '--partial in front of the target' 2 translate --partial --to fss zoo.ofn <<'END'
words
owl: "--to" stands right behind "translate", where "--partial" is: owl translate --to fss|ttl|omn [--partial] [--guess] [--base IRI] MAIN {IMPORT}
END
says '--partial behind the name' 2 show zoo.ofn --partial <<'END'
words
owl: "--partial" stands once, in front of the names and in this order: owl show [--partial] [--guess] [--base IRI] MAIN {IMPORT}
END
says '--partial twice' 2 show --partial --partial zoo.ofn <<'END'
words
owl: "--partial" stands once, in front of the names and in this order: owl show [--partial] [--guess] [--base IRI] MAIN {IMPORT}
END
says '--guess in front of the target' 2 translate --guess --to fss zoo.ofn <<'END'
words
owl: "--to" stands right behind "translate", where "--guess" is: owl translate --to fss|ttl|omn [--partial] [--guess] [--base IRI] MAIN {IMPORT}
END
says '--guess in front of --partial' 2 show --guess --partial zoo.ofn <<'END'
words
owl: "--partial" stands once, in front of the names and in this order: owl show [--partial] [--guess] [--base IRI] MAIN {IMPORT}
END
says '--guess behind the name' 2 check --profile dl zoo.ofn --guess <<'END'
words
owl: "--guess" stands once, in front of the names and in this order: owl check --profile dl|el|ql|rl [--partial] [--guess] [--base IRI] MAIN {IMPORT}
END
says '--guess twice' 2 translate --to fss --guess --guess zoo.ofn <<'END'
words
owl: "--guess" stands once, in front of the names and in this order: owl translate --to fss|ttl|omn [--partial] [--guess] [--base IRI] MAIN {IMPORT}
END
says '--guess and no name' 2 show --guess <<'END'
words
owl: the name of a document is missing: owl show [--partial] [--guess] [--base IRI] MAIN {IMPORT}
END
says '--guess and no command' 2 --guess show zoo.ofn <<'END'
words
owl: "--guess" stands behind a command: translate, declare, check, show, canon or digest is the first word
END
says '--base in front of --guess' 2 show --base http://e/ --guess zoo.ofn <<'END'
words
owl: "--guess" stands once, in front of the names and in this order: owl show [--partial] [--guess] [--base IRI] MAIN {IMPORT}
END
says '--base in front of the target' 2 translate --base http://e/ --to fss zoo.ofn <<'END'
words
owl: "--to" stands right behind "translate", where "--base" is: owl translate --to fss|ttl|omn [--partial] [--guess] [--base IRI] MAIN {IMPORT}
END
says '--base twice' 2 show --base http://e/ --base http://e/ zoo.ofn <<'END'
words
owl: "--base" stands once, in front of the names and in this order: owl show [--partial] [--guess] [--base IRI] MAIN {IMPORT}
END
says '--base behind the name' 2 show zoo.ofn --base http://e/ <<'END'
words
owl: "--base" stands once, in front of the names and in this order: owl show [--partial] [--guess] [--base IRI] MAIN {IMPORT}
END
says '--base and no command' 2 --base http://e/ show zoo.ofn <<'END'
words
owl: "--base" stands behind a command: translate, declare, check, show, canon or digest is the first word
END
says '--base and no name' 2 show --base http://e/ <<'END'
words
owl: the name of a document is missing: owl show [--partial] [--guess] [--base IRI] MAIN {IMPORT}
END
says '--base and no IRI' 2 show --base zoo.ofn <<'END'
words
owl: an IRI is missing behind "--base", where "zoo.ofn" is: owl show [--partial] [--guess] [--base IRI] MAIN {IMPORT}
END
says '--base at the end' 2 show --partial --base <<'END'
words
owl: an IRI is missing behind "--base", as http://example.org/zoo: owl show [--partial] [--guess] [--base IRI] MAIN {IMPORT}
END
says '--base and another option' 2 show --base --guess zoo.ofn <<'END'
words
owl: an IRI is missing behind "--base", where "--guess" is: owl show [--partial] [--guess] [--base IRI] MAIN {IMPORT}
END
says '--base and an empty word' 2 show --base '' zoo.ofn <<'END'
words
owl: the word behind "--base" is empty: an IRI stands there, as http://example.org/zoo
END
says '--base with an equals sign' 2 show --base=http://e/ zoo.ofn <<'END'
words
owl: "--base=http://e/" has to be two words, in front of the names: --base http://e/
END
says 'a base in brackets' 2 show --base '<http://e/>' zoo.ofn <<'END'
words
owl: "<http://e/>" stands without < and > behind "--base": http://e/
END
says 'a base without a scheme' 2 show --base example.org/zoo zoo.ofn <<'END'
words
owl: "example.org/zoo" has no scheme, which the IRI behind "--base" begins with, as http://example.org/zoo
END
says 'a base with a scheme that is none' 2 show --base 1e:a zoo.ofn <<'END'
words
owl: "1e:a" has no scheme, which the IRI behind "--base" begins with, as http://example.org/zoo
END
says 'a base with a space' 2 show --base 'http://e/the zoo' zoo.ofn <<'END'
words
owl: "http://e/the zoo" has a character that no IRI has: a space is written as %20, and so are others
END
says 'a base with a brace' 2 show --base 'http://e/{zoo}' zoo.ofn <<'END'
words
owl: "http://e/{zoo}" has a character that no IRI has: a space is written as %20, and so are others
END
says 'a base that is no UTF-8' 2 show --base $'http://e/\xff' zoo.ofn <<'END'
words
owl: "http://e/?" is no UTF-8
END
says 'a base and a name that is none' 2 show --base http://e/ zoo <<'END'
words
owl: "zoo" is no name of a document: one ends in .ofn, .ttl, .omn or .owc
END
says 'nothing behind declare' 2 declare <<'END'
words
owl: "--to" is missing behind "declare": owl declare --to fss|ttl|omn [--partial] [--guess] [--base IRI] MAIN {IMPORT}
END
says 'declare without a target' 2 declare zoo.ofn <<'END'
words
owl: "--to" stands right behind "declare", where "zoo.ofn" is: owl declare --to fss|ttl|omn [--partial] [--guess] [--base IRI] MAIN {IMPORT}
END
says 'no word for the target of declare' 2 declare --to <<'END'
words
owl: a word is missing behind "--to": one of fss, ttl, omn
END
says 'another target of declare' 2 declare --to turtle zoo.ofn <<'END'
words
owl: "turtle" is none of fss, ttl, omn: is "ttl" meant?
END
says 'declare without a name' 2 declare --to ttl <<'END'
words
owl: the name of a document is missing: owl declare --to fss|ttl|omn [--partial] [--guess] [--base IRI] MAIN {IMPORT}
END
says '--guess in front of --partial of declare' 2 declare --to fss --guess --partial zoo.ofn <<'END'
words
owl: "--partial" stands once, in front of the names and in this order: owl declare --to fss|ttl|omn [--partial] [--guess] [--base IRI] MAIN {IMPORT}
END
says 'declare with a typing error' 2 decalre --to fss zoo.ofn <<'END'
words
owl: "decalre" is no command: is "declare" meant? owl --help says what there is
END
says '--nest with another target' 2 translate --to fss --nest zoo.ofn <<'END'
words
owl: "--nest" stands once, right behind "--to ttl": owl translate --to ttl --nest [--partial] [--guess] [--base IRI] MAIN {IMPORT}
END
says '--nest behind --partial' 2 declare --to ttl --partial --nest zoo.ofn <<'END'
words
owl: "--nest" stands once, right behind "--to ttl": owl translate --to ttl --nest [--partial] [--guess] [--base IRI] MAIN {IMPORT}
END
says '--nest twice' 2 translate --to ttl --nest --nest zoo.ofn <<'END'
words
owl: "--nest" stands once, right behind "--to ttl": owl translate --to ttl --nest [--partial] [--guess] [--base IRI] MAIN {IMPORT}
END
says '--nest in front of the target' 2 translate --nest --to ttl zoo.ofn <<'END'
words
owl: "--to" stands right behind "translate", where "--nest" is: owl translate --to fss|ttl|omn [--partial] [--guess] [--base IRI] MAIN {IMPORT}
END
says '--nest and no name' 2 declare --to ttl --nest <<'END'
words
owl: the name of a document is missing: owl declare --to ttl --nest [--partial] [--guess] [--base IRI] MAIN {IMPORT}
END
says '--nest and words in another order' 2 translate --to ttl --nest --guess --partial zoo.ofn <<'END'
words
owl: "--partial" stands once, in front of the names and in this order: owl translate --to ttl --nest [--partial] [--guess] [--base IRI] MAIN {IMPORT}
END
says '--nest of another command' 2 show --nest zoo.ofn <<'END'
words
owl: "--nest" stands once, right behind "--to ttl": owl translate --to ttl --nest [--partial] [--guess] [--base IRI] MAIN {IMPORT}
END
says '--nest of canon' 2 canon --nest zoo.ofn <<'END'
words
owl: "--nest" is no word of "canon": owl canon [--partial] [--guess] [--base IRI] MAIN {IMPORT}
END
says '--nest and no command' 2 --nest translate --to ttl zoo.ofn <<'END'
words
owl: "--nest" stands behind a command: translate, declare, check, show, canon or digest is the first word
END
says 'nothing behind canon' 2 canon <<'END'
words
owl: the name of a document is missing: owl canon [--partial] [--guess] [--base IRI] MAIN {IMPORT}
END
says 'nothing behind digest' 2 digest <<'END'
words
owl: the name of a document is missing: owl digest [--partial] [--guess] [--base IRI] MAIN {IMPORT}
END
says 'a target of canon' 2 canon --to fss zoo.ofn <<'END'
words
owl: "--to" is no word of "canon": owl canon [--partial] [--guess] [--base IRI] MAIN {IMPORT}
END
says 'a profile of digest' 2 digest --profile=dl zoo.ofn <<'END'
words
owl: "--profile=dl" is no word of "digest": owl digest [--partial] [--guess] [--base IRI] MAIN {IMPORT}
END
says '--guess in front of --partial of canon' 2 canon --guess --partial zoo.ofn <<'END'
words
owl: "--partial" stands once, in front of the names and in this order: owl canon [--partial] [--guess] [--base IRI] MAIN {IMPORT}
END
says 'digest and a base that is relative' 2 digest --base e/ zoo.ofn <<'END'
words
owl: "e/" has no scheme, which the IRI behind "--base" begins with, as http://example.org/zoo
END
says 'digest and a base that is a document' 2 digest --base zoo.owc <<'END'
words
owl: an IRI is missing behind "--base", where "zoo.owc" is: owl digest [--partial] [--guess] [--base IRI] MAIN {IMPORT}
END
says 'canonical bytes as a target' 2 translate --to owc zoo.ofn <<'END'
words
owl: "owc" is none of fss, ttl, omn: what writes canonical bytes is "owl canon", and their digest "owl digest"
END
says 'canon by another word' 2 canonicalize zoo.ofn <<'END'
words
owl: "canonicalize" is no command: is "canon" meant? owl --help says what there is
END
says 'digest by another word' 2 sha256 zoo.ofn <<'END'
words
owl: "sha256" is no command: is "digest" meant? owl --help says what there is
END
says 'digest with a typing error' 2 digset zoo.ofn <<'END'
words
owl: "digset" is no command: is "digest" meant? owl --help says what there is
END
says 'the suffix of canonical bytes in capitals' 2 digest zoo.OWC <<'END'
words
owl: "zoo.OWC" ends in capitals: a name ends in .owc
END
says 'the suffix of canonical bytes alone' 2 show .owc <<'END'
words
owl: ".owc" is a suffix alone: a name has something in front of it
END
says '--to behind the name' 2 show zoo.ofn --to fss <<'END'
words
owl: "--to" stands right behind the command: owl show [--partial] [--guess] [--base IRI] MAIN {IMPORT}
END
says 'an output by name' 2 translate --to ttl zoo.ofn -o zoo.ttl <<'END'
words
owl: "-o" is no word of owl: the text goes to the standard output, so write > FILE
END
says '--quiet in another place' 2 show --quiet zoo.ofn <<'END'
words
owl: "--quiet" is the first word: owl --quiet COMMAND ..
END
says 'no profile' 2 check zoo.ofn <<'END'
words
owl: "--profile" stands right behind "check", where "zoo.ofn" is: owl check --profile dl|el|ql|rl [--partial] [--guess] [--base IRI] MAIN {IMPORT}
END
says 'no word for the profile' 2 check --profile <<'END'
words
owl: a word is missing behind "--profile": one of dl, el, ql, rl
END
says 'a name for the profile' 2 check --profile zoo.ofn <<'END'
words
owl: "zoo.ofn" is none of dl, el, ql, rl
END
says 'a profile in capitals' 2 check --profile DL zoo.ofn <<'END'
words
owl: "DL" is none of dl, el, ql, rl: is "dl" meant?
END
says 'a profile by its name' 2 check --profile owl2-el zoo.ofn <<'END'
words
owl: "owl2-el" is none of dl, el, ql, rl: is "el" meant?
END
says 'a profile that there is not' 2 check --profile full zoo.ofn <<'END'
words
owl: "full" is none of dl, el, ql, rl
END
says 'a suffix that is none' 2 show plain.owl <<'END'
words
owl: "plain.owl" is no name of a document: one ends in .ofn, .ttl, .omn or .owc
END
says 'RDF/XML under its own suffix' 2 show rdf.owl <<'END'
words
owl: "rdf.owl" ends in none of .ofn, .ttl, .omn and .owc; it looks like RDF/XML, which owl does not read: translate it first, as by rapper -i rdfxml -o turtle
END
says 'another suffix of Functional-Style Syntax' 2 show old.fss <<'END'
words
owl: "old.fss" ends in none of .ofn, .ttl, .omn and .owc; it looks like Functional-Style Syntax: its name has to end in .ofn
END
says 'a file that is not there, with another suffix' 2 show none.nt <<'END'
words
owl: "none.nt" has no suffix that owl knows: Turtle ends in .ttl, and N-Triples is Turtle
END
says 'a compressed file' 2 show zoo.ttl.gz <<'END'
words
owl: "zoo.ttl.gz" is compressed: unpack it first
END
says 'a suffix in capitals' 2 show ZOO.OFN <<'END'
words
owl: "ZOO.OFN" ends in capitals: a name ends in .ofn
END
says 'a suffix alone' 2 show .ofn <<'END'
words
owl: ".ofn" is a suffix alone: a name has something in front of it
END
says 'no suffix' 2 show zoo <<'END'
words
owl: "zoo" is no name of a document: one ends in .ofn, .ttl, .omn or .owc
END
says 'the standard input by -' 2 show - <<'END'
words
owl: "-" is no name: the suffix of a name tells the syntax, so the standard input is no document; a pipe with a name is, as by mkfifo zoo.ttl
END
says 'the standard input by its device' 2 show /dev/stdin <<'END'
words
owl: "/dev/stdin" has no suffix that tells its syntax: give the pipe a name, as by mkfifo zoo.ttl
END
says 'an IRI' 2 show http://example.org/zoo.owl <<'END'
words
owl: "http://example.org/zoo.owl" is an IRI, and owl fetches nothing: fetch it first, and name the file
END
says 'a name with a hyphen in front' 2 show -zoo.ofn <<'END'
words
owl: "-zoo.ofn" is no word of owl; a name that begins with - is written ./-zoo.ofn
END
says 'one name twice' 2 show zoo.ofn zoo.ofn <<'END'
words
owl: "zoo.ofn" is named twice, and a document stands once
END
says 'one document to compare' 2 same zoo.ofn <<'END'
words
owl: the second name is missing: owl same FIRST SECOND
END
says 'no document to compare' 2 same <<'END'
words
owl: two names are missing: owl same FIRST SECOND
END
says 'three documents to compare' 2 same zoo.ofn farm.ofn old.ofn <<'END'
words
owl: 3 documents are named, and two are compared: owl same FIRST SECOND
END
says 'a document and itself' 2 same zoo.ofn zoo.ofn <<'END'
words
owl: "zoo.ofn" is named twice, and a document stands once
END
says '--partial of a comparison' 2 same --partial zoo.ofn farm.ofn <<'END'
words
owl: "--partial" is no word of "same", which asks for no imports: owl same FIRST SECOND
END
says '--guess of a comparison' 2 same --guess zoo.ofn farm.ofn <<'END'
words
owl: "--guess" is no word of "same", which takes documents as they are: owl same FIRST SECOND
END
says '--base of a comparison' 2 same --base http://e/ zoo.ofn farm.ofn <<'END'
words
owl: "--base" is no word of "same", which takes documents as they are: owl same FIRST SECOND
END
says 'no size of a trial' 2 trial <<'END'
words
owl: a number is missing behind "trial": owl trial N, from 1 to 20000
END
says 'a size of 0' 2 trial 0 <<'END'
words
owl: "0" is no size of a trial: a number from 1 to 20000, in digits and without a zero in front
END
says 'a size that is too large' 2 trial 20001 <<'END'
words
owl: "20001" is no size of a trial: a number from 1 to 20000, in digits and without a zero in front
END
says 'two sizes' 2 trial 5 6 <<'END'
words
owl: "6" is one word too many: owl trial N
END
says 'too many folders' 2 --install a b <<'END'
words
owl: "--install" has at most one folder behind it: owl --install [FOLDER]
END
says 'too much behind --build' 2 --build --keep it <<'END'
words
owl: "--build" has nothing behind it but --keep: owl --build [--keep]
END
says 'an empty word' 2 show '' <<'END'
words
owl: a word is empty: the name of a document stands there
END
says 'an empty first word' 2 '' <<'END'
words
owl: the first word is empty: a command stands there, as translate, declare, check, show, same, canon, digest or trial
END
says 'a word that is no UTF-8' 2 show $'zoo\xff.ofn' <<'END'
words
owl: "zoo?.ofn" is no UTF-8: rename the file, or lead a link to it
END
# More names than may be.
mapfile -t many < <(seq -f %g.ofn 65)
says '65 names' 2 show "${many[@]}" <<'END'
words
owl: 65 documents are named, and at most 64 may be
END
}

# --- Texts in Functional-Style Syntax.
of_functional_style() {
document zoo.ofn <<'END'
Prefix(:=<http://e/>)
Ontology(
  SubClasOf(:A :B))
END
says 'a typing error in a keyword' 3 show zoo.ofn <<'END'
zoo.ofn: item at 34: NotHere at 34
owl: zoo.ofn:3:3: "SubClasOf" is no word of Functional-Style Syntax: is "SubClassOf" meant?
      SubClasOf(:A :B))
      ^
END
document zoo.ofn <<'END'
Prefix(:=<http://e/>)
Ontology(Declaration(Clas(:A)))
END
says 'a typing error further in' 3 show zoo.ofn <<'END'
zoo.ofn: item at 31: NotHere at 43
owl: zoo.ofn:2:22: "Clas" is no word of Functional-Style Syntax: is "Class" meant?
    Ontology(Declaration(Clas(:A)))
                         ^
END
document zoo.ofn <<'END'
Prefix(:=<http://e/>)
Ontology(SubClassOf(:A))
END
says 'a part is missing' 3 show zoo.ofn <<'END'
zoo.ofn: item at 31: NotHere at 44
owl: zoo.ofn:2:23: this bracket comes too early: a part is missing in front of it
    Ontology(SubClassOf(:A))
                          ^
END
document zoo.ofn <<'END'
Prefix(:=<http://e/>)
Ontology(SubClassOf(:A :B :C))
END
says 'a part is one too many' 3 show zoo.ofn <<'END'
zoo.ofn: item at 31: NotHere at 48
owl: zoo.ofn:2:27: ":C" may not stand here: it is one too many, or a bracket or another part is missing in front of it
    Ontology(SubClassOf(:A :B :C))
                              ^
END
document zoo.ofn <<'END'
Prefix(:=<http://e/>)
Ontology(SubClassOf(Animal :B))
END
says 'names without a colon' 3 show zoo.ofn <<'END'
zoo.ofn: item at 31: NotHere at 42
owl: zoo.ofn:2:21: "Animal" is no word of Functional-Style Syntax, and a name has a colon in it or stands in < and >
    Ontology(SubClassOf(Animal :B))
                        ^
END
document zoo.ofn <<'END'
Prefix(:=<http://e/>)
Ontology(SubClassOf(:A :B)

END
says 'a bracket is missing' 3 show zoo.ofn <<'END'
zoo.ofn: item at 50: NotHere at 50
owl: zoo.ofn:2:27: the document ends behind this, and 1 bracket is open
    Ontology(SubClassOf(:A :B)
                              ^
END
printf 'Prefix(:=<http://e/>)\nOntology(SubClassOf(:A :B' >zoo.ofn
says 'two brackets are missing' 3 show zoo.ofn <<'END'
zoo.ofn: item at 31: NotHere at 47
owl: zoo.ofn:2:26: the document ends behind this, and 2 brackets are open
    Ontology(SubClassOf(:A :B
                             ^
END
document zoo.ofn <<'END'
Prefix(:=<http://e/>)
Ontology(SubClassOf(:A :B)))
END
says 'a bracket is one too many' 3 show zoo.ofn <<'END'
zoo.ofn: item at 49: NotHere at 49
owl: zoo.ofn:2:28: this bracket is one too many: the ontology ended before it
    Ontology(SubClassOf(:A :B)))
                               ^
END
document zoo.ofn <<'END'
Import(<http://e/i>)
END
says 'no ontology around' 3 show zoo.ofn <<'END'
zoo.ofn: item at 0: NotHere at 0
owl: zoo.ofn:1:1: "Import" may not stand here: it is one too many, or a bracket or another part is missing in front of it
    Import(<http://e/i>)
    ^
END
document zoo.ofn <<'END'
Prefix(:=<http://e/>)
Ontology("x")
END
says 'a string where none may be' 3 show zoo.ofn <<'END'
zoo.ofn: item at 31: NotHere at 31
owl: zoo.ofn:2:10: a string may not stand here
    Ontology("x")
             ^
END
document zoo.ofn <<'END'
Prefix(:=<http://e/>)
Ontology(Annotation(rdfs:label "x))
END
says 'a string without an end' 3 show zoo.ofn <<'END'
zoo.ofn: item at 31: BadToken at 53
owl: zoo.ofn:2:32: the string that begins here does not end, or has a backslash in it that stands before no " and no backslash
    Ontology(Annotation(rdfs:label "x))
                                   ^
END
document zoo.ofn <<'END'
Prefix(ba:=<http://a/>)
Prefix(a:=<http://a/>)
Prefix(a:=<http://b/>)
Ontology()
END
says 'a prefix that another ends in' 3 show zoo.ofn <<'END'
zoo.ofn: item at 47: PrefixTwice at 54
owl: zoo.ofn:3:8: the prefix "a:" is declared before, in line 2: it can have one IRI
    Prefix(a:=<http://b/>)
           ^
END
document zoo.ofn <<'END'
Prefix(:=<http://e/>)
Ontology(Annotation(rdfs:label 'x'))
END
says 'a string in single quotes' 3 show zoo.ofn <<'END'
zoo.ofn: item at 31: BadToken at 53
owl: zoo.ofn:2:32: strings stand in double quotes in Functional-Style Syntax
    Ontology(Annotation(rdfs:label 'x'))
                                   ^
END
document zoo.ofn <<'END'
Ontology(<http://e/a b>)
END
says 'a space in an IRI' 3 show zoo.ofn <<'END'
zoo.ofn: item at 9: BadToken at 9
owl: zoo.ofn:1:10: no IRI begins here: one stands in < and >, with a scheme in front and without spaces
    Ontology(<http://e/a b>)
             ^
END
document zoo.ofn <<'END'
Prefix(:=<http://e/>)
Ontology(! :A)
END
says 'a character that begins nothing' 3 show zoo.ofn <<'END'
zoo.ofn: item at 31: BadToken at 31
owl: zoo.ofn:2:10: nothing that Functional-Style Syntax knows begins with "!"
    Ontology(! :A)
             ^
END
document zoo.ofn <<'END'
Prefix(:=<http://e/>)
Ontology(SubClassOf(:A x:B))
END
says 'an undeclared prefix' 3 show zoo.ofn <<'END'
zoo.ofn: item at 31: UnknownPrefix at 45
owl: zoo.ofn:2:24: the prefix "x:" is not declared above this: Prefix(x:=<IRI>) declares it
    Ontology(SubClassOf(:A x:B))
                           ^
END
document zoo.ofn <<'END'
Ontology(SubClassOf(:A :B))
END
says 'an undeclared prefix that is empty' 3 show zoo.ofn <<'END'
zoo.ofn: item at 9: UnknownPrefix at 20
owl: zoo.ofn:1:21: the prefix ":" is not declared above this: Prefix(:=<IRI>) declares it
    Ontology(SubClassOf(:A :B))
                        ^
END
document zoo.ofn <<'END'
Prefix(:=<http://e/>)
Prefix(a:=<http://a/>)
Prefix(a:=<http://b/>)
Ontology()
END
says 'a prefix twice' 3 show zoo.ofn <<'END'
zoo.ofn: item at 45: PrefixTwice at 52
owl: zoo.ofn:3:8: the prefix "a:" is declared before, in line 2: it can have one IRI
    Prefix(a:=<http://b/>)
           ^
END
document zoo.ofn <<'END'
Prefix(owl:=<http://e/>)
Ontology()
END
says 'a fixed prefix' 3 show zoo.ofn <<'END'
zoo.ofn: item at 0: PrefixFixed at 12
owl: zoo.ofn:1:13: rdf:, rdfs:, xsd: and owl: stand for the IRIs of the W3C, with no other: leave this declaration out, or take another prefix
    Prefix(owl:=<http://e/>)
                ^
END
document zoo.ofn <<'END'
Prefix(:=<http://e/>)
Ontology(Annotation(rdfs:label "x"^^rdf:langString))
END
says 'a datatype without such literals' 3 show zoo.ofn <<'END'
zoo.ofn: item at 31: BadLiteral at 58
owl: zoo.ofn:2:37: a literal of this datatype is not written in this form: a plain string or one with a language tag has no datatype
    Ontology(Annotation(rdfs:label "x"^^rdf:langString))
                                        ^
END
document zoo.ofn <<'END'
Prefix(:=<http://e/>)
Ontology(HasKey(:A () ()))
END
says 'a key of nothing' 3 show zoo.ofn <<'END'
zoo.ofn: item at 31: EmptyKey at 46
owl: zoo.ofn:2:25: a HasKey has at least one property in its two brackets
    Ontology(HasKey(:A () ()))
                            ^
END
printf '' >zoo.ofn
says 'an empty document' 3 show zoo.ofn <<'END'
zoo.ofn: item at 0: NotHere at 0
owl: zoo.ofn: the document is empty
END
document zoo.ofn <<'END'



END
says 'a document of line ends' 3 show zoo.ofn <<'END'
zoo.ofn: item at 3: NotHere at 3
owl: zoo.ofn: the document is empty
END
printf 'Ontology(Annotation(rdfs:label "\344\366"))\n' >zoo.ofn
says 'a byte of Latin-1' 3 show zoo.ofn <<'END'
zoo.ofn: item at 9: BadToken at 31
owl: zoo.ofn:1:32: in or behind the string that begins here stands a byte that is no UTF-8; as for Latin-1, iconv -f LATIN1 -t UTF-8 turns it into that
    Ontology(Annotation(rdfs:label "��"))
                                   ^
END
printf 'Prefix(:=<http://e/>)\nOntology(SubClassOf(:Gr\303\266\303\237e\346\245\275\345\231\250 x:B))\n' >zoo.ofn
says 'columns count characters' 3 show zoo.ofn <<'END'
zoo.ofn: item at 31: UnknownPrefix at 57
owl: zoo.ofn:2:30: the prefix "x:" is not declared above this: Prefix(x:=<IRI>) declares it
    Ontology(SubClassOf(:Größe楽器 x:B))
                                   ^
END
printf 'Prefix(:=<http://e/>)\nOntology(\n\tSubClassOf(:A\tx:B))\n' >zoo.ofn
says 'a tab in front' 3 show zoo.ofn <<'END'
zoo.ofn: item at 33: UnknownPrefix at 47
owl: zoo.ofn:3:16: the prefix "x:" is not declared above this: Prefix(x:=<IRI>) declares it
    	SubClassOf(:A	x:B))
    	             	^
END
printf 'Prefix(:=<http://e/>)\r\nOntology(\r\n  SubClassOf(:A x:B))\r\n' >zoo.ofn
says 'lines that end with CR LF' 3 show zoo.ofn <<'END'
zoo.ofn: item at 36: UnknownPrefix at 50
owl: zoo.ofn:3:17: the prefix "x:" is not declared above this: Prefix(x:=<IRI>) declares it
      SubClassOf(:A x:B))
                    ^
END
printf '\357\273\277Ontology(x:A)\n' >zoo.ofn
says 'a byte order mark' 3 show zoo.ofn <<'END'
zoo.ofn: item at 3: UnknownPrefix at 12
owl: zoo.ofn:1:10: the prefix "x:" is not declared above this: Prefix(x:=<IRI>) declares it
    Ontology(x:A)
             ^
END
printf 'Ontology(Annotation(rdfs:label "\033[31m\000\302\233") x:A)\n' >zoo.ofn
says 'control characters are not shown' 3 show zoo.ofn <<'END'
zoo.ofn: item at 43: NotHere at 43
owl: zoo.ofn:1:43: "x:A" may not stand here: it is one too many, or a bracket or another part is missing in front of it
    Ontology(Annotation(rdfs:label "�[31m��") x:A)
                                              ^
END
printf 'Ontology(Annotation(rdfs:label "\342\200\256gnol") x:A)\n' >zoo.ofn
says 'a mark of direction is not shown' 3 show zoo.ofn <<'END'
zoo.ofn: item at 42: NotHere at 42
owl: zoo.ofn:1:41: "x:A" may not stand here: it is one too many, or a bracket or another part is missing in front of it
    Ontology(Annotation(rdfs:label "�gnol") x:A)
                                            ^
END
printf 'Ontology(Annotation(rdfs:label "%05000d") SubClassOf(x:A %05000d' 1 2 >zoo.ofn
says 'a line that is too long to be shown' 3 show zoo.ofn <<'END'
zoo.ofn: item at 5035: UnknownPrefix at 5046
owl: zoo.ofn:1:5047: the prefix "x:" is not declared above this: Prefix(x:=<IRI>) declares it
    ...0000000000000000000000000000000000000000001") SubClassOf(x:A 00000000000000000000000000000000000000000000000000000...
                                                                ^
END
{ printf 'Ontology(Annotation(rdfs:label "xy'; printf 'ä%.0s' {1..220}; printf '))'; } >zoo.ofn
says 'a long string without an end, and no byte of it is wrong' 3 show zoo.ofn <<'END'
zoo.ofn: item at 9: BadToken at 31
owl: zoo.ofn:1:32: the string that begins here does not end, or has a backslash in it that stands before no " and no backslash
    Ontology(Annotation(rdfs:label "xyääääääääääääääääääääääääääääääääääääääääääääääääääääää...
                                   ^
END
document 'größe ξ.ofn' <<'END'
Ontology(x:A)
END
says 'a name with a space and beyond ASCII' 3 show $'gr\xc3\xb6\xc3\x9fe \xce\xbe.ofn' <<'END'
größe ξ.ofn: item at 0: UnknownPrefix at 9
owl: größe ξ.ofn:1:10: the prefix "x:" is not declared above this: Prefix(x:=<IRI>) declares it
    Ontology(x:A)
             ^
END
document 'a: item at 3: b.ofn' <<'END'
Ontology(x:A)
END
says 'a name that looks like a note' 3 show 'a: item at 3: b.ofn' <<'END'
a: item at 3: b.ofn: item at 0: UnknownPrefix at 9
owl: a: item at 3: b.ofn:1:10: the prefix "x:" is not declared above this: Prefix(x:=<IRI>) declares it
    Ontology(x:A)
             ^
END
}

# --- Texts under a wrong suffix.
of_suffixes() {
document zoo.ofn <<'END'
<?xml version="1.0"?>
<rdf:RDF xmlns:rdf="http://www.w3.org/1999/02/22-rdf-syntax-ns#"/>
END
says 'RDF/XML as .ofn' 3 show zoo.ofn <<'END'
zoo.ofn: item at 0: BadToken at 0
owl: zoo.ofn:1:1: this looks like RDF/XML, which owl does not read: translate it first, as by rapper -i rdfxml -o turtle
    <?xml version="1.0"?>
    ^
END
document zoo.ofn <<'END'
<?xml version="1.0"?>
<Ontology xmlns="http://www.w3.org/2002/07/owl#"/>
END
says 'OWL/XML as .ofn' 3 show zoo.ofn <<'END'
zoo.ofn: item at 0: BadToken at 0
owl: zoo.ofn:1:1: this looks like OWL/XML, which owl does not read: save it as Functional-Style Syntax or Turtle
    <?xml version="1.0"?>
    ^
END
document zoo.ofn <<'END'
<!DOCTYPE html>
<html></html>
END
says 'a page of the web as .ofn' 3 show zoo.ofn <<'END'
zoo.ofn: item at 0: BadToken at 0
owl: zoo.ofn:1:1: this looks like HTML: is it the page of the ontology, and not the ontology?
    <!DOCTYPE html>
    ^
END
document zoo.ofn <<'END'
<?xml version="1.0"?>
<x/>
END
says 'other XML as .ofn' 3 show zoo.ofn <<'END'
zoo.ofn: item at 0: BadToken at 0
owl: zoo.ofn:1:1: this looks like XML, which owl does not read
    <?xml version="1.0"?>
    ^
END
document zoo.ofn <<'END'
format-version: 1.2

[Term]
id: X:1
END
says 'OBO as .ofn' 3 show zoo.ofn <<'END'
zoo.ofn: item at 0: NotHere at 0
owl: zoo.ofn:1:1: this looks like OBO, which owl does not read: save it as Functional-Style Syntax or Turtle
    format-version: 1.2
    ^
END
document zoo.ofn <<'END'
{ "@context": {} }
END
says 'JSON-LD as .ofn' 3 show zoo.ofn <<'END'
zoo.ofn: item at 0: BadToken at 0
owl: zoo.ofn:1:1: this looks like JSON, as JSON-LD, which owl does not read: translate it to Turtle first
    { "@context": {} }
    ^
END
document zoo.ofn <<'END'
[
  { "@id": "x" }
]
END
says 'JSON-LD in a list as .ofn' 3 show zoo.ofn <<'END'
zoo.ofn: item at 0: BadToken at 0
owl: zoo.ofn:1:1: this looks like JSON, as JSON-LD, which owl does not read: translate it to Turtle first
    [
    ^
END
document zoo.ofn <<'END'
@prefix : <http://e/> .
@prefix owl: <http://www.w3.org/2002/07/owl#> .
@prefix rdfs: <http://www.w3.org/2000/01/rdf-schema#> .
END
says 'Turtle as .ofn' 3 show zoo.ofn <<'END'
zoo.ofn: item at 0: NotHere at 0
owl: zoo.ofn:1:1: this looks like Turtle: its name has to end in .ttl
    @prefix : <http://e/> .
    ^
END
document zoo.ofn <<'END'
PREFIX : <http://e/>
:a :b :c .
END
says 'Turtle in the form of SPARQL as .ofn' 3 show zoo.ofn <<'END'
zoo.ofn: item at 0: NotHere at 0
owl: zoo.ofn:1:1: this looks like Turtle: its name has to end in .ttl
    PREFIX : <http://e/>
    ^
END
document zoo.ofn <<'END'
<http://e/a> <http://e/b> <http://e/c> .
END
says 'N-Triples as .ofn' 3 show zoo.ofn <<'END'
zoo.ofn: item at 0: NotHere at 0
owl: zoo.ofn:1:1: this looks like N-Triples, which Turtle has in it: its name has to end in .ttl
    <http://e/a> <http://e/b> <http://e/c> .
    ^
END
document zoo.ofn <<'END'
# a comment

Prefix: : <http://e/>
Ontology: <http://e/o>
END
says 'Manchester Syntax as .ofn' 3 show zoo.ofn <<'END'
zoo.ofn: item at 13: NotHere at 13
owl: zoo.ofn:3:1: this looks like Manchester Syntax: its name has to end in .omn
    Prefix: : <http://e/>
    ^
END
printf '\037\213\010\000' >zoo.ofn
says 'gzip as .ofn' 3 show zoo.ofn <<'END'
zoo.ofn: item at 0: BadToken at 0
owl: zoo.ofn:1:1: this is compressed by gzip: unpack it first, as by gunzip
    ����
    ^
END
printf 'PK\003\004' >zoo.ofn
says 'a zip archive as .ofn' 3 show zoo.ofn <<'END'
zoo.ofn: item at 0: NotHere at 0
owl: zoo.ofn:1:1: this is a zip archive: unpack it first
    PK��
    ^
END
printf '\377\376O\000n\000t\000o\000l\000o\000g\000y\000(\000)\000' >zoo.ofn
says 'UTF-16 as .ofn' 3 show zoo.ofn <<'END'
zoo.ofn: item at 0: BadUtf8 at 0
owl: zoo.ofn:1:1: this is in UTF-16: turn it into UTF-8 first, as by iconv -f UTF-16 -t UTF-8
    ��O�n�t�o�l�o�g�y�(�)�
    ^
END
document zoo.ttl <<'END'
Prefix(:=<http://e/>)
Ontology()
END
says 'Functional-Style Syntax as .ttl' 3 show zoo.ttl <<'END'
zoo.ttl: item at 0: NotHere at 6
owl: zoo.ttl:1:7: this looks like Functional-Style Syntax: its name has to end in .ofn
    Prefix(:=<http://e/>)
          ^
END
document zoo.ttl <<'END'
<?xml version="1.0"?>
<rdf:RDF xmlns:rdf="http://www.w3.org/1999/02/22-rdf-syntax-ns#"/>
END
says 'RDF/XML as .ttl' 3 show zoo.ttl <<'END'
zoo.ttl: item at 0: BadToken at 0
owl: zoo.ttl:1:1: this looks like RDF/XML, which owl does not read: translate it first, as by rapper -i rdfxml -o turtle
    <?xml version="1.0"?>
    ^
END
document zoo.ttl <<'END'
Prefix: : <http://e/>
Ontology: <http://e/o>
END
says 'Manchester Syntax as .ttl' 3 show zoo.ttl <<'END'
zoo.ttl: item at 0: UnknownPrefix at 0
owl: zoo.ttl:1:1: this looks like Manchester Syntax: its name has to end in .omn
    Prefix: : <http://e/>
    ^
END
document zoo.ttl <<'END'
format-version: 1.2
END
says 'OBO as .ttl' 3 show zoo.ttl <<'END'
zoo.ttl: item at 0: UnknownPrefix at 0
owl: zoo.ttl:1:1: this looks like OBO, which owl does not read: save it as Functional-Style Syntax or Turtle
    format-version: 1.2
    ^
END
document zoo.ttl <<'END'
[ <http://e/p> "{" ] .
:x .
END
says 'a node of Turtle with braces is no JSON' 3 show zoo.ttl <<'END'
zoo.ttl: item at 23: UnknownPrefix at 23
owl: zoo.ttl:2:1: the prefix ":" is not declared above this: @prefix : <IRI> . declares it
    :x .
    ^
END
document zoo.ttl <<'END'
ontology:x <http://e/p> "" .
END
says 'a prefix of Turtle is no OBO' 3 show zoo.ttl <<'END'
zoo.ttl: item at 0: UnknownPrefix at 0
owl: zoo.ttl:1:1: the prefix "ontology:" is not declared above this: @prefix ontology: <IRI> . declares it
    ontology:x <http://e/p> "" .
    ^
END
document zoo.ttl <<'END'
<Ontology> <http://e/p> "" .
END
says 'a relative IRI is no OWL/XML' 3 show zoo.ttl <<'END'
zoo.ttl: item at 0: RelativeWithoutBase at 0
owl: zoo.ttl:1:1: this IRI is relative, and no base is set above it: put --base IRI in front of the names, set one by "@base <IRI> .", or write it in full
    <Ontology> <http://e/p> "" .
    ^
END
document zoo.omn <<'END'
Prefix(:=<http://e/>)
Ontology()
END
says 'Functional-Style Syntax as .omn' 3 show zoo.omn <<'END'
zoo.omn: item at 0: NotHere at 0
owl: zoo.omn:1:1: this looks like Functional-Style Syntax: its name has to end in .ofn
    Prefix(:=<http://e/>)
    ^
END
document zoo.omn <<'END'
@prefix : <http://e/> .
@prefix owl: <http://www.w3.org/2002/07/owl#> .
@prefix rdfs: <http://www.w3.org/2000/01/rdf-schema#> .
END
says 'Turtle as .omn' 3 show zoo.omn <<'END'
zoo.omn: item at 0: NotHere at 0
owl: zoo.omn:1:1: this looks like Turtle: its name has to end in .ttl
    @prefix : <http://e/> .
    ^
END
}

# --- Texts in Turtle.
of_turtle() {
document zoo.ttl <<'END'
@prefix : <http://e/> .
@prefix owl: <http://www.w3.org/2002/07/owl#> .
@prefix rdfs: <http://www.w3.org/2000/01/rdf-schema#> .
:o a owl:Ontology
:A a owl:Class .
END
says 'a dot is missing, in Turtle' 3 show zoo.ttl <<'END'
zoo.ttl: item at 128: NotHere at 146
owl: zoo.ttl:5:1: ":A" may not stand here: the statement above it has no dot at its end, or another sign is missing there
    :A a owl:Class .
    ^
END
document zoo.ttl <<'END'
@prefix : <http://e/> .
@prefix owl: <http://www.w3.org/2002/07/owl#> .
@prefix rdfs: <http://www.w3.org/2000/01/rdf-schema#> .
:o a owl:Ontology .
:A a owl:Class
END
says 'the last dot is missing, in Turtle' 3 show zoo.ttl <<'END'
zoo.ttl: item at 148: NotHere at 163
owl: zoo.ttl:5:15: the document ends behind this, inside of a statement: a dot, a bracket or a part is missing
    :A a owl:Class
                  ^
END
document zoo.ttl <<'END'
@prefix : <http://e/> .
@prefix owl: <http://www.w3.org/2002/07/owl#> .
@prefix rdfs: <http://www.w3.org/2000/01/rdf-schema#> .
:o a owl:Ontology .
:A a [ a owl:Class .
END
says 'a bracket is missing, in Turtle' 3 show zoo.ttl <<'END'
zoo.ttl: item at 148: NotHere at 167
owl: zoo.ttl:5:20: "." comes too early: a term or a bracket is missing in front of it
    :A a [ a owl:Class .
                       ^
END
document zoo.ttl <<'END'
@prefix : <http://e/> .
@prefix owl: <http://www.w3.org/2002/07/owl#> .
@prefix rdfs: <http://www.w3.org/2000/01/rdf-schema#> .
:A a .
END
says 'an object is missing, in Turtle' 3 show zoo.ttl <<'END'
zoo.ttl: item at 128: NotHere at 133
owl: zoo.ttl:4:6: "." comes too early: a term or a bracket is missing in front of it
    :A a .
         ^
END
document zoo.ttl <<'END'
@prefix : <http://e/> .
@prefix owl: <http://www.w3.org/2002/07/owl#> .
@prefix rdfs: <http://www.w3.org/2000/01/rdf-schema#> .
:a :b :c :d .
END
says 'a term is one too many, in Turtle' 3 show zoo.ttl <<'END'
zoo.ttl: item at 128: NotHere at 137
owl: zoo.ttl:4:10: ":d" may not stand here: a dot or another sign is missing in front of it, or a word is one too many
    :a :b :c :d .
             ^
END
document zoo.ttl <<'END'
@prefix : <http://e/> .
@prefix owl: <http://www.w3.org/2002/07/owl#> .
@prefix rdfs: <http://www.w3.org/2000/01/rdf-schema#> .
:a "b" :c .
END
says 'a string as a predicate, in Turtle' 3 show zoo.ttl <<'END'
zoo.ttl: item at 128: NotHere at 131
owl: zoo.ttl:4:4: a string may not stand here
    :a "b" :c .
       ^
END
document zoo.ttl <<'END'
@prefix : <http://e/> .
@prefix owl: <http://www.w3.org/2002/07/owl#> .
@prefix rdfs: <http://www.w3.org/2000/01/rdf-schema#> .
A a owl:Class .
END
says 'a name without a colon, in Turtle' 3 show zoo.ttl <<'END'
zoo.ttl: item at 128: BadToken at 128
owl: zoo.ttl:4:1: "A" is no word of Turtle: a name has a colon in it, as :A, or stands in < and >
    A a owl:Class .
    ^
END
document zoo.ttl <<'END'
@prefix : <http://e/> .
@prefix owl: <http://www.w3.org/2002/07/owl#> .
@prefix rdfs: <http://www.w3.org/2000/01/rdf-schema#> .
:A :l "x .
END
says 'a string without an end, in Turtle' 3 show zoo.ttl <<'END'
zoo.ttl: item at 128: BadToken at 134
owl: zoo.ttl:4:7: the string that begins here does not end, has a line end, or a bad escape behind a backslash in it
    :A :l "x .
          ^
END
document zoo.ttl <<'END'
@prefix : <http://e/> .
@prefix owl: <http://www.w3.org/2002/07/owl#> .
@prefix rdfs: <http://www.w3.org/2000/01/rdf-schema#> .
<http://e/a b> a owl:Class .
END
says 'a space in an IRI, in Turtle' 3 show zoo.ttl <<'END'
zoo.ttl: item at 128: BadToken at 128
owl: zoo.ttl:4:1: no IRI begins here: one stands in < and >, with a scheme in front and without spaces
    <http://e/a b> a owl:Class .
    ^
END
document zoo.ttl <<'END'
@prefix : <http://e/> .
@prefix owl: <http://www.w3.org/2002/07/owl#> .
@prefix rdfs: <http://www.w3.org/2000/01/rdf-schema#> .
:A a x:Class .
END
says 'an undeclared prefix, in Turtle' 3 show zoo.ttl <<'END'
zoo.ttl: item at 128: UnknownPrefix at 133
owl: zoo.ttl:4:6: the prefix "x:" is not declared above this: @prefix x: <IRI> . declares it
    :A a x:Class .
         ^
END
document zoo.ttl <<'END'
@prefix : <http://e/> .
@prefix owl: <http://www.w3.org/2002/07/owl#> .
@prefix rdfs: <http://www.w3.org/2000/01/rdf-schema#> .
:A a skos:Concept .
END
says 'a usual prefix that is undeclared, in Turtle' 3 show zoo.ttl <<'END'
zoo.ttl: item at 128: UnknownPrefix at 133
owl: zoo.ttl:4:6: the prefix "skos:" is not declared above this: @prefix skos: <http://www.w3.org/2004/02/skos/core#> . declares it
    :A a skos:Concept .
         ^
END
document zoo.ttl <<'END'
@prefix : <http://e/> .
@prefix owl: <http://www.w3.org/2002/07/owl#> .
@prefix rdfs: <http://www.w3.org/2000/01/rdf-schema#> .
:o a owl:Ontology . :A a owl:Class :B .
END
says 'a word in the middle, in Turtle' 3 show zoo.ttl <<'END'
zoo.ttl: item at 148: NotHere at 163
owl: zoo.ttl:4:36: ":B" may not stand here: a dot or another sign is missing in front of it, or a word is one too many
    :o a owl:Ontology . :A a owl:Class :B .
                                       ^
END
document zoo.ttl <<'END'
@prefix : <http://e/> .
@prefix owl: <http://www.w3.org/2002/07/owl#> .
@prefix rdfs: <http://www.w3.org/2000/01/rdf-schema#> .
<a> a owl:Class .
END
says 'a relative IRI, in Turtle' 3 show zoo.ttl <<'END'
zoo.ttl: item at 128: RelativeWithoutBase at 128
owl: zoo.ttl:4:1: this IRI is relative, and no base is set above it: put --base IRI in front of the names, set one by "@base <IRI> .", or write it in full
    <a> a owl:Class .
    ^
END
document zoo.ttl <<'END'
@prefix : <http://e/> .
@prefix owl: <http://www.w3.org/2002/07/owl#> .
@prefix rdfs: <http://www.w3.org/2000/01/rdf-schema#> .
<http://e/a\u0020b> a owl:Class .
END
says 'an escape that no IRI has, in Turtle' 3 show zoo.ttl <<'END'
zoo.ttl: item at 128: BadIri at 128
owl: zoo.ttl:4:1: no IRI has all of these characters: an escape here stands for one that it may not have
    <http://e/a\u0020b> a owl:Class .
    ^
END
document zoo.ttl <<'END'
@prefix : <http://e/> .
@prefix owl: <http://www.w3.org/2002/07/owl#> .
@prefix rdfs: <http://www.w3.org/2000/01/rdf-schema#> .
:x :y "a"^^<http://www.w3.org/1999/02/22-rdf-syntax-ns#langString> .
END
says 'a datatype without such literals, in Turtle' 3 show zoo.ttl <<'END'
zoo.ttl: item at 128: BadLiteral at 139
owl: zoo.ttl:4:12: a literal of this datatype is not written in this form: a plain string or one with a language tag has no datatype
    :x :y "a"^^<http://www.w3.org/1999/02/22-rdf-syntax-ns#langString> .
               ^
END
}

# --- Graphs.
of_graphs() {
printf '' >zoo.ttl
says 'an empty graph' 3 show zoo.ttl <<'END'
zoo.ttl: NoHeader
owl: zoo.ttl: the document is empty
END
document zoo.ttl <<'END'
@prefix : <http://e/> .
@prefix owl: <http://www.w3.org/2002/07/owl#> .
@prefix rdfs: <http://www.w3.org/2000/01/rdf-schema#> .
:A a owl:Class .
END
says 'no header' 3 show zoo.ttl <<'END'
zoo.ttl: NoHeader
owl: zoo.ttl: no node of the graph is an ontology: add "<IRI> a owl:Ontology ."
END
document zoo.ttl <<'END'
@prefix owl: <http://www.w3.org/2002/07/owl> .
<http://e/o> a owl:Ontology .
END
says 'a header by another prefix' 3 show zoo.ttl <<'END'
zoo.ttl: NoHeader
owl: zoo.ttl: no node is an owl:Ontology: the prefix owl: has to stand for <http://www.w3.org/2002/07/owl#>
END
document zoo.ttl <<'END'
@prefix : <http://e/> .
@prefix owl: <http://www.w3.org/2002/07/owl#> .
@prefix rdfs: <http://www.w3.org/2000/01/rdf-schema#> .
:o a owl:Ontology .
:A a owl:Class .
:p a owl:Ontology .
END
says 'two headers' 3 show zoo.ttl <<'END'
zoo.ttl: TwoHeaders
owl: zoo.ttl:6:6: two nodes of the graph are an owl:Ontology, and one may be
    :p a owl:Ontology .
         ^
END
document zoo.ttl <<'END'
@prefix : <http://e/> .
@prefix owl: <http://www.w3.org/2002/07/owl#> .
@prefix rdfs: <http://www.w3.org/2000/01/rdf-schema#> .
:o a owl:Ontology .
:A a owl:Class .
:o owl:imports "x" .
END
says 'an import that is a string' 3 show zoo.ttl <<'END'
zoo.ttl: BadHeader <http://e/o>
owl: zoo.ttl:4:1: this ontology has a version or an import that is no IRI, two versions, or a version without an IRI of its own: <http://e/o>
    :o a owl:Ontology .
    ^
END
document zoo.ttl <<'END'
@prefix : <http://e/> .
@prefix owl: <http://www.w3.org/2002/07/owl#> .
@prefix rdfs: <http://www.w3.org/2000/01/rdf-schema#> .
:o a owl:Ontology .
:A a owl:Class .
:A rdfs:subClassOf [ a owl:Restriction ; owl:somValuesFrom :A ] .
END
says 'a word that OWL has not' 3 show zoo.ttl <<'END'
zoo.ttl: BadNode _:gen1
owl: zoo.ttl:6:42: owl:somValuesFrom is no word of OWL 2: is owl:someValuesFrom meant?
    :A rdfs:subClassOf [ a owl:Restriction ; owl:somValuesFrom :A ] .
                                             ^
END
document zoo.ttl <<'END'
@prefix : <http://e/> .
@prefix owl: <http://www.w3.org/2002/07/owl#> .
@prefix rdfs: <http://www.w3.org/2000/01/rdf-schema#> .
:o a owl:Ontology .
:A a owl:Class .
:A a owl:Clas .
END
says 'a type that OWL has not' 3 show zoo.ttl <<'END'
zoo.ttl: Reserved <http://e/A> <http://www.w3.org/1999/02/22-rdf-syntax-ns#type> <http://www.w3.org/2002/07/owl#Clas>
owl: zoo.ttl:6:6: owl:Clas is no word of OWL 2: is owl:Class meant?
    :A a owl:Clas .
         ^
END
document zoo.ttl <<'END'
@prefix : <http://e/> .
@prefix owl: <http://www.w3.org/2002/07/owl#> .
@prefix rdfs: <http://www.w3.org/2000/01/rdf-schema#> .
:o a owl:Ontology .
:A a owl:Class .
:x owl:sameIndividualAs :y .
END
says 'a word of OWL 1' 3 show zoo.ttl <<'END'
zoo.ttl: Reserved <http://e/x> <http://www.w3.org/2002/07/owl#sameIndividualAs> <http://e/y>
owl: zoo.ttl:6:4: owl:sameIndividualAs is no word of OWL 2: is owl:sameAs meant?
    :x owl:sameIndividualAs :y .
       ^
END
document zoo.ttl <<'END'
@prefix : <http://e/> .
@prefix owl: <http://www.w3.org/2002/07/owl#> .
@prefix rdfs: <http://www.w3.org/2000/01/rdf-schema#> .
:o a owl:Ontology .
:A a owl:Class .
# a list and a node: gen1 to gen4
:A rdfs:subClassOf [ a owl:Class ; owl:unionOf ( :A [ a owl:Restriction ;
  owl:onProperty :p ] ) ] .
END
says 'a restriction without its filler' 3 show zoo.ttl <<'END'
zoo.ttl: BadNode _:gen4
owl: zoo.ttl:7:53: the triples of this node are those of no class expression, data range, axiom or annotation: one is missing, too many or a bad list or number (it has rdf:type, owl:onProperty)
    :A rdfs:subClassOf [ a owl:Class ; owl:unionOf ( :A [ a owl:Restriction ;
                                                        ^
END
document zoo.ttl <<'END'
@prefix : <http://e/> .
@prefix owl: <http://www.w3.org/2002/07/owl#> .
@prefix rdfs: <http://www.w3.org/2000/01/rdf-schema#> .
:o a owl:Ontology .
:A a owl:Class .
_:gen7 rdfs:label "]" .
:A rdfs:label """a "[" and
( [ """@en .
:A rdfs:subClassOf [ a owl:Restriction ; owl:onProperty :p ] .
END
says 'generated labels begin above those of the document' 3 show zoo.ttl <<'END'
zoo.ttl: BadNode _:gen8
owl: zoo.ttl:9:20: the triples of this node are those of no class expression, data range, axiom or annotation: one is missing, too many or a bad list or number (it has rdf:type, owl:onProperty)
    :A rdfs:subClassOf [ a owl:Restriction ; owl:onProperty :p ] .
                       ^
END
document zoo.ttl <<'END'
@prefix : <http://e/> .
@prefix owl: <http://www.w3.org/2002/07/owl#> .
@prefix rdfs: <http://www.w3.org/2000/01/rdf-schema#> .
:o a owl:Ontology .
:A a owl:Class .
:B rdfs:subClassOf :A .
END
says 'an undeclared class on the left' 3 show zoo.ttl <<'END'
zoo.ttl: Untyped <http://e/B> <http://www.w3.org/2000/01/rdf-schema#subClassOf> <http://e/A>
owl: zoo.ttl:6:1: :B is not declared here: add ":B a owl:Class ."
    :B rdfs:subClassOf :A .
    ^
END
document zoo.ttl <<'END'
@prefix : <http://e/> .
@prefix owl: <http://www.w3.org/2002/07/owl#> .
@prefix rdfs: <http://www.w3.org/2000/01/rdf-schema#> .
:o a owl:Ontology .
:A a owl:Class .
:A rdfs:subClassOf
    :B .
END
says 'an undeclared class on the right' 3 show zoo.ttl <<'END'
zoo.ttl: Untyped <http://e/A> <http://www.w3.org/2000/01/rdf-schema#subClassOf> <http://e/B>
owl: zoo.ttl:7:5: :B is not declared here: add ":B a owl:Class ."
        :B .
        ^
END
document zoo.ttl <<'END'
@prefix : <http://e/> .
@prefix owl: <http://www.w3.org/2002/07/owl#> .
@prefix rdfs: <http://www.w3.org/2000/01/rdf-schema#> .
:o a owl:Ontology .
:A a owl:Class .
:A rdfs:label "x" ; :eats "5"@en, 5, "abc" .
END
says 'an undeclared property' 3 show zoo.ttl <<'END'
zoo.ttl: Untyped <http://e/A> <http://e/eats> "5"@en
owl: zoo.ttl:6:21: :eats is not declared here: say what it is, as by ":eats a owl:ObjectProperty ." (or owl:DatatypeProperty, or owl:AnnotationProperty); or put --guess in front of the names to take such properties as annotation properties
    :A rdfs:label "x" ; :eats "5"@en, 5, "abc" .
                        ^
END
document zoo.ttl <<'END'
@prefix : <http://e/> .
@prefix owl: <http://www.w3.org/2002/07/owl#> .
@prefix rdfs: <http://www.w3.org/2000/01/rdf-schema#> .
:o a owl:Ontology .
:A a owl:Class .
:A rdfs:subClassOf [ a owl:Restriction ;
  owl:onProperty :p ; owl:someValuesFrom :A ] .
END
says 'an undeclared property of a restriction' 3 show zoo.ttl <<'END'
zoo.ttl: Untyped _:gen1 <http://www.w3.org/2002/07/owl#onProperty> <http://e/p>
owl: zoo.ttl:7:18: :p is not declared here: say what it is, as by ":p a owl:ObjectProperty ." (or owl:DatatypeProperty, or owl:AnnotationProperty)
      owl:onProperty :p ; owl:someValuesFrom :A ] .
                     ^
END
document zoo.ttl <<'END'
@prefix : <http://e/> .
@prefix owl: <http://www.w3.org/2002/07/owl#> .
@prefix rdfs: <http://www.w3.org/2000/01/rdf-schema#> .
:o a owl:Ontology .
:A a owl:Class .
:p a owl:ObjectProperty . :a :p "x" .
END
says 'an assertion of the wrong kind' 3 show zoo.ttl <<'END'
zoo.ttl: Untyped <http://e/a> <http://e/p> "x"
owl: zoo.ttl:6:30: this triple is no assertion: :p has a kind that does not fit what stands on its two sides
    :p a owl:ObjectProperty . :a :p "x" .
                                 ^
END
document zoo.ttl <<'END'
@prefix : <http://e/> .
@prefix owl: <http://www.w3.org/2002/07/owl#> .
@prefix rdfs: <http://www.w3.org/2000/01/rdf-schema#> .
:o a owl:Ontology .
:A a owl:Class .
:A rdfs:subClassOf owl:Class .
END
says 'a class that is no word of OWL' 3 show zoo.ttl <<'END'
zoo.ttl: Untyped <http://e/A> <http://www.w3.org/2000/01/rdf-schema#subClassOf> <http://www.w3.org/2002/07/owl#Class>
owl: zoo.ttl:6:4: this triple names what may not stand there, by its kind: <http://e/A> rdfs:subClassOf owl:Class
    :A rdfs:subClassOf owl:Class .
       ^
END
document zoo.ttl <<'END'
@prefix : <http://e/> .
@prefix owl: <http://www.w3.org/2002/07/owl#> .
@prefix rdfs: <http://www.w3.org/2000/01/rdf-schema#> .
:o a owl:Ontology .
:A a owl:Class .
owl:Class a owl:Class .
END
says 'a reserved word' 3 show zoo.ttl <<'END'
zoo.ttl: Reserved <http://www.w3.org/2002/07/owl#Class> <http://www.w3.org/1999/02/22-rdf-syntax-ns#type> <http://www.w3.org/2002/07/owl#Class>
owl: zoo.ttl:6:11: this triple takes a word of a reserved vocabulary for what OWL 2 does not take it for: owl:Class rdf:type owl:Class
    owl:Class a owl:Class .
              ^
END
document zoo.ttl <<'END'
@prefix : <http://e/> .
@prefix owl: <http://www.w3.org/2002/07/owl#> .
@prefix rdfs: <http://www.w3.org/2000/01/rdf-schema#> .
:o a owl:Ontology .
:A a owl:Class .
_:x a owl:Class ; owl:complementOf :A .
END
says 'an expression that no axiom uses' 3 show zoo.ttl <<'END'
zoo.ttl: Orphan _:x
owl: zoo.ttl:6:1: this node is an expression that no axiom uses: use it in one, or leave it out
    _:x a owl:Class ; owl:complementOf :A .
    ^
END
document zoo.ttl <<'END'
@prefix : <http://e/> .
@prefix owl: <http://www.w3.org/2002/07/owl#> .
@prefix rdfs: <http://www.w3.org/2000/01/rdf-schema#> .
:o a owl:Ontology .
:A a owl:Class .
[] a owl:Axiom ; owl:annotatedSource :A ; owl:annotatedProperty rdfs:subClassOf ;
  owl:annotatedTarget :A ; rdfs:comment "x" .
END
says 'an annotation of nothing' 3 show zoo.ttl <<'END'
zoo.ttl: MainMissing _:gen1
owl: zoo.ttl:6:1: this node annotates a triple that is not in the document: add the triple that its owl:annotatedSource, owl:annotatedProperty and owl:annotatedTarget name
    [] a owl:Axiom ; owl:annotatedSource :A ; owl:annotatedPr...
    ^
END
document zoo.ttl <<'END'
@prefix : <http://e/> .
@prefix owl: <http://www.w3.org/2002/07/owl#> .
@prefix rdfs: <http://www.w3.org/2000/01/rdf-schema#> .
:o a owl:Ontology .
:A a owl:Class .
_:x a owl:Class ; owl:unionOf ( :A _:x ) . _:x rdfs:subClassOf :A .
END
says 'a ring of nodes' 3 show zoo.ttl <<'END'
zoo.ttl: Cycle _:gen1
owl: zoo.ttl:6:33: this node is a part of itself, by way of its own parts, which no expression is
    _:x a owl:Class ; owl:unionOf ( :A _:x ) . _:x rdfs:subClassOf :A .
                                    ^
END
document zoo.ttl <<'END'
@prefix : <http://e/> .
@prefix owl: <http://www.w3.org/2002/07/owl#> .
@prefix rdfs: <http://www.w3.org/2000/01/rdf-schema#> .
:o a owl:Ontology .
:A a owl:Class .
_:x <http://www.w3.org/1999/02/22-rdf-syntax-ns#first> :A . _:x rdfs:subClassOf :A .
END
says 'a list without its rest' 3 show zoo.ttl <<'END'
zoo.ttl: BadList _:x
owl: zoo.ttl:6:1: this cell of a list has not one rdf:first and one rdf:rest, or its rest is no list: write the list as ( .. )
    _:x <http://www.w3.org/1999/02/22-rdf-syntax-ns#first> :A...
    ^
END
document zoo.ttl <<'END'
@prefix : <http://e/> .
@prefix owl: <http://www.w3.org/2002/07/owl#> .
@prefix rdfs: <http://www.w3.org/2000/01/rdf-schema#> .
:o a owl:Ontology .
:A a owl:Class .
_:x <http://www.w3.org/1999/02/22-rdf-syntax-ns#first> :A ; a owl:Class ; owl:complementOf :A .
END
says 'a class that is a list' 3 show zoo.ttl <<'END'
zoo.ttl: Mixed _:x
owl: zoo.ttl:6:1: this node has the marks of two things, as of a class and of a list: make two nodes of it
    _:x <http://www.w3.org/1999/02/22-rdf-syntax-ns#first> :A...
    ^
END
document zoo.ttl <<'END'
@prefix : <http://e/> .
@prefix owl: <http://www.w3.org/2002/07/owl#> .
@prefix rdfs: <http://www.w3.org/2000/01/rdf-schema#> .
:o a owl:Ontology .
:A a owl:Class .
:p a owl:ObjectProperty, owl:DatatypeProperty .
END
says 'two kinds in a graph' 3 show zoo.ttl <<'END'
zoo.ttl: TwoKinds <http://e/p>
owl: zoo.ttl:6:1: :p is declared as two kinds that no IRI may have together, as class and datatype, or as two kinds of properties: take two IRIs
    :p a owl:ObjectProperty, owl:DatatypeProperty .
    ^
END
document zoo.ttl <<'END'
@base <http://e/x> .
@prefix owl: <http://www.w3.org/2002/07/owl#> .
<> a owl:Ontology .
<A> a owl:Class .
<A> <#p> <B> .
END
says 'names by a base' 3 show zoo.ttl <<'END'
zoo.ttl: Untyped <http://e/A> <http://e/x#p> <http://e/B>
owl: zoo.ttl:5:5: <#p> is not declared here: say what it is, as by "<#p> a owl:ObjectProperty ." (or owl:DatatypeProperty, or owl:AnnotationProperty); or put --guess in front of the names to take such properties as annotation properties
    <A> <#p> <B> .
        ^
END
says 'names by a base, in a comparison' 3 same zoo.ttl ./zoo.ttl <<'END'
zoo.ttl: Untyped <http://e/A> <http://e/x#p> <http://e/B>
owl: zoo.ttl:5:5: <#p> is not declared here: say what it is, as by "<#p> a owl:ObjectProperty ." (or owl:DatatypeProperty, or owl:AnnotationProperty)
    <A> <#p> <B> .
        ^
END
says 'a property that is guessed' 0 show --guess zoo.ttl <<'END'
shown
END
document zoo.ttl <<'END'
@prefix owl: <http://www.w3.org/2002/07/owl#> .
<> a owl:Ontology .
<A> a owl:Class .
<A> <#p> <B> .
END
says 'names by a base that stands in front of the names' 3 show --partial --base http://e/x zoo.ttl <<'END'
zoo.ttl: Untyped <http://e/A> <http://e/x#p> <http://e/B>
owl: zoo.ttl:4:5: <#p> is not declared here: say what it is, as by "<#p> a owl:ObjectProperty ." (or owl:DatatypeProperty, or owl:AnnotationProperty); or put --guess in front of the names to take such properties as annotation properties
    <A> <#p> <B> .
        ^
END
says 'all options' 0 check --profile dl --partial --guess --base http://e/x zoo.ttl <<'END'
profile dl: yes
END
says 'a relative IRI, in a comparison' 3 same zoo.ttl ./zoo.ttl <<'END'
zoo.ttl: item at 48: RelativeWithoutBase at 48
owl: zoo.ttl:2:1: this IRI is relative, and no base is set above it: "@base <IRI> ." sets one, or write it in full
    <> a owl:Ontology .
    ^
END
document main.ttl <<'END'
@prefix owl: <http://www.w3.org/2002/07/owl#> .
<> a owl:Ontology ; owl:imports <http://e/zoo> .
END
says 'a relative IRI of an import' 3 check --profile dl --base http://e/main main.ttl zoo.ttl <<'END'
zoo.ttl: item at 48: RelativeWithoutBase at 48
owl: zoo.ttl:2:1: this IRI is relative, and no base is set above it: "@base <IRI> ." sets one, or write it in full
    <> a owl:Ontology .
    ^
END
document zoo.ttl <<'END'
@base <http://e/zoo> .
@prefix owl: <http://www.w3.org/2002/07/owl#> .
<> a owl:Ontology .
<A> <#p> <B> .
END
says 'an undeclared property of an import with a base' 3 translate --to fss --base http://e/main main.ttl zoo.ttl <<'END'
zoo.ttl: Untyped <http://e/A> <http://e/zoo#p> <http://e/B>
owl: zoo.ttl:4:5: <#p> is not declared here: say what it is, as by "<#p> a owl:ObjectProperty ." (or owl:DatatypeProperty, or owl:AnnotationProperty); or put --guess in front of the names to take such properties as annotation properties
    <A> <#p> <B> .
        ^
END
document zoo.ttl <<'END'
@prefix : <http://e/> .
@prefix owl: <http://www.w3.org/2002/07/owl#> .
@prefix rdfs: <http://www.w3.org/2000/01/rdf-schema#> .
:o a owl:Ontology .
:A a owl:Class ; rdfs:subClassOf [ a owl:Class ; owl:complementOf :A ; :p "x" ] .
END
says 'an undeclared property of an expression' 3 show zoo.ttl <<'END'
zoo.ttl: Untyped _:gen1 <http://e/p> "x"
owl: zoo.ttl:5:72: :p is not declared here: say what it is, as by ":p a owl:ObjectProperty ." (or owl:DatatypeProperty, or owl:AnnotationProperty)
    ... ; rdfs:subClassOf [ a owl:Class ; owl:complementOf :A ; :p "x" ] .
                                                                ^
END
says 'a guessed property of an expression' 3 show --guess zoo.ttl <<'END'
zoo.ttl: Untyped _:gen1 <http://e/p> "x"
owl: zoo.ttl:5:72: this triple is no assertion: :p has a kind that does not fit what stands on its two sides
    ... ; rdfs:subClassOf [ a owl:Class ; owl:complementOf :A ; :p "x" ] .
                                                                ^
END
}

# --- Texts and frames in Manchester Syntax.
of_frames() {
printf '' >zoo.omn
says 'an empty document, in Manchester Syntax' 3 show zoo.omn <<'END'
zoo.omn: item at 0: NotHere at 0
owl: zoo.omn: the document is empty
END
document zoo.omn <<'END'
Prefix: : <http://e/>
Ontology: <http://e/o>
Class: A
 SubClasOf: B
Class: B
END
says 'a typing error in the keyword of a section, in Manchester Syntax' 3 show zoo.omn <<'END'
zoo.omn: item at 45: NotHere at 55
owl: zoo.omn:4:2: "SubClasOf:" is no keyword of Manchester Syntax: is "SubClassOf:" meant?
     SubClasOf: B
     ^
END
document zoo.omn <<'END'
Prefix: : <http://e/>
Ontology: <http://e/o>
Clas: A
END
says 'a typing error in the keyword of a frame, in Manchester Syntax' 3 show zoo.omn <<'END'
zoo.omn: item at 22: UnknownPrefix at 45
owl: zoo.omn:3:1: the prefix "Clas:" is not declared above this: is the keyword "Class:" meant?
    Clas: A
    ^
END
document zoo.omn <<'END'
Prefix: : <http://e/>
Ontology: <http://e/o>
Class: A
 SubClassOf: p som B
Class: B
ObjectProperty: p
END
says 'a typing error in a word, in Manchester Syntax' 3 show zoo.omn <<'END'
zoo.omn: item at 55: NotHere at 69
owl: zoo.omn:4:16: "som" may not stand here: is "some" meant?
     SubClassOf: p som B
                   ^
END
document zoo.omn <<'END'
Prefix: : <http://e/>
Ontology: <http://e/o>
Class: A
 SubClassOf: x:B
END
says 'an undeclared prefix, in Manchester Syntax' 3 show zoo.omn <<'END'
zoo.omn: item at 55: UnknownPrefix at 67
owl: zoo.omn:4:14: the prefix "x:" is not declared above this: Prefix: x: <IRI> declares it
     SubClassOf: x:B
                 ^
END
document zoo.omn <<'END'
Prefix: : <http://e/>
Ontology: <http://e/o>
Class: A
 SubClassOf: p some (B
Class: B
ObjectProperty: p
END
says 'a bracket is missing, in Manchester Syntax' 3 show zoo.omn <<'END'
zoo.omn: item at 55: NotHere at 77
owl: zoo.omn:5:1: "Class:" may not stand here: a part is missing in front of it, or this frame has no such section
    Class: B
    ^
END
document zoo.omn <<'END'
Prefix: : <http://e/>
Ontology: <http://e/o>
Class: A
 Annotations: rdfs:label "x"@en,
END
says 'a part is missing at the end, in Manchester Syntax' 3 show zoo.omn <<'END'
zoo.omn: item at 45: NotHere at 87
owl: zoo.omn:4:33: the document ends behind this, and something is missing there: a name, an expression or a bracket
     Annotations: rdfs:label "x"@en,
                                    ^
END
document zoo.omn <<'END'
Prefix: : <http://e/>
Ontology: <http://e/o>
Class: A
 Domain: A
END
says 'a section of another frame, in Manchester Syntax' 3 show zoo.omn <<'END'
zoo.omn: item at 55: NotHere at 55
owl: zoo.omn:4:2: "Domain:" may not stand here: a part is missing in front of it, or this frame has no such section
     Domain: A
     ^
END
document zoo.omn <<'END'
Prefix: : <http://e/>
Ontology: <http://e/o>
Class: A
 Annotations: rdfs:label "x
END
says 'a string without an end, in Manchester Syntax' 3 show zoo.omn <<'END'
zoo.omn: item at 45: BadToken at 79
owl: zoo.omn:4:26: the string that begins here does not end, or has a backslash in it that stands before no " and no backslash
     Annotations: rdfs:label "x
                             ^
END
document zoo.omn <<'END'
Prefix: : <http://e/>
Prefix: : <http://e/>
Ontology: <http://e/o>
END
says 'a prefix twice, in Manchester Syntax' 3 show zoo.omn <<'END'
zoo.omn: item at 22: PrefixTwice at 30
owl: zoo.omn:2:9: the prefix ":" is declared before, in line 1: it can have one IRI
    Prefix: : <http://e/>
            ^
END
document zoo.omn <<'END'
Prefix: owl: <http://e/>
Ontology:
END
says 'a fixed prefix, in Manchester Syntax' 3 show zoo.omn <<'END'
zoo.omn: item at 0: PrefixFixed at 13
owl: zoo.omn:1:14: rdf:, rdfs:, xsd: and owl: stand for the IRIs of the W3C, with no other: leave this declaration out, or take another prefix
    Prefix: owl: <http://e/>
                 ^
END
document zoo.omn <<'END'
Prefix: : <http://e/>
Ontology: <http://e/o>
Class: A
 SubClassOf: B
END
says 'an undeclared class, in Manchester Syntax' 3 show zoo.omn <<'END'
zoo.omn: Untyped <http://e/B> at 67
owl: zoo.omn:4:14: B is not declared: a frame says what it is, as "Class: B" (or Datatype:, ObjectProperty:, DataProperty:, AnnotationProperty:)
     SubClassOf: B
                 ^
END
document zoo.omn <<'END'
Prefix: : <http://e/>
Ontology: <http://e/o>
Class: A
 SubClassOf: p some A
END
says 'an undeclared property, in Manchester Syntax' 3 show zoo.omn <<'END'
zoo.omn: Untyped <http://e/p> at 67
owl: zoo.omn:4:14: p is not declared: a frame says what it is, as "Class: p" (or Datatype:, ObjectProperty:, DataProperty:, AnnotationProperty:)
     SubClassOf: p some A
                 ^
END
document zoo.omn <<'END'
Prefix: : <http://e/>
Ontology: <http://e/o>
DataProperty: d
Class: A
 SubClassOf: d some A
END
says 'data where objects go, in Manchester Syntax' 3 show zoo.omn <<'END'
zoo.omn: WrongKind <http://e/A> at 90
owl: zoo.omn:5:21: A is declared as another kind than has to stand here: objects go with object properties, data with data properties
     SubClassOf: d some A
                        ^
END
document zoo.omn <<'END'
Prefix: : <http://e/>
Ontology: <http://e/o>
DataProperty: d
DataProperty: e
 EquivalentTo: inverse d
END
says 'an inverse where none may be, in Manchester Syntax' 3 show zoo.omn <<'END'
zoo.omn: item at 78: NotHere at 92
owl: zoo.omn:5:16: "inverse" may not stand here
     EquivalentTo: inverse d
                   ^
END
document zoo.omn <<'END'
Prefix: : <http://e/>
Ontology: <http://e/o>
DataProperty: d
DataProperty: e
EquivalentProperties: d, inverse e
END
says 'an inverse of data properties, in Manchester Syntax' 3 show zoo.omn <<'END'
zoo.omn: WrongForm at 102
owl: zoo.omn:5:26: what stands here may not: an inverse, a restriction or an expression where a name is wanted, or data where objects are
    EquivalentProperties: d, inverse e
                             ^
END
document zoo.omn <<'END'
Prefix: : <http://e/>
Ontology: <http://e/o>
Class: A
Datatype: A
END
says 'two kinds, in Manchester Syntax' 3 show zoo.omn <<'END'
zoo.omn: TwoKinds <http://e/A>
owl: zoo.omn:3:8: A is declared as two kinds that no IRI may have together, as class and datatype, or as two kinds of properties: take two IRIs
    Class: A
           ^
END
}

# --- Imports.
of_imports() {
document farm.ofn <<'END'
Ontology(<http://e/farm>)
END
document zoo.ofn <<'END'
Prefix(i:=<http://e/>)
Ontology(<http://e/o>
  Import(i:animals))
END
says 'an import is missing' 3 show zoo.ofn <<'END'
zoo.ofn: MissingImport <http://e/animals>
owl: zoo.ofn:3:10: no document that is named has the IRI of this import: name it behind the others, or put --partial in front of the names to do without
      Import(i:animals))
             ^
END
says 'an import of a translation is missing' 3 translate --to ttl zoo.ofn farm.ofn <<'END'
zoo.ofn: MissingImport <http://e/animals>
owl: zoo.ofn:3:10: no document that is named has the IRI of this import: name it behind the others, or put --partial in front of the names to do without
      Import(i:animals))
             ^
END
document zoo.ttl <<'END'
@prefix : <http://e/> .
@prefix owl: <http://www.w3.org/2002/07/owl#> .
@prefix rdfs: <http://www.w3.org/2000/01/rdf-schema#> .
:o a owl:Ontology ;
  owl:imports :animals .
END
says 'an import of a graph is missing' 3 check --profile dl zoo.ttl <<'END'
zoo.ttl: MissingImport <http://e/animals>
owl: zoo.ttl:5:15: no document that is named has the IRI of this import: name it behind the others, or put --partial in front of the names to do without
      owl:imports :animals .
                  ^
END
document zoo.omn <<'END'
Ontology: <http://e/o>
Import: <http://e/animals>
END
says 'an import of frames is missing' 3 show zoo.omn <<'END'
zoo.omn: MissingImport <http://e/animals>
owl: zoo.omn:2:9: no document that is named has the IRI of this import: name it behind the others, or put --partial in front of the names to do without
    Import: <http://e/animals>
            ^
END
document main.ofn <<'END'
Ontology(<http://e/m> Import(<http://e/o>))
END
says 'an import of an import is missing' 3 show main.ofn zoo.omn <<'END'
zoo.omn: MissingImport <http://e/animals>
owl: zoo.omn:2:9: no document that is named has the IRI of this import: name it behind the others, or put --partial in front of the names to do without
    Import: <http://e/animals>
            ^
END
}

# --- What is not declared, or can't be said.
of_targets() {
document zoo.ofn <<'END'
Prefix(:=<http://e/>)
Ontology(<http://e/zoo> Import(<http://e/farm>)
  SubClassOf(:A ObjectSomeValuesFrom(:p :B)))
END
document farm.ofn <<'END'
Prefix(:=<http://e/>)
Ontology(<http://e/farm> Declaration(Class(:A)))
END
says 'declarations are added' 0 declare --to ttl zoo.ofn farm.ofn <<'END'
declared; added 2; axioms 3; absorbed 0
END
holds 'and are those that the import lacks' grep -c -q -x ':p rdf:type owl:ObjectProperty .' "$seen/output"
says 'declarations where an import is missing' 3 declare --to ttl zoo.ofn <<'END'
zoo.ofn: MissingImport <http://e/farm>
owl: zoo.ofn:2:32: no document that is named has the IRI of this import: name it behind the others, or put --partial in front of the names to do without
    Ontology(<http://e/zoo> Import(<http://e/farm>)
                                   ^
END
says 'declarations where an import may be missing' 0 declare --to omn --partial zoo.ofn <<'END'
declared; added 3; axioms 4; absorbed 0
END
document farm.ofn <<'END'
Prefix(:=<http://e/>)
Ontology(<http://e/farm> Declaration(Class(:A)) Declaration(DataProperty(:p)))
END
says 'a property that an import declares as another kind' 4 declare --to fss zoo.ofn farm.ofn <<'END'
typing: TwoKinds <http://e/p>
owl: zoo.ofn:3:38: :p stands here, or is declared, as two kinds that no IRI may have together, as class and datatype, or as two kinds of properties: take two IRIs
      SubClassOf(:A ObjectSomeValuesFrom(:p :B)))
                                         ^
END
document farm.ofn <<'END'
Prefix(:=<http://e/>)
Ontology(<http://e/farm> SubClassOf(ObjectUnionOf(:A :B) :C))
END
says 'what frames cannot say with all declared' 4 declare --to omn farm.ofn <<'END'
target: UnnamedSubject: SubClassOf(ObjectUnionOf(<http://e/A> <http://e/B>) <http://e/C>)
owl: farm.ofn:2:26: a frame is of a name: give the class a name by an EquivalentClasses axiom, and say this of the name; --to ttl and --to fss can
    Ontology(<http://e/farm> SubClassOf(ObjectUnionOf(:A :B) :C))
                             ^
END
document farm.ttl <<'END'
@prefix : <http://e/> . @prefix owl: <http://www.w3.org/2002/07/owl#> .
:farm a owl:Ontology . :A a owl:Class ; :note "x" .
END
says 'a graph is not declared without a guess' 3 declare --to fss farm.ttl <<'END'
farm.ttl: Untyped <http://e/A> <http://e/note> "x"
owl: farm.ttl:2:41: :note is not declared here: say what it is, as by ":note a owl:ObjectProperty ." (or owl:DatatypeProperty, or owl:AnnotationProperty); or put --guess in front of the names to take such properties as annotation properties
    :farm a owl:Ontology . :A a owl:Class ; :note "x" .
                                            ^
END
says 'a graph is declared with a guess' 0 declare --to fss --guess farm.ttl <<'END'
declared; added 0; axioms 3; absorbed 0
END
document zoo.ofn <<'END'
Prefix(:=<http://e/>)
Ontology(
  Declaration(Class(:A)) Declaration(ObjectProperty(:p)) Declaration(DataProperty(:d)) Declaration(DataProperty(:f))
  SubClassOf(:A :B))
END
says 'an undeclared class with --nest' 4 translate --to ttl --nest zoo.ofn <<'END'
typing: Undeclared Class <http://e/B>: SubClassOf(<http://e/A> <http://e/B>)
owl: zoo.ofn:4:17: :B stands here as a class and is declared nowhere: "declare" in place of "translate" adds what is missing; or add "Declaration(Class(:B))", or import a document that declares it
      SubClassOf(:A :B))
                    ^
END
says 'declared with --nest' 0 declare --to ttl --nest zoo.ofn <<'END'
declared; added 1; axioms 6; absorbed 0
END
says 'an undeclared class' 4 translate --to ttl zoo.ofn <<'END'
typing: Undeclared Class <http://e/B>: SubClassOf(<http://e/A> <http://e/B>)
owl: zoo.ofn:4:17: :B stands here as a class and is declared nowhere: "declare" in place of "translate" adds what is missing; or add "Declaration(Class(:B))", or import a document that declares it
      SubClassOf(:A :B))
                    ^
END
document zoo.ofn <<'END'
Prefix(:=<http://e/>)
Ontology(
  Declaration(Class(:A)) Declaration(ObjectProperty(:p)) Declaration(DataProperty(:d)) Declaration(DataProperty(:f))
  DataPropertyRange(:d :t))
END
says 'an undeclared datatype' 4 translate --to ttl zoo.ofn <<'END'
typing: Undeclared Datatype <http://e/t>: DataPropertyRange(<http://e/d> <http://e/t>)
owl: zoo.ofn:4:24: :t stands here as a datatype and is declared nowhere: "declare" in place of "translate" adds what is missing; or add "Declaration(Datatype(:t))", or import a document that declares it
      DataPropertyRange(:d :t))
                           ^
END
document zoo.ofn <<'END'
Prefix(:=<http://e/>)
Ontology(
  Declaration(Class(:A)) Declaration(ObjectProperty(:p)) Declaration(DataProperty(:d)) Declaration(DataProperty(:f))
  FunctionalObjectProperty(:q))
END
says 'an undeclared object property' 4 translate --to ttl zoo.ofn <<'END'
typing: Undeclared ObjectProperty <http://e/q>: FunctionalObjectProperty(<http://e/q>)
owl: zoo.ofn:4:28: :q stands here as an object property and is declared nowhere: "declare" in place of "translate" adds what is missing; or add "Declaration(ObjectProperty(:q))", or import a document that declares it
      FunctionalObjectProperty(:q))
                               ^
END
document zoo.ofn <<'END'
Prefix(:=<http://e/>)
Ontology(
  Declaration(Class(:A)) Declaration(ObjectProperty(:p)) Declaration(DataProperty(:d)) Declaration(DataProperty(:f))
  FunctionalDataProperty(:e))
END
says 'an undeclared data property' 4 translate --to ttl zoo.ofn <<'END'
typing: Undeclared DataProperty <http://e/e>: FunctionalDataProperty(<http://e/e>)
owl: zoo.ofn:4:26: :e stands here as a data property and is declared nowhere: "declare" in place of "translate" adds what is missing; or add "Declaration(DataProperty(:e))", or import a document that declares it
      FunctionalDataProperty(:e))
                             ^
END
document zoo.ofn <<'END'
Prefix(:=<http://e/>)
Ontology(
  Declaration(Class(:A)) Declaration(ObjectProperty(:p)) Declaration(DataProperty(:d)) Declaration(DataProperty(:f))
  AnnotationAssertion(:note :A "x"))
END
says 'an undeclared annotation property' 4 translate --to ttl zoo.ofn <<'END'
typing: Undeclared AnnotationProperty <http://e/note>: AnnotationAssertion(<http://e/note> <http://e/A> "x")
owl: zoo.ofn:4:23: :note stands here as an annotation property and is declared nowhere: "declare" in place of "translate" adds what is missing; or add "Declaration(AnnotationProperty(:note))", or import a document that declares it
      AnnotationAssertion(:note :A "x"))
                          ^
END
document zoo.ofn <<'END'
Prefix(:=<http://e/>)
Ontology(
  Declaration(Class(:A)) Declaration(ObjectProperty(:p)) Declaration(DataProperty(:d)) Declaration(DataProperty(:f))
  SubClassOf(:A :B))
END
says 'an undeclared class, for Manchester Syntax' 4 translate --to omn zoo.ofn <<'END'
typing: Undeclared Class <http://e/B>: SubClassOf(<http://e/A> <http://e/B>)
owl: zoo.ofn:4:17: :B stands here as a class and is declared nowhere: "declare" in place of "translate" adds what is missing; or add "Declaration(Class(:B))", or import a document that declares it
      SubClassOf(:A :B))
                    ^
END
document zoo.ofn <<'END'
Prefix(:=<http://e/>)
Ontology(<http://e/o> Annotation(:note "x"))
END
says 'an undeclared property of the header' 4 translate --to ttl zoo.ofn <<'END'
typing: Undeclared AnnotationProperty <http://e/note>: header
owl: zoo.ofn:2:34: :note stands here as an annotation property and is declared nowhere: "declare" in place of "translate" adds what is missing; or add "Declaration(AnnotationProperty(:note))", or import a document that declares it
    Ontology(<http://e/o> Annotation(:note "x"))
                                     ^
END
document zoo.ofn <<'END'
Prefix(:=<http://e/>)
Ontology(
  Declaration(Class(:A)) Declaration(ObjectProperty(:p)) Declaration(DataProperty(:d)) Declaration(DataProperty(:f))
  SubClassOf(:A owl:Thing)
  SubClassOf(:A ObjectSomeValuesFrom(:A :A)) SubClassOf(:A ObjectSomeValuesFrom(:p :A)))
END
says 'an undeclared property that is a class first' 4 translate --to ttl zoo.ofn <<'END'
typing: Undeclared ObjectProperty <http://e/A>: SubClassOf(<http://e/A> ObjectSomeValuesFrom(<http://e/A> <http://e/A>))
owl: zoo.ofn:5:14: :A stands here as an object property and is declared nowhere: "declare" in place of "translate" adds what is missing; or add "Declaration(ObjectProperty(:A))", or import a document that declares it
      SubClassOf(:A ObjectSomeValuesFrom(:A :A)) SubClassOf(:A ObjectSomeV...
                 ^
END
document zoo.ofn <<'END'
Prefix(:=<http://e/>)
Ontology(Declaration(Class(:A))
  Declaration(Datatype(:A)))
END
says 'two kinds' 4 translate --to ttl zoo.ofn <<'END'
typing: TwoKinds <http://e/A>
owl: zoo.ofn:2:28: :A is declared as two kinds that no IRI may have together, as class and datatype, or as two kinds of properties: take two IRIs
    Ontology(Declaration(Class(:A))
                               ^
END
document zoo.ofn <<'END'
Ontology(Declaration(Class(owl:Class)))
END
says 'a reserved name' 4 translate --to ttl zoo.ofn <<'END'
target: Reserved <http://www.w3.org/2002/07/owl#Class>: Declaration(Class(<http://www.w3.org/2002/07/owl#Class>))
owl: zoo.ofn:1:28: a graph cannot say an axiom in which <http://www.w3.org/2002/07/owl#Class> is taken for what it is not: take an IRI of your own; --to fss can
    Ontology(Declaration(Class(owl:Class)))
                               ^
END
document zoo.ofn <<'END'
Prefix(:=<http://e/>)
Ontology(
  Declaration(Class(:A)) Declaration(ObjectProperty(:p)) Declaration(DataProperty(:d)) Declaration(DataProperty(:f))
  DataPropertyRange(:d DatatypeRestriction(xsd:integer :most "5"^^xsd:integer)))
END
says 'a facet of another vocabulary' 4 translate --to ttl zoo.ofn <<'END'
target: FacetName <http://e/most>: DataPropertyRange(<http://e/d> DatatypeRestriction(<http://www.w3.org/2001/XMLSchema#integer> <http://e/most> "5"^^<http://www.w3.org/2001/XMLSchema#integer>))
owl: zoo.ofn:4:56: only --to fss can say a facet with the IRI <http://e/most>, which is none of XML Schema
      DataPropertyRange(:d DatatypeRestriction(xsd:integer :most "5"^^xsd:integer)))
                                                           ^
END
document zoo.ofn <<'END'
Prefix(:=<http://e/>)
Ontology(
  Declaration(Class(:A)) Declaration(ObjectProperty(:p)) Declaration(DataProperty(:d)) Declaration(DataProperty(:f))
  SubClassOf(ObjectComplementOf(:A) :A))
END
says 'a subclass without a name' 4 translate --to omn zoo.ofn <<'END'
target: UnnamedSubject: SubClassOf(ObjectComplementOf(<http://e/A>) <http://e/A>)
owl: zoo.ofn:4:3: a frame is of a name: give the class a name by an EquivalentClasses axiom, and say this of the name; --to ttl and --to fss can
      SubClassOf(ObjectComplementOf(:A) :A))
      ^
END
document zoo.ofn <<'END'
Prefix(:=<http://e/>)
Ontology(
  Declaration(Class(:A)) Declaration(ObjectProperty(:p)) Declaration(DataProperty(:d)) Declaration(DataProperty(:f))
  ObjectPropertyDomain(ObjectInverseOf(:p) :A))
END
says 'a domain of an inverse' 4 translate --to omn zoo.ofn <<'END'
target: InverseSubject: ObjectPropertyDomain(ObjectInverseOf(<http://e/p>) <http://e/A>)
owl: zoo.ofn:4:3: a frame is of a name: give the inverse of the property a name by InverseObjectProperties, and say this of the name; --to ttl and --to fss can
      ObjectPropertyDomain(ObjectInverseOf(:p) :A))
      ^
END
document zoo.ofn <<'END'
Prefix(:=<http://e/>)
Ontology(
  Declaration(Class(:A)) Declaration(ObjectProperty(:p)) Declaration(DataProperty(:d)) Declaration(DataProperty(:f))
  InverseObjectProperties(ObjectInverseOf(:p) ObjectInverseOf(:p)))
END
says 'two inverses' 4 translate --to omn zoo.ofn <<'END'
target: TwoInverses: InverseObjectProperties(ObjectInverseOf(<http://e/p>) ObjectInverseOf(<http://e/p>))
owl: zoo.ofn:4:3: a frame is of a name: one of two inverse properties has to have one; --to ttl and --to fss can
      InverseObjectProperties(ObjectInverseOf(:p) ObjectInverse...
      ^
END
document zoo.ofn <<'END'
Prefix(:=<http://e/>)
Ontology(
  Declaration(Class(:A)) Declaration(ObjectProperty(:p)) Declaration(DataProperty(:d)) Declaration(DataProperty(:f))
  NegativeObjectPropertyAssertion(ObjectInverseOf(:p) :a :b))
END
says 'an assertion by an inverse' 4 translate --to omn zoo.ofn <<'END'
target: InverseAssertion: NegativeObjectPropertyAssertion(ObjectInverseOf(<http://e/p>) <http://e/a> <http://e/b>)
owl: zoo.ofn:4:3: a frame says no assertion by an inverse: say it by the property, the other way round; --to ttl and --to fss can
      NegativeObjectPropertyAssertion(ObjectInverseOf(:p) :a :b))
      ^
END
document zoo.ofn <<'END'
Prefix(:=<http://e/>)
Ontology(
  Declaration(Class(:A)) Declaration(ObjectProperty(:p)) Declaration(DataProperty(:d)) Declaration(DataProperty(:f))
  SubClassOf(:A DataSomeValuesFrom(:d :f rdfs:Literal)))
END
says 'a restriction on two properties' 4 translate --to omn zoo.ofn <<'END'
target: ManyProperties: SubClassOf(<http://e/A> DataSomeValuesFrom(<http://e/d> <http://e/f> <http://www.w3.org/2000/01/rdf-schema#Literal>))
owl: zoo.ofn:4:3: Manchester Syntax has no restriction on several data properties; --to ttl and --to fss can
      SubClassOf(:A DataSomeValuesFrom(:d :f rdfs:Literal)))
      ^
END
document zoo.ofn <<'END'
Prefix(:=<http://e/>)
Ontology(
  Declaration(Class(:A)) Declaration(ObjectProperty(:p)) Declaration(DataProperty(:d)) Declaration(DataProperty(:f))
  DataPropertyRange(:d DatatypeRestriction(xsd:integer :most "5"^^xsd:integer)))
END
says 'a facet of another vocabulary, for Manchester Syntax' 4 translate --to omn zoo.ofn <<'END'
target: FacetName <http://e/most>: DataPropertyRange(<http://e/d> DatatypeRestriction(<http://www.w3.org/2001/XMLSchema#integer> <http://e/most> "5"^^<http://www.w3.org/2001/XMLSchema#integer>))
owl: zoo.ofn:4:56: only --to fss can say a facet with the IRI <http://e/most>, which is none of XML Schema
      DataPropertyRange(:d DatatypeRestriction(xsd:integer :most "5"^^xsd:integer)))
                                                           ^
END
document zoo.ofn <<'END'
Prefix(:=<http://e/>)
Ontology(
  Declaration(Class(:A)) Declaration(ObjectProperty(:p)) Declaration(DataProperty(:d)) Declaration(DataProperty(:f))
  Declaration(Annotation(rdfs:label "x") Class(:A)))
END
says 'an annotated declaration' 4 translate --to omn zoo.ofn <<'END'
target: AnnotatedDeclaration: Declaration(Annotation(<http://www.w3.org/2000/01/rdf-schema#label> "x") Class(<http://e/A>))
owl: zoo.ofn:4:3: a frame says no annotation of a declaration: annotate the name itself; --to ttl and --to fss can
      Declaration(Annotation(rdfs:label "x") Class(:A)))
      ^
END
document zoo.ofn <<'END'
Prefix(:=<http://e/>)
Ontology(
  Declaration(Class(:A)) Declaration(ObjectProperty(:p)) Declaration(DataProperty(:d)) Declaration(DataProperty(:f))
  AnnotationAssertion(rdfs:label :nobody "x"))
END
says 'an annotation of a name without a kind' 4 translate --to omn zoo.ofn <<'END'
target: UndeclaredSubject <http://e/nobody>: AnnotationAssertion(<http://www.w3.org/2000/01/rdf-schema#label> <http://e/nobody> "x")
owl: zoo.ofn:4:34: a frame is of a name with a kind, and :nobody has none: declare it, as by "Declaration(NamedIndividual(:nobody))"; --to ttl and --to fss can
      AnnotationAssertion(rdfs:label :nobody "x"))
                                     ^
END
}

# --- Limits.
of_limits() {
{ printf 'Ontology(SubClassOf('; printf 'ObjectComplementOf(%.0s' $(seq 128); printf '<http://e/A>'; printf ')%.0s' $(seq 128); printf ' <http://e/B>))'; } >zoo.ofn
says '129 levels' 5 show zoo.ofn <<'END'
limit: Depth: zoo.ofn
owl: zoo.ofn: an expression has at most 128 levels: give a name to a part of it, by an axiom of its own
END
document zoo.ttl <<'END'
@prefix : <http://e/> .
@prefix owl: <http://www.w3.org/2002/07/owl#> .
@prefix rdfs: <http://www.w3.org/2000/01/rdf-schema#> .
:o a owl:Ontology . :p a owl:ObjectProperty . :A a owl:Class ; rdfs:subClassOf
  [ a owl:Restriction ; owl:onProperty :p ; owl:minCardinality "00018446744073709551615"^^<http://www.w3.org/2001/XMLSchema#nonNegativeInteger> ] ,
  [ a owl:Restriction ; owl:onProperty :p ; owl:minCardinality "18446744073709551616"^^<http://www.w3.org/2001/XMLSchema#nonNegativeInteger> ] .
END
says 'a cardinality of 2^64 behind one that is not too large' 5 show zoo.ttl <<'END'
limit: Cardinality: zoo.ttl
owl: zoo.ttl:6:65: a cardinality is at most 18446744073709551615
    ...wl:Restriction ; owl:onProperty :p ; owl:minCardinality "18446744073709551616"^^<http://www.w3.org/2001/XMLSchema#...
                                                                ^
END
document zoo.ofn <<'END'
Prefix(:=<http://e/>)
Ontology(SubClassOf(:A ObjectMinCardinality(18446744073709551616 :p)))
END
says 'a cardinality of 2^64' 5 show zoo.ofn <<'END'
limit: Cardinality: zoo.ofn
owl: zoo.ofn:2:45: a cardinality is at most 18446744073709551615
    Ontology(SubClassOf(:A ObjectMinCardinality(18446744073709551616 :p)))
                                                ^
END
truncate -s $((2 ** 27 + 1)) big.ofn
says 'a document of more than 128 MiB' 5 show big.ofn <<'END'
limit: DocumentBytes: big.ofn
owl: big.ofn: a document has at most 134217728 bytes (128 MiB), and this has 134217729: split it, and import the parts
END
rm big.ofn
}

# --- Files that can't be read.
of_files() {
document farm.ofn <<'END'
Ontology(<http://e/farm>)
END
document zoo.ofn <<'END'
Ontology()
END
says 'no file' 6 show none.ofn <<'END'
read: none.ofn
owl: none.ofn: there is no such file
END
says 'no file, with another suffix' 6 show farm.ttl <<'END'
read: farm.ttl
owl: farm.ttl: there is no such file, but there is farm.ofn
END
says 'no folder' 6 show none/zoo.ofn <<'END'
read: none/zoo.ofn
owl: none/zoo.ofn: there is no such file, and no folder none
END
mkdir folder.ofn
says 'a folder' 6 show folder.ofn <<'END'
read: folder.ofn
owl: folder.ofn: this is a folder: name the documents in it
END
ln -s nowhere link.ofn
says 'a link to nothing' 6 show link.ofn <<'END'
read: link.ofn
owl: link.ofn: this link leads to a file that is not there
END
printf 'Ontology()' >secret.ofn && chmod 000 secret.ofn
says 'an unreadable file' 6 show secret.ofn <<'END'
read: secret.ofn
owl: secret.ofn: this file may not be read by you: chmod u+r lets its owner read it
END
}

# --- Answers.
of_answers() {
document zoo.ofn <<'END'
Prefix(:=<http://e/>)
Ontology(<http://e/zoo> Declaration(ObjectProperty(:p)) TransitiveObjectProperty(:p) AsymmetricObjectProperty(:p)
  SubClassOf(:A :B))
END
document farm.ofn <<'END'
Ontology(<http://e/farm>)
END
says 'a check that finds rules broken' 1 check --profile dl zoo.ofn <<'END'
profile dl: no; breaches 2
owl: what breaks which rule stands on the output; docs/RULES.md#dl-1, docs/RULES.md#dl-9
END
says 'a check of EL' 1 check --profile el zoo.ofn <<'END'
profile el: no; breaches 3
owl: what breaks which rule stands on the output; docs/RULES.md#dl-1, docs/RULES.md#dl-9, docs/RULES.md#el-1
END
says 'two documents differ' 1 same zoo.ofn farm.ofn <<'END'
different
owl: what differs is shown by: diff <(owl translate --to fss zoo.ofn) <(owl translate --to fss farm.ofn)
END
document 'two words.ofn' <<'END'
Ontology()
END
says 'two documents differ, and one has a space in its name' 1 same 'two words.ofn' farm.ofn <<'END'
different
owl: what differs is shown by: diff <(owl translate --to fss two\ words.ofn) <(owl translate --to fss farm.ofn)
END
says 'a check that finds nothing' 0 check --profile dl farm.ofn <<'END'
profile dl: yes
END
says 'a success has one line' 0 show farm.ofn <<'END'
shown
END
}

# --- Canonical bytes.
of_bytes() {
document zoo.ofn <<'END'
Prefix(:=<http://e/>)
Ontology(<http://e/zoo> Import(<http://e/farm>)
  SubClassOf(:A :B))
END
document farm.ofn <<'END'
Ontology(<http://e/farm>)
END
says 'bytes of an ontology' 0 canon farm.ofn <<'END'
canonical
END
cp "$seen/output" farm.owc
says 'a digest' 0 digest farm.ofn <<'END'
digested
END
holds 'which is that of the bytes' test "$(<"$seen/output")" = "$(sha256sum farm.owc | cut -d ' ' -f 1)"
says 'a digest of bytes' 0 digest farm.owc <<'END'
digested
END
holds 'which is the same' test "$(<"$seen/output")" = "$(sha256sum farm.owc | cut -d ' ' -f 1)"
says 'bytes where an import is missing' 3 canon zoo.ofn <<'END'
zoo.ofn: MissingImport <http://e/farm>
owl: zoo.ofn:2:32: no document that is named has the IRI of this import: name it behind the others, or put --partial in front of the names to do without
    Ontology(<http://e/zoo> Import(<http://e/farm>)
                                   ^
END
says 'bytes where an import may be missing' 0 canon --partial zoo.ofn <<'END'
canonical
END
cp "$seen/output" zoo.owc
says 'an import of bytes is missing' 3 show zoo.owc <<'END'
zoo.owc: MissingImport <http://e/farm>
owl: zoo.owc: no document that is named has the IRI of this import: name it behind the others, or put --partial in front of the names to do without
END
says 'bytes of what is not declared' 4 translate --to fss zoo.owc farm.owc <<'END'
typing: Undeclared Class <http://e/A>: SubClassOf(<http://e/A> <http://e/B>)
owl: zoo.owc: <http://e/A> stands in it as a class and is declared nowhere: "declare" in place of "translate" adds what is missing; or name a document that it imports and that declares it
END
says 'declarations are added to bytes' 0 declare --to fss zoo.owc farm.ofn <<'END'
declared; added 2; axioms 3; absorbed 0
END
document kinds.ofn <<'END'
Ontology(Declaration(ObjectProperty(<http://e/p>)) Declaration(DataProperty(<http://e/p>)))
END
owl canon kinds.ofn >kinds.owc 2>/dev/null
says 'bytes with a name of two kinds' 4 translate --to fss kinds.owc <<'END'
typing: TwoKinds <http://e/p>
owl: kinds.owc: <http://e/p> is declared as two kinds that no IRI may have together, as class and datatype, or as two kinds of properties: take two IRIs
END
says 'bytes and a text are the same' 0 same farm.owc farm.ofn <<'END'
same
END
says 'bytes and a text differ' 1 same zoo.owc farm.ofn <<'END'
different
owl: what differs is shown by: diff <(owl translate --to fss zoo.owc) <(owl translate --to fss farm.ofn)
END
says 'a check of bytes' 1 check --profile el zoo.owc farm.owc <<'END'
profile el: no; breaches 1
owl: what breaks which rule stands on the output; docs/RULES.md#dl-1
END
head -c 20 zoo.owc >cut.owc
says 'bytes that are cut' 3 show cut.owc <<'END'
cut.owc: NotCanon
owl: cut.owc: these are not the bytes that "owl canon" writes of any ontology: some are missing, too many or changed; write them anew
END
{ cat farm.owc && echo; } >more.owc
says 'bytes with one more' 3 same farm.owc more.owc <<'END'
more.owc: NotCanon
owl: more.owc: these are not the bytes that "owl canon" writes of any ontology: some are missing, too many or changed; write them anew
END
: >empty.owc
says 'no bytes' 3 digest empty.owc <<'END'
empty.owc: NotCanon
owl: empty.owc: the document is empty
END
cp farm.ofn text.owc
says 'a text with the suffix of bytes' 3 show text.owc <<'END'
text.owc: NotCanon
owl: text.owc: this looks like Functional-Style Syntax: its name has to end in .ofn
END
printf 'OWL\0C1\n' >others.owc
says 'other bytes' 3 show others.owc <<'END'
others.owc: NotCanon
owl: others.owc: canonical bytes begin with a line "OWL2C1", and these do not: "owl canon" writes such bytes
END
cp farm.owc bytes.ofn
says 'bytes with the suffix of a text' 3 show bytes.ofn <<'END'
bytes.ofn: item at 0: NotHere at 0
owl: bytes.ofn:1:1: this has the canonical bytes of an ontology: its name has to end in .owc
    OWL2C1
    ^
END
cp farm.owc farm.bin
says 'bytes with another suffix' 2 show farm.bin <<'END'
words
owl: "farm.bin" ends in none of .ofn, .ttl, .omn and .owc; it has the canonical bytes of an ontology: its name has to end in .owc
END
says 'no file of bytes' 6 digest none.owc <<'END'
read: none.owc
owl: none.owc: there is no such file
END
says 'no file, and bytes beside it' 6 show others.ttl <<'END'
read: others.ttl
owl: others.ttl: there is no such file, but there is others.owc
END
}

parts of_words of_functional_style of_suffixes of_turtle of_graphs of_frames of_imports of_targets of_limits of_files of_answers of_bytes

# --- What the program writes goes through.
echo 'Ontology(<http://e/farm>)' >farm.ofn
# One byte that is 0 in the line, and a line that is longer than what is kept.
printf 'Ontology(Declaration(Class(<http://e/A>)) Declaration(DataProperty(<http://e/p>))\nSubClassOf(DataHasValue(<http://e/p> "x\0y\n") <http://e/A>))\n' >zero.ofn
printf 'Ontology(Declaration(Class(<http://e/A>)) Declaration(DataProperty(<http://e/p>))\nSubClassOf(DataHasValue(<http://e/p> "%050000d") <http://e/A>))\n' 7 >long.ofn
printf 'Ontology(Declaration(Class(<http://e/A>)) Declaration(DataProperty(<http://e/p>))\nSubClassOf(DataHasValue(<http://e/p> "%03981d\0%050000d") <http://e/A>))\n' 7 7 >both.ofn
for name in zero long both; do
    "$program" translate --to omn "$name.ofn" >/dev/null 2>"$seen/wanted"
    OWL_QUIET=1 owl translate --to omn "$name.ofn" 2>"$seen/note"
    holds "the line of $name.ofn, without more" cmp "$seen/wanted" "$seen/note"
    owl translate --to omn "$name.ofn" 2>"$seen/note"
    holds "the line of $name.ofn, and one for people" cmp <(
        cat "$seen/wanted"
        echo 'owl: '"$name"'.ofn: a frame is of a name: give the class a name by an EquivalentClasses axiom, and say this of the name; --to ttl and --to fss can'
    ) "$seen/note"
done
cp "$top/examples/instruments.ofn" . && "$program" translate --to ttl instruments.ofn >"$seen/wanted" 2>"$seen/wanted.note"
owl translate --to ttl instruments.ofn >"$seen/output" 2>"$seen/note"
holds 'the text of a translation' cmp "$seen/wanted" "$seen/output"
holds 'and its line' cmp "$seen/wanted.note" "$seen/note"

# gives WHAT STATUS WANTED COMMAND: a command line for the shell, with other streams.
gives() {
    local what=$1 wanted=$2 text=$3 ended wrong=
    bash -c "$4" </dev/null 2>&1 | cat >"$seen/output"
    ended=${PIPESTATUS[0]}
    ((ended == wanted)) || wrong="status $ended and not $wanted; "
    [[ $(<"$seen/output") == "$text" ]] || wrong+="it says: $(<"$seen/output")"
    judge "$what" "$wrong"
}
gives '--quiet is the first word' 6 'read: none.ofn' 'owl --quiet show none.ofn'
gives 'OWL_QUIET is set' 6 'read: none.ofn' 'OWL_QUIET=1 owl show none.ofn'
gives 'OWL_QUIET is 0' 6 $'read: none.ofn\nowl: none.ofn: there is no such file' 'OWL_QUIET=0 owl show none.ofn'
gives '--quiet alone' 2 'words' 'owl --quiet'
gives '--quiet of a success' 0 $'same\nsame' 'owl --quiet same farm.ofn ./farm.ofn'
gives 'a full device' 7 $'write\nowl: the output cannot be written whole: the device may be full' 'owl show farm.ofn >/dev/full'
gives 'a closed output' 7 $'write\nowl: the standard output is closed' 'owl show farm.ofn >&-'
gives 'an output that nobody reads' 7 $'write\nowl: whoever reads the output ended before it was whole' '{ sleep 0.2; owl show farm.ofn; } | true; exit ${PIPESTATUS[0]}'
gives 'a file that may not be so long' 7 $'write\nowl: the output cannot be written whole: df tells whether the disk is full, and ulimit -f how long a file may be' \
    'trap "" XFSZ; ulimit -f 0; owl show farm.ofn >../seen/short'
gives 'a closed note' 3 '' 'owl show zero.omn 2>&- || owl show rdf.ttl 2>&-; printf "Ontology(" >bad.ofn; owl show bad.ofn 2>&-'
gives 'a full note' 3 '' 'owl show bad.ofn 2>/dev/full'
gives 'a closed input' 3 "bad.ofn: item at 9: NotHere at 9
owl: bad.ofn:1:10: the document ends behind this, and 1 bracket is open
    Ontology(
             ^" 'owl show bad.ofn <&-'
mkfifo pipe.ofn
gives 'a pipe, which is not read twice' 3 "pipe.ofn: item at 9: NotHere at 9
owl: pipe.ofn: this is no file that can be looked at again; docs/REFUSALS.md has an entry for NotHere" \
    'printf "Ontology(" >pipe.ofn & owl show pipe.ofn; ended=$?; wait; exit $ended'
mkfifo pipe.ttl
# piped WHAT GRAPH LINE PEOPLE: a graph from a pipe.
piped() {
    GRAPH=$2 gives "$1" 3 "pipe.ttl: $3
owl: pipe.ttl: $4" 'printf "@prefix : <http://e/> . @prefix owl: <http://www.w3.org/2002/07/owl#> . $GRAPH" >pipe.ttl & timeout 10 owl show pipe.ttl; ended=$?; wait; exit $ended'
}
piped 'a pipe without a header' '' NoHeader 'no node of the graph is an ontology: add "<IRI> a owl:Ontology ."'
piped 'a pipe with an undeclared property' ':o a owl:Ontology . :a :p :b .' 'Untyped <http://e/a> <http://e/p> <http://e/b>' \
    '<http://e/p> is not declared here: say what it is, as by "<http://e/p> a owl:ObjectProperty ." (or owl:DatatypeProperty, or owl:AnnotationProperty); or put --guess in front of the names to take such properties as annotation properties'
piped 'a pipe with a bad node' ':o a owl:Ontology . :a a [ a owl:Restriction ] .' 'BadNode _:gen1' \
    'the triples of this node are those of no class expression, data range, axiom or annotation: one is missing, too many or a bad list or number'
piped 'a pipe with a missing import' ':o a owl:Ontology ; owl:imports :i .' 'MissingImport <http://e/i>' \
    'no document that is named has the IRI of this import: name it behind the others, or put --partial in front of the names to do without'
gives 'a check of a pipe' 1 "no
DL-1 1 SubClassOf(<http://e/A> <http://e/B>)
profile dl: no; breaches 1
owl: what breaks which rule stands on the output; docs/RULES.md says what each rule asks, and how to mend it" \
    'printf "Ontology(Declaration(Class(<http://e/A>)) SubClassOf(<http://e/A> <http://e/B>))" >pipe.ofn & timeout 10 owl check --profile dl pipe.ofn; ended=$?; wait; exit $ended'
cat >"$room/killed" <<'END'
#!/usr/bin/env bash
kill -SEGV $$
END
chmod 755 "$room/killed"
cp "$clone/bin/owl" "$room/kept" && cp "$room/killed" "$clone/bin/owl"
gives 'a program that a signal ended' 139 'owl: the program was ended by signal 11' 'owl show farm.ofn'
cp "$room/kept" "$clone/bin/owl"

# --- Lines for which documents would be large, from a program that says them.
cat >"$room/stub.sh" <<'END'
#!/bin/sh
printf '%s\n' "$NOTE" >&2
exit "$STATUS"
END
chmod 755 "$room/stub.sh"
small_clone "$top" "$room/stub.sh" "$room/stub"
# told STATUS LINE WANTED: what is said behind the program's line.
told() {
    local printed
    printed=$(NOTE=$2 STATUS=$1 "$room/stub/owl" translate --to ttl farm.ofn 2>&1)
    holds "what is said of $2, and not $printed" test "$?:$printed" = "$1:$2"$'\n'"owl: $3"
}
told 5 'limit: AllBytes: farm.ofn' 'farm.ofn: all documents together have at most 268435456 bytes (256 MiB), and this one passes that: name fewer'
told 5 'limit: Weight: farm.ofn' 'farm.ofn: a document says at most 16777216 names, literals and expressions: split it, and import the parts'
told 5 'limit: Weight: output' 'what would be written has more than 16777216 names, literals and expressions: split the ontology'
told 5 'limit: Triples: farm.ofn' 'farm.ofn: a graph has at most 16777216 triples: split it, and import the parts'
told 5 'limit: Triples: output' 'what would be written has more than 16777216 triples: split the ontology, or take --to fss'
told 5 'limit: OutputBytes: output' 'what would be written has more than 134217728 bytes (128 MiB): split the ontology, or declare shorter prefixes'
told 8 'memory' 'memory ran out: the program wants up to some 25 times the size of the documents; end other programs, or raise ulimit -v'
# Words that may come: the page is named.
told 5 'limit: Other: farm.ofn' 'farm.ofn: docs/REFUSALS.md has an entry for Other'
told 3 'farm.ofn: Other _:x' 'farm.ofn: docs/REFUSALS.md has an entry for Other'
told 4 'target: Other: header' 'farm.ofn: docs/REFUSALS.md has an entry for Other'

# --- From where it is called.
gives 'by its path' 0 $'same\nsame' '"../the clone ξ/owl" same farm.ofn ./farm.ofn'
gives 'by bash' 0 $'same\nsame' 'cd "../the clone ξ" && bash owl same ../work/farm.ofn ../work/./farm.ofn'
gives 'by a link to a link' 0 $'same\nsame' 'ln -s ../bin/owl ../seen/it && ../seen/it same farm.ofn ./farm.ofn'

# --- When the checksum is made.
kept=$clone/out/sources.sum
holds 'the checksum is kept' cmp "$clone/bin/owl.sum" "$kept"
at=$(stat -c %Y.%Z "$kept")
gives 'one more call' 0 $'same\nsame' 'owl same farm.ofn ./farm.ofn'
holds 'it is not made again' test "$(stat -c %Y.%Z "$kept")" = "$at"
sleep 0.02
touch -d '2000-01-01' "$clone/crates/one/src/lib.rt"
gives 'a source with another time' 0 $'same\nsame' 'owl same farm.ofn ./farm.ofn'
holds 'it is made again' test "$(stat -c %Y.%Z "$kept")" != "$at"
echo '// another' >>"$clone/crates/one/src/lib.rt"
touch -d '2000-01-01' "$clone/crates/one/src/lib.rt"
gives 'another source' 70 'owl: the sources are not those of bin/owl, and rt, the command of the toolchain, is not on the PATH' 'owl same farm.ofn ./farm.ofn'
sum_up "$clone"
gives 'another source that the program was made from' 0 $'same\nsame' 'owl same farm.ofn ./farm.ofn'
echo '// new' >"$clone/crates/one/src/new.rt"
gives 'a new source' 70 'owl: the sources are not those of bin/owl, and rt, the command of the toolchain, is not on the PATH' 'owl same farm.ofn ./farm.ofn'
rm "$clone/crates/one/src/new.rt"
gives 'it is gone' 0 $'same\nsame' 'owl same farm.ofn ./farm.ofn'
rm -r "$clone/out" && touch "$clone/out"
gives 'where nothing can be kept' 0 $'same\nsame' 'owl same farm.ofn ./farm.ofn'
rm "$clone/out"

# --- Installing.
home="$room/my home"
tree() {
    (cd "$home" && find . -type l -printf '%p %l\n' | LC_ALL=C sort)
}
# installs WHAT STATUS LINES: how many lines are told of links.
installs() {
    local what=$1 wanted=$2 lines=$3 ended wrong=
    HOME=$home SHELL=/bin/bash owl --install >"$seen/output" 2>&1
    ended=$?
    ((ended == wanted)) || wrong="status $ended and not $wanted; "
    [[ $(grep -c "^owl: $home/.local/" "$seen/output") == "$lines" ]] || wrong+="it says: $(<"$seen/output")"
    judge "$what" "$wrong"
}
mkdir "$home"
installs 'links are made' 0 5
links=$(tree)
holds 'four of them' test "$(wc -l <<<"$links")" = 4
installs 'they were there' 0 5
holds 'and are the same' test "$(tree)" = "$links"
holds 'the link works' test "$("$home/.local/bin/owl" same farm.ofn ./farm.ofn 2>/dev/null)" = same
holds 'where the folder is on the PATH no more is said' test "$(PATH="$home/.local/bin:$PATH" HOME=$home owl --install | wc -l)" = 4
rm "$home/.local/bin/owl" && echo mine >"$home/.local/bin/owl"
installs 'what is something else is kept' 1 5
holds 'as it was' test "$(<"$home/.local/bin/owl")" = mine
holds 'into a folder that is named' test "$(owl --install "$home/other" | grep -c ' leads to ')" = 4
holds 'all links lead to files' test -z "$(find "$home" -xtype l)"

# --- The hooks of pre-commit, each with a document that passes and one that doesn't.
printf 'Prefix(:=<http://e/>)\nOntology(Declaration(ObjectProperty(:p)) ReflexiveObjectProperty(:p) SymmetricObjectProperty(:p) FunctionalObjectProperty(:p)\nSubClassOf(:A :B))' >'no profile.ofn'
# The status, and how many times a name is told: one that is wrong, and one that is
# in no profile.
expected() {
    case $1:$2 in
    bad.ofn:*) echo 3:1 ;;
    *show*) echo 0:0 ;;
    *) echo 1:1 ;;
    esac
}
hooks=0
while read -r entry; do
    hooks=$((hooks + 1))
    read -r -a words <<<"$entry"
    holds "the hook $entry passes a document" "$clone/${words[0]}" "${words[@]:1}" farm.ofn
    for name in bad.ofn 'no profile.ofn'; do
        "$clone/${words[0]}" "${words[@]:1}" farm.ofn "$name" ./farm.ofn 2>"$seen/note"
        holds "the hook $entry and $name" test "$?:$(grep -c "^$name: " "$seen/note")" = "$(expected "$name" "$entry")"
    done
done < <(sed -n 's/^  entry: //p' "$clone/.pre-commit-hooks.yaml")
holds 'there are hooks' test "$hooks" = 5

# --- Completions and the page.
# completes WORDS WANTED..: what bash completes the last of these words to.
completes() {
    local line=$1 wanted found
    shift
    wanted=$(printf '%s\n' "$@" | LC_ALL=C sort)
    found=$(bash -c 'source "$1" && read -r -a COMP_WORDS <<<"$2" && [[ $2 != *" " ]] || COMP_WORDS+=("")
        COMP_CWORD=$((${#COMP_WORDS[@]} - 1)) && _owl && printf "%s\n" "${COMPREPLY[@]}"' x "$top/completions/owl.bash" "$line" | LC_ALL=C sort)
    holds "completions of $line" test "$found" = "$wanted"
}
mkdir zoos && cd zoos && touch a.ofn b.ttl c.omn d.txt e.owc && mkdir inner
completes 'owl ' translate declare check show same canon digest trial --help --version --install --build --quiet
completes 'owl t' translate trial
completes 'owl translate ' --to
completes 'owl translate --to ' fss ttl omn
completes 'owl d' declare digest
completes 'owl c' check canon
completes 'owl canon ' a.ofn b.ttl c.omn e.owc inner
completes 'owl canon --' --partial --guess --base
completes 'owl digest --partial --' --guess --base
completes 'owl digest --base e : ?a = ' ''
completes 'owl declare ' --to
completes 'owl declare --to ' fss ttl omn
completes 'owl declare --to ttl --partial --' --guess --base
completes 'owl declare --to ttl --' --nest --partial --guess --base
completes 'owl translate --to ttl --nest --' --partial --guess --base
completes 'owl translate --to fss --' --partial --guess --base
completes 'owl --quiet translate --to ttl --n' --nest
completes 'owl translate --to ttl --nest --partial ' a.ofn b.ttl c.omn e.owc inner
completes 'owl declare --to omn ' a.ofn b.ttl c.omn e.owc inner
completes 'owl check --profile ' dl el ql rl
completes 'owl check --profile dl ' a.ofn b.ttl c.omn e.owc inner
completes 'owl check --profile dl --' --partial --guess --base
completes 'owl show --' --partial --guess --base
completes 'owl show --partial --' --guess --base
completes 'owl translate --to ttl --partial --guess -' --base
completes 'owl translate --to ttl --guess --partial ' a.ofn b.ttl c.omn e.owc inner
completes 'owl --quiet show --guess --' --base
completes 'owl show --base ' ''
completes 'owl show --base h' ''
completes 'owl show --base http : //e/ ' a.ofn b.ttl c.omn e.owc inner
completes 'owl show --base http : //e/' ''
completes 'owl show --base e : ?a = ' ''
completes 'owl show --base http : //e/?a = b a.ofn ' b.ttl c.omn e.owc inner
completes 'owl show --base http : //e/ --' ''
completes 'owl show a.ofn --' ''
completes 'owl show a.ofn ' b.ttl c.omn e.owc inner
completes 'owl --quiet sh' show
completes 'owl trial ' ''
completes 'owl --build ' --keep
completes 'owl --install ' inner
cd ..
if command -v zsh >/dev/null; then
    holds 'the completions for zsh' zsh -n "$top/completions/_owl"
fi
if command -v man >/dev/null; then
    holds 'man finds the page that is installed' test -n "$(MANPATH="$home/.local/share/man" man -w owl)"
    holds 'the page has no fault' test -z "$(man --warnings -E UTF-8 -l "$top/man/owl.1" 2>&1 >/dev/null)"
fi
# Each word that a line of the program has, from the page of the refusals.
while read -r word; do
    holds "the manual names $word" grep -q -w -- "$word" "$top/man/owl.1"
done < <(sed -n 's/^### `\([A-Za-z]*\)`.*/\1/p' "$top/docs/REFUSALS.md")
for status in 0 1 2 3 4 5 6 7 8 70; do
    holds "the manual names the status $status" grep -q -x -F ".B $status" "$top/man/owl.1"
done
if command -v shellcheck >/dev/null; then
    wait "$clean"
    holds "the script is clean: $(head -n 5 "$seen/clean")" test "$?" = 0
fi

echo "$passed passed, $failed failed"
((failed == 0))
