# Says which word of a command was wrong, and what could stand there. The file
# explain.sh sources it.
# shellcheck shell=bash

actions=(translate declare check show same canon digest trial)

# Says what is wrong with the words of a command, from its names on.
explain_names() {
    local usage=$1 name other
    shift
    if (($# == 0)); then
        say 'the name of a document is missing: %s' "$usage"
        return
    fi
    for name; do
        explain_name "$name" "$usage" && return
    done
    if (($# > 64)); then
        say '%s documents are named, and at most 64 may be' "$#"
        return
    fi
    for name; do
        shift
        for other; do
            if [[ $name == "$other" ]]; then
                say '"%s" is named twice, and a document stands once' "$(clean "$name")"
                return
            fi
        done
    done
    say 'a word is wrong: %s' "$usage"
}

# Says what is wrong with the name of a document. Its status is 1 where nothing is.
explain_name() {
    local name=$1 usage=$2 looks suffix
    case $name in
    '') say 'a word is empty: the name of a document stands there' ;;
    --partial | --guess | --base) say '"%s" stands once, in front of the names and in this order: %s' "$name" "$usage" ;;
    --nest) say '"--nest" stands once, right behind "--to ttl": owl translate --to ttl --nest %s' "$options" ;;
    --base=*) say '"%s" has to be two words, in front of the names: --base %s' "$(clean "$name")" "$(clean "${name#*=}")" ;;
    --to | --profile | --to=* | --profile=*) say '"%s" stands right behind the command: %s' "$(clean "$name")" "$usage" ;;
    -o | --output | --output=*) say '"%s" is no word of owl: the text goes to the standard output, so write > FILE' "$(clean "$name")" ;;
    --quiet) say '"--quiet" is the first word: owl --quiet COMMAND ..' ;;
    --help | -h) say '"%s" stands alone: owl --help' "$name" ;;
    -) say '"-" is no name: the suffix of a name tells the syntax, so the standard input is no document; a pipe with a name is, as by mkfifo zoo.ttl' ;;
    -*) say '"%s" is no word of owl; a name that begins with - is written ./%s' "$(clean "$name")" "$(clean "$name")" ;;
    .ofn | .ttl | .omn | .owc | */.ofn | */.ttl | */.omn | */.owc)
        [[ $name == */* ]] && return 1
        say '"%s" is a suffix alone: a name has something in front of it' "$name"
        ;;
    ?*.ofn | ?*.ttl | ?*.omn | ?*.owc)
        is_utf8 "$name" && return 1
        say '"%s" is no UTF-8: rename the file, or lead a link to it' "$(printf '%s' "$name" | tr '\200-\377' '?')"
        ;;
    /dev/stdin | /dev/fd/* | /proc/*/fd/*) say '"%s" has no suffix that tells its syntax: give the pipe a name, as by mkfifo zoo.ttl' "$(clean "$name")" ;;
    *)
        suffix=${name##*/}
        if looks=$(sniff "$name"); then
            say '"%s" ends in none of .ofn, .ttl, .omn and .owc; it %s' "$(clean "$name")" "$looks"
        elif [[ $suffix == *.* && ${suffix##*.} =~ ^([oO][fF][nN]|[tT][tT][lL]|[oO][mM][nN]|[oO][wW][cC])$ ]]; then
            suffix=${suffix##*.}
            say '"%s" ends in capitals: a name ends in .%s' "$(clean "$name")" "${suffix,,}"
        else
            case $name in
            *.fss | *.owf) say '"%s" has no suffix that owl knows: Functional-Style Syntax ends in .ofn' "$(clean "$name")" ;;
            *.turtle | *.nt | *.n3) say '"%s" has no suffix that owl knows: Turtle ends in .ttl, and N-Triples is Turtle' "$(clean "$name")" ;;
            *.gz | *.zip | *.bz2 | *.xz) say '"%s" is compressed: unpack it first' "$(clean "$name")" ;;
            http://* | https://*) say '"%s" is an IRI, and owl fetches nothing: fetch it first, and name the file' "$(clean "$name")" ;;
            *) say '"%s" is no name of a document: one ends in .ofn, .ttl, .omn or .owc' "$(clean "$name")" ;;
            esac
        fi
        ;;
    esac
}

options='[--partial] [--guess] [--base IRI] MAIN {IMPORT}'

# Says what is wrong behind the target, the profile, or a command without these.
explain_rest() {
    local usage=$1
    shift
    [[ ${1-} != --partial ]] || shift
    [[ ${1-} != --guess ]] || shift
    if [[ ${1-} == --base ]]; then
        if (($# == 1)); then
            say 'an IRI is missing behind "--base", as http://example.org/zoo: %s' "$usage"
            return
        fi
        explain_base "$2" "$usage" && return
        shift 2
    fi
    explain_names "$usage" "$@"
}

# Says what is wrong with the IRI of a base. Its status is 1 where nothing is.
explain_base() {
    local iri=$1 usage=$2
    if [[ -z $iri ]]; then
        say 'the word behind "--base" is empty: an IRI stands there, as http://example.org/zoo'
    elif [[ $iri == '<'*'>' ]]; then
        say '"%s" stands without < and > behind "--base": %s' "$(clean "$iri")" "$(clean "${iri:1:-1}")"
    elif [[ $iri == -* || $iri != *:* && $iri == ?*.@(ofn|ttl|omn|owc) ]]; then
        say 'an IRI is missing behind "--base", where "%s" is: %s' "$(clean "$iri")" "$usage"
    elif [[ ! $iri =~ ^[A-Za-z][A-Za-z0-9+.-]*: ]]; then
        say '"%s" has no scheme, which the IRI behind "--base" begins with, as http://example.org/zoo' "$(clean "$iri")"
    elif ! is_utf8 "$iri"; then
        say '"%s" is no UTF-8' "$(printf '%s' "$iri" | tr '\200-\377' '?')"
    elif [[ $iri == *[$'\x01'-' '\<\>\"\{\}\|^\`\\]* ]]; then
        say '"%s" has a character that no IRI has: a space is written as %%20, and so are others' "$(clean "$iri")"
    else
        return 1
    fi
}

# explain_option COMMAND OPTION WANTED WORD..: says what is wrong from the second
# word of a command on, which has to be an option and one of the wanted words.
explain_option() {
    local command=$1 option=$2 kinds=$3 usage near
    shift 3
    usage="owl $command $option ${kinds// /|} $options"
    if [[ ${1-} == "$option="* ]]; then
        say '"%s" has to be two words: %s %s' "$(clean "$1")" "$option" "$(clean "${1#*=}")"
    elif [[ ${1-} != "$option" ]]; then
        if (($#)); then
            say '"%s" stands right behind "%s", where "%s" is: %s' "$option" "$command" "$(clean "$1")" "$usage"
        else
            say '"%s" is missing behind "%s": %s' "$option" "$command" "$usage"
        fi
    elif (($# == 1)); then
        say 'a word is missing behind "%s": one of %s' "$option" "${kinds// /, }"
    elif [[ " $kinds " != *" $2 "* ]]; then
        near=$(meant "$2")
        if [[ $option == --to && ${2,,} == @(owc|.owc|canon|digest) ]]; then
            say '"%s" is none of %s: what writes canonical bytes is "owl canon", and their digest "owl digest"' "$(clean "$2")" "${kinds// /, }"
        elif [[ " $kinds " == *" $near "* ]]; then
            say '"%s" is none of %s: is "%s" meant?' "$(clean "$2")" "${kinds// /, }" "$near"
        else
            say '"%s" is none of %s' "$(clean "$2")" "${kinds// /, }"
        fi
    elif [[ $2 == ttl && ${3-} == --nest ]]; then
        explain_rest "owl $command --to ttl --nest $options" "${@:4}"
    else
        explain_rest "$usage" "${@:3}"
    fi
}

# The word that stands for what somebody may have written in its place.
meant() {
    case ${1,,} in
    ofn | functional | functional-syntax | owf | .ofn) echo fss ;;
    turtle | n3 | nt | ntriples | n-triples | .ttl) echo ttl ;;
    manchester | mos | .omn) echo omn ;;
    fss | ttl | omn | dl | el | ql | rl) echo "${1,,}" ;;
    owl-dl | owl2dl | owl2-dl) echo dl ;;
    owl-el | owl2el | owl2-el) echo el ;;
    owl-ql | owl2ql | owl2-ql) echo ql ;;
    owl-rl | owl2rl | owl2-rl) echo rl ;;
    esac
}

explain_trial() {
    if (($# == 0)); then
        say 'a number is missing behind "trial": owl trial N, from 1 to 20000'
    elif (($# > 1)); then
        say '"%s" is one word too many: owl trial N' "$(clean "$2")"
    else
        say '"%s" is no size of a trial: a number from 1 to 20000, in digits and without a zero in front' "$(clean "$1")"
    fi
}

explain_same() {
    local usage='owl same FIRST SECOND' name
    if (($# == 0)); then
        say 'two names are missing: %s' "$usage"
        return
    fi
    for name; do
        case $name in
        --partial)
            say '"--partial" is no word of "same", which asks for no imports: %s' "$usage"
            return
            ;;
        --guess | --base | --base=*)
            say '"%s" is no word of "same", which takes documents as they are: %s' "$(clean "$name")" "$usage"
            return
            ;;
        esac
        explain_name "$name" "$usage" && return
    done
    if (($# == 1)); then
        say 'the second name is missing: %s' "$usage"
    elif (($# > 2)); then
        say '%s documents are named, and two are compared: %s' "$#" "$usage"
    else
        explain_names "$usage" "$@"
    fi
}

# Says what is wrong behind `canon` or `digest`.
explain_bytes() {
    local command=$1 usage="owl $1 $options" word
    shift
    for word; do
        case $word in
        --to | --to=* | --profile | --profile=* | --nest)
            say '"%s" is no word of "%s": %s' "$(clean "$word")" "$command" "$usage"
            return
            ;;
        esac
    done
    explain_rest "$usage" "$@"
}

explain_words() {
    local word=${1-} near
    case $word in
    translate | declare) explain_option "$word" --to 'fss ttl omn' "${@:2}" ;;
    check) explain_option check --profile 'dl el ql rl' "${@:2}" ;;
    show) explain_rest "owl show $options" "${@:2}" ;;
    same) explain_same "${@:2}" ;;
    canon | digest) explain_bytes "$@" ;;
    trial) explain_trial "${@:2}" ;;
    '')
        if (($#)); then
            say 'the first word is empty: a command stands there, as translate, declare, check, show, same, canon, digest or trial'
        else
            say 'a command is missing: translate, declare, check, show, same, canon, digest or trial; owl --help says more'
        fi
        ;;
    -h | -help | help | -\?) say '"%s" is no command: owl --help says what there is' "$(clean "$word")" ;;
    -v | -V | version) say '"%s" is no command: owl --version tells the version' "$(clean "$word")" ;;
    --help | --version) say '"%s" stands alone: owl %s' "$word" "$word" ;;
    --install) say '"--install" has at most one folder behind it: owl --install [FOLDER]' ;;
    --build) say '"--build" has nothing behind it but --keep: owl --build [--keep]' ;;
    --quiet) say '"--quiet" stands once' ;;
    --to | --to=* | --profile | --profile=* | --nest | --partial | --guess | --base | --base=*) say '"%s" stands behind a command: translate, declare, check, show, canon or digest is the first word' "$(clean "$word")" ;;
    *)
        near=$(nearest "$word" "${actions[@]}")
        case $word in
        convert | transform) near=translate ;;
        validate | validate-profile | profile) near=check ;;
        measure | count | info | stats) near=show ;;
        diff | compare | equal) near=same ;;
        canonical | canonicalize | normalize) near=canon ;;
        hash | sha256 | checksum | fingerprint) near=digest ;;
        test | selftest) near=trial ;;
        esac
        if [[ -n $near ]]; then
            say '"%s" is no command: is "%s" meant? owl --help says what there is' "$(clean "$word")" "$near"
        elif [[ $word == *.* ]]; then
            say 'a command is missing in front of "%s": translate, declare, check, show, same, canon or digest; owl --help says more' "$(clean "$word")"
        else
            say '"%s" is no command: one of translate, declare, check, show, same, canon, digest and trial; owl --help says more' "$(clean "$word")"
        fi
        ;;
    esac
}
