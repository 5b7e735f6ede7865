# Completions of `owl` for bash, which the package bash-completion loads.
# shellcheck shell=bash

_owl() {
    local word=${COMP_WORDS[COMP_CWORD]} first=1 at choices=
    COMPREPLY=()
    [[ ${COMP_WORDS[1]-} != --quiet ]] || first=2
    at=$((COMP_CWORD - first))
    case $at:${COMP_WORDS[first]-} in
    -*) ;;
    0:*)
        choices='translate declare check show same canon digest trial --help --version --install --build'
        ((first == 2)) || choices+=' --quiet'
        ;;
    1:translate | 1:declare) choices=--to ;;
    1:check) choices=--profile ;;
    2:translate | 2:declare) choices='fss ttl omn' ;;
    2:check) choices='dl el ql rl' ;;
    *:trial) ;;
    1:--install)
        mapfile -t COMPREPLY < <(compgen -d -- "$word")
        compopt -o filenames 2>/dev/null
        ;;
    1:--build) choices=--keep ;;
    1:--*) ;;
    *:show | *:canon | *:digest) _owl_rest "$word" $((first + 1)) ;;
    *:translate | *:declare)
        if [[ ${COMP_WORDS[first + 2]} == ttl ]]; then
            _owl_rest "$word" $((first + 3)) '--nest '
        else
            _owl_rest "$word" $((first + 3))
        fi
        ;;
    *:check) _owl_rest "$word" $((first + 3)) ;;
    *) _owl_names "$word" ;;
    esac
    [[ -z $choices ]] || mapfile -t -O "${#COMPREPLY[@]}" COMPREPLY < <(compgen -W "$choices" -- "$word")
}

# _owl_rest WORD AT [MORE]: what stands behind the target, the profile or a command without
# these, from AT on: options in their order, MORE of them in front, and names.
_owl_rest() {
    local word=$1 at
    choices="${3-}--partial --guess --base"
    for ((at = $2; at < COMP_CWORD; at++)); do
        case ${COMP_WORDS[at]} in
        --nest) choices='--partial --guess --base' ;;
        --partial) choices='--guess --base' ;;
        --guess) choices=--base ;;
        --base)
            choices=
            # The IRI is cut at each colon and equals sign, as bash does.
            for ((at++; at < COMP_CWORD; at += 2)); do [[ ${COMP_WORDS[at + 1]} == [:=]* ]] || break; done
            # What is begun is the IRI.
            ((at < COMP_CWORD)) || return
            ;;
        *) choices= ;;
        esac
    done
    _owl_names "$word"
    [[ $word == -* ]] || choices=
}

# The documents and folders whose names begin with a word, but for those that
# stand on the line.
_owl_names() {
    local name
    while IFS= read -r name; do
        if [[ -d $name || $name == *?.@(ofn|ttl|omn|owc) ]] && ! _owl_is_named "$name"; then COMPREPLY+=("$name"); fi
    done < <(compgen -f -- "$1")
    compopt -o filenames 2>/dev/null
}

_owl_is_named() {
    local word
    for word in "${COMP_WORDS[@]:1:COMP_CWORD-1}"; do [[ $word != "$1" ]] || return 0; done
    return 1
}

complete -F _owl owl ./owl
