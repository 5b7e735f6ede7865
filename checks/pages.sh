#!/usr/bin/env bash
# Runs the examples that stand in pages: checks/pages.sh [PROGRAM], bin/owl if
# left out. In a page a block that begins with ```LANGUAGE NAME is a document,
# and one that begins with ```console has command lines behind `$ ` (a line that
# ends in a backslash goes on) with all that each prints behind it. So has a block
# of lines that four spaces begin, if its first line has `$ `; `cat NAME` makes the
# document there, if there is none. Each heading begins a folder of its own. Each command line is run where the script `owl` of
# a clone in small is found, and what it prints is compared. The last line counts
# what passed.
set -uo pipefail

top=$(dirname -- "$(dirname -- "$(readlink -f -- "${BASH_SOURCE[0]}")")")
# shellcheck source-path=SCRIPTDIR/..
source "$top/checks/small_clone.sh"
program=$(readlink -f -- "${1:-$top/bin/owl}")
if [[ ! -x $program ]]; then
    echo "pages: there is no program ${1:-bin/owl}"
    echo "0 passed, 1 failed"
    exit 1
fi
room=$(mktemp -d) || exit
trap 'rm -rf -- "$room"' EXIT
small_clone "$top" "$program" "$room/clone" || exit
unset OWL_QUIET
# Git asks for these, and for nothing of the home that is there.
export GIT_AUTHOR_NAME=a GIT_AUTHOR_EMAIL=a@example.org GIT_COMMITTER_NAME=a GIT_COMMITTER_EMAIL=a@example.org
export GIT_CONFIG_NOSYSTEM=1 GIT_PAGER=cat SHELL=/bin/bash

passed=0
failed=0
judge() {
    local what=$1 wrong=$2
    if [[ -z $wrong ]]; then
        passed=$((passed + 1))
    else
        failed=$((failed + 1))
        echo "pages: $what: $wrong"
    fi
}

# Runs a command line of a page, and compares what it prints.
example() {
    local page=$1 number=$2 command=$3 wanted=$4 printed wrong=
    printed=$(cd "$folder" && HOME=$home PATH=$room/clone:/usr/bin:/bin bash -c "{ $command"$'\n'"} 2>&1" </dev/null
        printf .)
    printed=${printed%.}
    [[ $printed == "$wanted" ]] || wrong=$'it prints\n'"$printed"
    judge "$page:$number: $command" "$wrong"
}

# Runs the command line that was read last, if any.
finish() {
    [[ -n $command ]] || return
    ran=$((ran + 1))
    if [[ $command =~ ^cat\ ([^/ ]+)$ && ! -e $folder/${BASH_REMATCH[1]} ]]; then
        printf '%s' "$wanted" >"$folder/${BASH_REMATCH[1]}"
    else
        example "$short" "$at" "$command" "$wanted"
    fi
    command='' wanted=''
}

# Runs the examples of a page.
page() {
    local file=$1 short=${1#"$top/"} line number=0 in='' name='' command='' wanted='' at=0 count=0 ran=0
    folder=
    while IFS= read -r line; do
        number=$((number + 1))
        if [[ $in == indented && $line != '    '* ]]; then
            finish
            in=
        fi
        [[ $in != indented && ($in != '' || $line != '    $ '*) ]] || { in=indented && line=${line#'    '}; }
        case $in:$line in
        :'#'*)
            count=$((count + 1))
            folder=$room/${short//\//.}.$count
            home=$folder/home
            mkdir -p "$home"
            [[ ! -d $top/examples ]] || ln -sfn "$top/examples" "$folder/examples"
            ;;
        ':```console') in=console ;;
        ':```'[a-z]*' '*)
            in=document
            name=${line#* }
            mkdir -p "$(dirname -- "$folder/$name")" && : >"$folder/$name"
            ;;
        ':```'*) in=other ;;
        *':```')
            finish
            in=
            ;;
        document:*) printf '%s\n' "$line" >>"$folder/$name" ;;
        'console:$ '* | 'indented:$ '*)
            finish
            command=${line#'$ '} wanted='' at=$number
            ;;
        console:* | indented:*)
            if [[ $command == *\\ && -z $wanted ]]; then
                command+=$'\n'$line
            else
                wanted+=$line$'\n'
            fi
            ;;
        esac
    done <"$file"
    finish
    ((ran > 0)) || judge "$short" 'it has no examples'
}

# The pages beside each other.
pages=(docs/REFUSALS.md docs/RULES.md docs/CANONICAL.md README.md)
for each in "${!pages[@]}"; do
    {
        page "$top/${pages[each]}"
        echo "$passed $failed" >"$room/counts.$each"
    } >"$room/told.$each" &
done
wait
for each in "${!pages[@]}"; do
    cat "$room/told.$each"
    read -r -a counts <"$room/counts.$each"
    passed=$((passed + counts[0]))
    failed=$((failed + counts[1]))
done

# Each word that a line may have, by the definitions of these lines, has an entry.
while read -r word; do
    grep -q -x -F "### \`$word\`" "$top/docs/REFUSALS.md" || wrong='docs/REFUSALS.md has no entry'
    judge "$word" "${wrong-}"
    unset wrong
done < <(grep -h -o -E 'codes "(typing: )?[A-Z][A-Za-z0-9]+' "$top"/crates/owl_messages/specs/*.antt | sed 's/codes "//; s/typing: //' | sort -u)
# So has each rule that the README names.
while read -r rule; do
    grep -q -x -F "### $rule" "$top/docs/RULES.md" || wrong='docs/RULES.md has no entry'
    judge "$rule" "${wrong-}"
    unset wrong
done < <(sed -n 's/^| \([DEQR]L-[^|]*[0-9]\) |.*/\1/p' "$top/README.md" | tr -d ' ' | tr ',' '\n' | sort -u)

echo "$passed passed, $failed failed"
((failed == 0))
