#!/usr/bin/env bash
# Counts the instructions of the program over documents that a hand would not write,
# each of a size and of twice the size, and tells where they grow faster than the
# document: checks/growth.sh [PROGRAM], bin/owl if left out. The last line counts
# what passed.
#
# Instructions are counted by valgrind, so it doesn't matter what else the machine
# does. Where valgrind isn't there nothing is counted. tools/make_hostile.py says
# what the documents are.
set -uo pipefail

# How many times as many instructions a document of twice the size may take, in
# tenths, without those that a document with two of what its shape is named for takes.
# So many more for each byte are nothing: they let pass what hardly grows at all.
most_growth=25
nothing=20
# The seconds of processor time, and the kilobytes of address space, for each count.
limit=60
memory=8000000

top=$(dirname -- "$(dirname -- "$(readlink -f -- "${BASH_SOURCE[0]}")")")
program=$(readlink -f -- "${1:-$top/bin/owl}") && [[ -x $program ]] || {
    echo "growth: there is no program ${1:-bin/owl}"
    echo "0 passed, 1 failed"
    exit 1
}
command -v valgrind >/dev/null || {
    echo "growth: valgrind is not there, so nothing was counted"
    echo "0 passed, 0 failed"
    exit 0
}
room=$(mktemp -d) || exit
trap 'rm -rf -- "$room"' EXIT

passed=0
failed=0

judge() {
    local what=$1 wrong=$2
    if [[ -z $wrong ]]; then
        passed=$((passed + 1))
    else
        failed=$((failed + 1))
        echo "growth: $what: $wrong"
    fi
}

# Runs the program with these words under valgrind. That the limit ended it is told
# by the status, and not by the shell.
instructions() {
    {
        (
            ulimit -c 0 -v "$memory"
            ulimit -S -t "$limit"
            cd "$room" && exec valgrind --tool=callgrind --callgrind-out-file=/dev/null --log-file=log "$program" "$@"
        ) </dev/null >/dev/null 2>"$room/note"
    } 2>/dev/null
}

# count SHAPE COUNT SUFFIX STATUS WORD..: makes the document, and sets `bytes` to its
# size and `counted` to the instructions that the program takes over it, or `wrong`
# to why there is no count.
count() {
    local shape=$1 number=$2 name=m.$3 wanted=$4 status
    shift 4
    counted='' wrong=''
    "$top/tools/make_hostile.py" "$shape" "$number" >"$room/$name" || {
        wrong="there is no document of $number"
        return
    }
    bytes=$(stat -c %s "$room/$name")
    instructions "$@" "$name"
    status=$?
    counted=$(sed -n 's/^==[0-9]*== Collected : \([0-9]*\)$/\1/p' "$room/log")
    if ((status == 128 + 24)); then
        wrong="$number of them are not read within $limit s"
    elif ((status != wanted)); then
        wrong="$number of them end with status $status and not $wanted: $(head -c 100 "$room/note")"
    elif [[ -z $counted ]]; then
        wrong="the instructions of $number of them were not counted: $(tail -n 1 "$room/log")"
    fi
}

# grows SHAPE SMALL LARGE SUFFIX STATUS WORD..: judges how the count grows from a
# document of the shape to one that is twice as large, with so many of what the shape
# is named for.
grows() {
    local shape=$1 small=$2 large=$3 suffix=$4 status=$5 what="$1, ${*:6}"
    local small_bytes=0 small_count=0 rest=0
    shift 5
    wrong=''
    count "$shape" 2 "$suffix" "$status" "$@"
    if [[ -z $wrong ]]; then
        rest=$counted
        count "$shape" "$small" "$suffix" "$status" "$@"
    fi
    if [[ -z $wrong ]]; then
        small_bytes=$bytes small_count=$((counted - rest))
        count "$shape" "$large" "$suffix" "$status" "$@"
    fi
    if [[ -z $wrong ]]; then
        compare "$small_bytes" "$bytes" "$small_count" $((counted - rest))
    fi
    judge "$what" "$wrong"
}

# Sets `wrong` where the second document isn't twice as large as the first one, or
# takes too much more.
compare() {
    local growth
    growth=$(awk -v bytes="$2" -v before="$1" 'BEGIN { printf "%d", 100 * bytes / before }')
    if ((growth < 190 || 210 < growth)); then
        wrong="the documents have $1 and $2 bytes, which is not twice as many"
    elif ((10 * ($4 - nothing * $2) > most_growth * $3)); then
        wrong="$1 bytes take $3 instructions, and $2 bytes $4, which is more than $((most_growth / 10)).$((most_growth % 10)) times as many"
    fi
}

grows letters 1000 2000 ttl 3 show
grows letters_and_dots 500 1000 ttl 3 show
grows words_and_dots 200 400 ttl 3 show
grows words 166 332 ttl 3 show
grows name_and_dots 5000 10000 ttl 3 translate --to fss
grows bases 5000 10000 ttl 0 show
grows disjoint 200 400 ttl 0 translate --to fss
grows fronts 200 290 ofn 0 translate --to fss
grows fronts 200 290 ofn 0 translate --to ttl
grows facets 1000 2000 omn 0 translate --to fss
grows parts 2000 4000 omn 0 translate --to fss
grows sections 2000 4000 omn 0 translate --to fss
grows frames 2000 4000 omn 0 translate --to fss
grows operands 2000 4000 omn 0 translate --to fss
grows links 2000 4000 omn 0 translate --to fss
grows prefixed_frames 200 400 omn 0 translate --to fss
grows subjects 1000 2000 ofn 0 translate --to omn
grows fronts 200 290 ofn 0 translate --to omn
grows disjoint 200 400 ttl 0 translate --to omn
grows parts 2000 4000 omn 0 translate --to omn
grows operands 2000 4000 omn 0 translate --to omn
grows links 2000 4000 omn 0 translate --to omn
grows prefixed_frames 200 400 omn 0 translate --to omn

echo "$passed passed, $failed failed"
((failed == 0))
