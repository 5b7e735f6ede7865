#!/usr/bin/env bash
# Runs the program over documents that a hand would not write, and that it may take
# too long for, and prints a table of what each took: bench/hostile.sh [PROGRAM],
# bin/owl if left out. A run may take LIMIT seconds of processor time, 60 if it is
# not set, and MEMORY kilobytes of address space, 8000000 if it is not set. What
# documents have so many of is divided by PART; 1 if it is not set.
#
# tools/make_hostile.py says what the documents are.
set -uo pipefail

limit=${LIMIT:-60}
memory=${MEMORY:-8000000}
part=${PART:-1}
top=$(dirname -- "$(dirname -- "$(readlink -f -- "${BASH_SOURCE[0]}")")")
room=$(mktemp -d) || exit
trap 'rm -rf -- "$room"' EXIT

fail() {
    echo "hostile: $1" >&2
    exit 1
}

# Runs the program with these words, and tells its time, memory and status.
run() {
    (
        ulimit -c 0 -v "$memory"
        ulimit -S -t "$limit"
        cd "$room" && exec /usr/bin/time -q -f '%U %S %M' -o time "$program" "$@"
    ) </dev/null >/dev/null 2>"$room/note"
    status=$?
    # Signal 24 ends whom the limit ends.
    ((status != 128 + 24)) || status="not within $limit s"
}

# show SHAPE COUNT SUFFIX WORD..: a line for the document, with the words of the
# command in front of its name.
show() {
    local shape=$1 count=$2 name=m.$3 user system kilobytes
    shift 3
    "$top/tools/make_hostile.py" "$shape" "$count" >"$room/$name" || fail "no document of the shape $shape"
    run "$@" "$name"
    read -r user system kilobytes <"$room/time"
    awk -v shape="$shape" -v count="$count" -v bytes="$(stat -c %s "$room/$name")" -v words="$*" -v user="$user" \
        -v system_time="$system" -v kilobytes="$kilobytes" -v status="$status" -v note="$(head -c 60 "$room/note" | head -n 1)" 'BEGIN {
        printf "%-17s %9d %9.3f MB  %-18s %7.2f s %8.1f MB  %s  %s\n", shape, count, bytes / 1000000, words, user + system_time, kilobytes / 1000, status, note
    }'
    rm -f -- "$room/$name" "$room/time"
}

# So many bytes of one word, whose length is the second argument.
show_words() {
    local shape=$1 length=$2 bytes
    for bytes in 20000 40000 80000 1000000; do
        show "$shape" $((bytes / part / length)) ttl show
    done
}

show_counts() {
    local shape=$1 counts=$2 suffix=$3 count
    shift 3
    for count in $counts; do
        show "$shape" $((count / part)) "$suffix" "$@"
    done
}

# Unions that double; their number is not divided.
show_doublings() {
    local shape=$1 count
    for count in 20 21 22; do
        show "$shape" "$count" ttl translate --to ttl
    done
}

[[ -x /usr/bin/time ]] || fail "/usr/bin/time is not there"
program=$(readlink -f -- "${1:-$top/bin/owl}") && [[ -x $program ]] || fail "there is no program ${1:-bin/owl}"

printf '%-17s %9s %12s  %-18s %9s %11s  %s  %s\n' shape count size command time memory status line
show_words letters 1
show_words letters_and_dots 2
show_words words_and_dots 5
show_words words 6
show_counts name_and_dots 30000000 ttl translate --to fss
show_doublings doublings
show_doublings complements
show_counts tails '1000 2000 4000 8000' ttl translate --to fss
show_counts disjoint '10000 20000 40000' ttl translate --to fss
show_counts disjoint_unions '1000 2000 4000 8000' ttl translate --to fss
show_counts noted_disjoint '1000 2000 4000 8000' ttl translate --to fss
show_counts fronts '500 1000 2000' ofn translate --to fss
show_counts fronts '500 1000 2000' ofn translate --to ttl
show_counts bases '10000 20000 40000' ttl show
show_counts repeats 10000000 ttl translate --to fss
show_counts open_list 10000000 ttl show
