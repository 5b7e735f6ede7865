#!/usr/bin/env bash
# Times the translation of ontologies from and to Manchester Syntax, beside that of the same ontologies
# from and to Functional-Style Syntax: bench/manchester.sh [PROGRAM], bin/owl if left out. RUNS is how
# often each is translated, in turn, of which the best counts; 5 if it is not set. Both have to give
# the same text. Behind them stand documents that a hand would not write (tools/make_hostile.py), each
# within LIMIT seconds of processor time, 60 if it is not set, and MEMORY kilobytes of address
# space, 8000000 if it is not set; what they have so many of is divided by PART, 1 if it is not set.
set -uo pipefail

runs=${RUNS:-5}
limit=${LIMIT:-60}
memory=${MEMORY:-8000000}
part=${PART:-1}
top=$(dirname -- "$(dirname -- "$(readlink -f -- "${BASH_SOURCE[0]}")")")
room=$(mktemp -d) || exit
trap 'rm -rf -- "$room"' EXIT

fail() {
    echo "manchester: $1" >&2
    exit 1
}

# So many classes, each with a name above it, a restriction and a label, in both syntaxes.
write_documents() {
    awk -v count="$1" -v frames="$room/m.omn" -v axioms="$room/m.ofn" 'BEGIN {
        printf "Prefix: : <http://bench.example/>\nOntology: <http://bench.example/o>\nObjectProperty: p\n" > frames
        printf "Prefix(:=<http://bench.example/>)\nOntology(<http://bench.example/o>\nDeclaration(ObjectProperty(:p))\n" > axioms
        for (i = 0; i < count; i++) {
            above = int(i / 2)
            other = (i * 7919) % count
            printf "Class: C%06d\n    Annotations: rdfs:label \"class %d\"@en\n    SubClassOf: C%06d, p some C%06d\n", i, i, above, other > frames
            printf "Declaration(Class(:C%06d))\nAnnotationAssertion(rdfs:label :C%06d \"class %d\"@en)\n", i, i, i > axioms
            printf "SubClassOf(:C%06d :C%06d)\nSubClassOf(:C%06d ObjectSomeValuesFrom(:p :C%06d))\n", i, above, i, other > axioms
        }
        printf ")\n" > axioms
    }'
}

# Translates a document to a syntax once, and keeps the time where it is the best so far.
run() {
    local name=$1 target=$2 way="$1 $2" seconds kilobytes
    (cd "$room" && exec /usr/bin/time -f '%e %M' -o time "$program" translate --to "$target" "$name" >"$name.$target" 2>note) ||
        fail "$way: $(head -c 200 "$room/note")"
    read -r seconds kilobytes <"$room/time"
    if [[ -z ${best[$way]:-} ]] || awk "BEGIN { exit !($seconds < ${best[$way]}) }"; then
        best[$way]=$seconds
    fi
    memory_of[$way]=$kilobytes
}

show() {
    local way="$1 $2"
    awk -v way="$way" -v taken="$(stat -c %s "$room/$1")" -v given="$(stat -c %s "$room/$1.$2")" -v seconds="${best[$way]}" -v kilobytes="${memory_of[$way]}" 'BEGIN {
        printf "%-9s %8.1f MB to %8.1f MB %8.2f s %8.1f MB of memory\n", way, taken / 1000000, given / 1000000, seconds, kilobytes / 1000
    }'
}

# How many times as long one way takes as another one.
ratio() {
    awk -v what="$1" -v a="${best[$2]}" -v b="${best[$3]}" 'BEGIN { printf "%s: %.2f times\n", what, a / (b > 0 ? b : 0.01) }'
}

compare() {
    local count=$1 i
    best=() memory_of=()
    write_documents "$count"
    for ((i = 0; i < runs; i++)); do
        run m.omn fss
        run m.ofn fss
        run m.ofn omn
        run m.omn omn
    done
    cmp -s "$room/m.omn.fss" "$room/m.ofn.fss" || fail "the texts of $count classes differ"
    cmp -s "$room/m.omn.omn" "$room/m.ofn.omn" || fail "the texts of $count classes in Manchester Syntax differ"
    printf '%d classes\n' "$count"
    show m.omn fss
    show m.ofn fss
    show m.ofn omn
    show m.omn omn
    ratio 'from Manchester Syntax' 'm.omn fss' 'm.ofn fss'
    ratio 'to Manchester Syntax' 'm.ofn omn' 'm.ofn fss'
}

# hostile SHAPE COUNT WORD..: a line for a document of the shape.
hostile() {
    local shape=$1 count=$(($2 / part)) user system kilobytes status
    shift 2
    "$top/tools/make_hostile.py" "$shape" "$count" >"$room/h.omn" || fail "no document of the shape $shape"
    (
        ulimit -c 0 -v "$memory"
        ulimit -S -t "$limit"
        cd "$room" && exec /usr/bin/time -q -f '%U %S %M' -o time "$program" "$@" h.omn
    ) </dev/null >/dev/null 2>"$room/note"
    status=$?
    # Signal 24 ends whom the limit ends.
    ((status != 128 + 24)) || status="not within $limit s"
    read -r user system kilobytes <"$room/time"
    awk -v shape="$shape" -v count="$count" -v bytes="$(stat -c %s "$room/h.omn")" -v words="$*" -v user="$user" -v system_time="$system" \
        -v kilobytes="$kilobytes" -v status="$status" -v note="$(head -c 60 "$room/note" | head -n 1)" 'BEGIN {
        printf "%-20s %9d %8.1f MB  %-18s %7.2f s %8.1f MB  %s  %s\n", shape, count, bytes / 1000000, words, user + system_time, kilobytes / 1000, status, note
    }'
}

[[ -x /usr/bin/time ]] || fail "/usr/bin/time is not there"
program=$(readlink -f -- "${1:-$top/bin/owl}") && [[ -x $program ]] || fail "there is no program ${1:-bin/owl}"
declare -A best=() memory_of=()

compare 20000
compare 200000
hostile open_brackets 60000000 show
hostile complements_in_a_row 15000000 show
hostile commas 60000000 show
hostile facets 1000000 show
hostile parts 500000 translate --to fss
hostile sections 500000 translate --to fss
hostile frames 100000 translate --to fss
hostile operands 500000 translate --to fss
hostile prefixed_frames 100000 translate --to fss
hostile parts 500000 translate --to omn
hostile operands 500000 translate --to omn
hostile prefixed_frames 100000 translate --to omn
hostile links 16777209 translate --to omn
hostile links 16777209 show
hostile links 16777210 show
