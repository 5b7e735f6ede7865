#!/usr/bin/env bash
# Times the translation of documents of several shapes and sizes, and tells the
# peak of memory: bench/run.sh [PROGRAM], bin/owl if left out. RUNS is how often
# each document is translated, of which the best counts; 3 if it is not set. A
# document that takes more than LIMIT seconds is told so; 120 if it is not set.
# SOURCES are the suffixes of the documents, and TARGETS the syntaxes that each is
# translated to; "ofn ttl" and "fss ttl" if they are not set. Both may have omn, in
# which an annotation of a name that isn't declared can't be said.
#
# The times are those of /usr/bin/time, and K, M are thousands and millions.
set -uo pipefail

runs=${RUNS:-3}
limit=${LIMIT:-120}
sources=${SOURCES:-ofn ttl}
targets=${TARGETS:-fss ttl}
top=$(dirname -- "$(dirname -- "$(readlink -f -- "${BASH_SOURCE[0]}")")")
room=$(mktemp -d)
trap 'rm -rf -- "$room"' EXIT

fail() {
    echo "bench: $1" >&2
    exit 1
}

# Writes a document whose axioms are printed by an awk program.
write_document() {
    local name=$1 axioms=$2
    shift 2
    awk "$@" "
        function text(length_wanted, end,    filled) {
            filled = end
            while (length(filled) < length_wanted) filled = \"a\" filled
            return filled
        }
        BEGIN {
            print \"Prefix(:=<http://bench.example/>)\"
            $axioms
            print \")\"
        }" >"$room/$name.ofn"
}

begin='print "Ontology(<http://bench.example/o>"'

# N classes, N - 1 subclass axioms between them and N - 1 below a restriction.
write_classes() {
    write_document "$1" "$begin
        print \"Declaration(ObjectProperty(:p))\"
        for (i = 0; i < count; i++) printf \"Declaration(Class(:C%d))\n\", i
        for (i = 1; i < count; i++) {
            printf \"SubClassOf(:C%d :C%d)\n\", i, i - 1
            printf \"SubClassOf(:C%d ObjectSomeValuesFrom(:p :C%d))\n\", i, i - 1
        }" -v count="$2"
}

write_long_string() {
    write_document "$1" "$begin
        printf \"AnnotationAssertion(rdfs:comment :A \\\"\"
        for (i = 0; i < count; i++) printf \"0123456789\"
        print \"\\\")\"" -v count="$2"
}

# One union, with its members in descending order.
write_union() {
    write_document "$1" "$begin
        print \"Declaration(Class(:A))\"
        for (i = 1; i <= count; i++) printf \"Declaration(Class(:C%07d))\n\", i
        printf \"SubClassOf(:A ObjectUnionOf(\"
        for (i = count; 0 < i; i--) printf \" :C%07d\", i
        print \"))\"" -v count="$2"
}

write_annotations() {
    write_document "$1" "$begin
        filled = text(150, \"\")
        for (i = 0; i < count; i++) printf \"AnnotationAssertion(rdfs:comment :A \\\"%s%d\\\")\n\", filled, i" -v count="$2"
}

# Restrictions 120 deep, each round another class.
write_nested() {
    write_document "$1" "$begin
        for (k = 0; k < 120; k++) {
            outer = outer \"ObjectSomeValuesFrom(:p \"
            inner = inner \")\"
        }
        print \"Declaration(Class(:A)) Declaration(ObjectProperty(:p))\"
        for (i = 0; i < count; i++) printf \"Declaration(Class(:C%d)) SubClassOf(:A %s:C%d%s)\n\", i, outer, i, inner" -v count="$2"
}

# Prefixes, each of which shortens the name of one class.
write_prefixes() {
    write_document "$1" "
        for (i = 0; i < count; i++) printf \"Prefix(p%d:=<http://bench.example/%d/>)\n\", i, i
        $begin
        for (i = 0; i < count; i++) printf \"Declaration(Class(p%d:C))\n\", i" -v count="$2"
}

# Strings of 1000 characters, all equal or with ten last ones that differ.
write_strings() {
    write_document "$1" "$begin
        filled = text(990, \"\")
        for (i = 0; i < count; i++) printf \"AnnotationAssertion(rdfs:comment :A%d \\\"%s%010d\\\")\n\", i, filled, differ * i" -v count="$2" -v differ="$3"
}

# The seconds and kilobytes of the best of the runs from a source to a target; `refused` and the line of a refusal.
measure() {
    local best='' least='' seconds kilobytes
    for ((run = 0; run < runs; run++)); do
        /usr/bin/time -f '%e %M' -o "$room/time" timeout "$limit" "$program" translate --to "$3" "$room/$1.$2" >"$room/out" 2>"$room/note"
        case $? in
        0) ;;
        124) return ;;
        *)
            echo "refused $(<"$room/note")"
            return
            ;;
        esac
        read -r seconds kilobytes <"$room/time"
        if [[ -z $best ]] || awk "BEGIN { exit !($seconds < $best) }"; then
            best=$seconds
            least=$kilobytes
        fi
    done
    echo "$best $least"
}

# A line for a document, each source and each target, with the growth since another document, if it is named.
show() {
    local source target
    for source in $sources; do
        if [[ $source != ofn ]] && ! "$program" translate --to "$source" "$room/$1.ofn" >"$room/$1.$source" 2>"$room/note"; then
            continue
        fi
        for target in $targets; do
            show_target "$1" "$source" "$target" "${2:-none}"
        done
    done
    rm -f -- "$room/$1.ofn" "$room/$1.ttl" "$room/$1.omn"
}

show_target() {
    local name=$1 source=$2 target=$3 before=$4 seconds kilobytes
    read -r seconds kilobytes <<<"$(measure "$name" "$source" "$target")"
    if [[ -z $seconds ]]; then
        printf '%-26s %s %s not within %d s\n' "$name" "$source" "$target" "$limit"
        return
    fi
    if [[ $seconds == refused ]]; then
        printf '%-26s %s %s %s\n' "$name" "$source" "$target" "$kilobytes"
        return
    fi
    results[$name $source $target]="$seconds $kilobytes"
    awk -v name="$name" -v way="$source $target" -v bytes="$(stat -c %s "$room/$name.$source")" -v now="$seconds $kilobytes" -v before="${results[$before $source $target]:-}" 'BEGIN {
        split(now, n)
        printf "%-26s %s %8.1f MB %8.2f s %8.1f MB", name, way, bytes / 1000000, n[1], n[2] / 1000
        if (split(before, b) && 0 < b[1]) printf "   %6.1f times %6.1f times", n[1] / b[1], n[2] / b[2]
        print ""
    }'
}

[[ -x /usr/bin/time ]] || fail "/usr/bin/time is not there"
program=$(readlink -f -- "${1:-$top/bin/owl}") && [[ -x $program ]] || fail "there is no program ${1:-bin/owl}"

declare -A results=()
printf '%-34s %11s %10s %11s   %12s %12s\n' document size time memory 'time grows' 'memory grows'
write_classes 'classes 1K' 1000 && show 'classes 1K'
write_classes 'classes 20K' 20000 && show 'classes 20K' 'classes 1K'
write_classes 'classes 200K' 200000 && show 'classes 200K' 'classes 20K'
write_classes 'classes 1M' 1000000 && show 'classes 1M' 'classes 200K'
write_long_string 'one string' 2000000 && show 'one string'
write_union 'union of 300K, descending' 300000 && show 'union of 300K, descending'
write_annotations '100K annotations of a class' 100000 && show '100K annotations of a class'
write_nested 'restrictions 120 deep' 6800 && show 'restrictions 120 deep'
write_prefixes '100K prefixes' 100000 && show '100K prefixes'
write_strings '60K strings, all equal' 60000 0 && show '60K strings, all equal'
write_strings '60K strings, ends differ' 60000 1 && show '60K strings, ends differ' '60K strings, all equal'
