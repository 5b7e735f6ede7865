#!/usr/bin/env bash
# Times the check of documents against OWL 2 DL, EL, QL and RL beside `show`, which reads
# and counts them, and tells the peak of memory: bench/profiles.sh [PROGRAM], bin/owl if left out.
# RUNS is how often each is done, in turn, of which the best counts; 3 if it is not
# set. What takes more than LIMIT seconds is told so; 120 if it is not set. What
# documents have so many of is divided by PART; 1 if it is not set.
#
# The times are of the processor, by /usr/bin/time. Of classes a check is wanted to take
# at most 1.5 times as long as `show` in each profile, and of 20,000 in DL 1.3 times.
#
# Where Java and the OWL API are there (Debian's libowlapi-java), its check of the same
# profile (OwlApiBench.java) is timed once behind each, with all that Java takes to begin.
set -uo pipefail

runs=${RUNS:-3}
limit=${LIMIT:-120}
part=${PART:-1}
top=$(dirname -- "$(dirname -- "$(readlink -f -- "${BASH_SOURCE[0]}")")")
room=$(mktemp -d) || exit
trap 'rm -rf -- "$room"' EXIT

fail() {
    echo "profiles: $1" >&2
    exit 1
}

# Writes a document of so many, whose axioms are printed by an awk program.
write_document() {
    awk -v count="$1" "
        function chain(first, second, above) {
            printf \"SubObjectPropertyOf(ObjectPropertyChain(:p%d :p%d) :p%d)\n\", first, second, above
        }
        function range(property, class) {
            printf \"ObjectPropertyRange(:p%d :C%d)\n\", property, class
        }
        BEGIN {
            print \"Prefix(:=<http://bench.example/>)\"
            print \"Ontology(<http://bench.example/o>\"
            $2
            print \")\"
        }" >"$room/m.ofn"
}

properties='for (i = 0; i < count; i++) printf "Declaration(ObjectProperty(:p%d))\n", i;'

# Classes, each below the one before and below a restriction by it.
classes='print "Declaration(ObjectProperty(:p))"
    for (i = 0; i < count; i++) printf "Declaration(Class(:C%d))\n", i
    for (i = 1; i < count; i++) {
        printf "SubClassOf(:C%d :C%d)\n", i, i - 1
        printf "SubClassOf(:C%d ObjectSomeValuesFrom(:p :C%d))\n", i, i - 1
    }'

# The same for RL, where such a restriction may stand below, and not above.
below='print "Declaration(ObjectProperty(:p))"
    for (i = 0; i < count; i++) printf "Declaration(Class(:C%d))\n", i
    for (i = 1; i < count; i++) {
        printf "SubClassOf(:C%d :C%d)\n", i, i - 1
        printf "SubClassOf(ObjectSomeValuesFrom(:p :C%d) :C%d)\n", i, i - 1
    }'

# Properties, each below the one before, all but the first asked to be simple.
hierarchy="$properties"'
    for (i = 1; i < count; i++) printf "SubObjectPropertyOf(:p%d :p%d) FunctionalObjectProperty(:p%d)\n", i, i - 1, i'

# Chains, each into a property that stands in the next one; with a step from the last
# one back, so that all break the order; and in pairs, of which each breaks it.
chains="$properties"'for (i = 2; i < count; i++) chain(i - 2, i - 1, i)'
ring="$chains"'; printf "SubObjectPropertyOf(:p%d :p0)\n", count - 1'
pairs="$properties"'for (i = 0; i + 1 < count; i += 2) { chain(i, i, i + 1); chain(i + 1, i + 1, i) }'

# Chains of two properties into all others, each of which begins with its property.
stars="$properties"'for (i = 2; i < count; i++) chain(i, i % 2, i)'

equivalence="$properties"'
    printf "EquivalentObjectProperties("
    for (i = 0; i < count; i++) printf " :p%d", i
    print ")"
    for (i = 0; i < count; i++) printf "IrreflexiveObjectProperty(:p%d)\n", i'

tree='print "Declaration(ObjectProperty(:p))"
    for (i = 1; i < count; i++) printf "ObjectPropertyAssertion(:p _:a%d _:a%d)\n", int(i / 2), i'

# A walk from the first individual to the last one, and back in one step.
walk='print "Declaration(ObjectProperty(:p))"
    for (i = 0; i < count; i++) printf "ObjectPropertyAssertion(:p _:a%d _:a%d)\n", i, (i + 1) % count'

# Definitions, each by the one behind it.
definitions='for (i = 0; i < count; i++) {
        printf "Declaration(Datatype(:T%d))\n", i
        printf "DatatypeDefinition(:T%d DataUnionOf(%s xsd:string))\n", i, (i + 1 < count ? ":T" (i + 1) : "xsd:integer")
    }'

# Properties, each with a class as its range, and chains into the first half of them. The
# chain ends with one of the second half, which has the same range, or that of another.
ranges="$properties"'
    for (i = 0; i < count; i++) printf "Declaration(Class(:C%d))\n", i
    for (i = 0; i < count; i++) range(i, i % (count / 2))
    for (i = 0; i < count / 2; i++)'
kept="$ranges chain(i + count / 2, i + count / 2, i)"
lacking="$ranges chain(i + count / 2, (i + 1) % (count / 2) + count / 2, i)"

# Properties, each below the one before, each with a range of its own, and each above a
# chain that ends with the next one, which has the ranges of all before, or begins with it.
imposed="$properties"'
    for (i = 0; i < count; i++) printf "Declaration(Class(:C%d))\n", i
    print "Declaration(ObjectProperty(:q))"
    for (i = 0; i < count; i++) range(i, i)
    for (i = 1; i < count; i++) printf "SubObjectPropertyOf(:p%d :p%d)\n", i, i - 1
    for (i = 1; i < count; i++) printf "SubObjectPropertyOf(ObjectPropertyChain(%s) :p%d)\n"'
inherited="$imposed"', ":q :p" i, i - 1'
forgotten="$imposed"', ":p" i " :q", i - 1'

# Intersections in Turtle, two of each depth, each of the two below. As a tree the last one
# has 5 * 2^(count - 1) - 2 nodes and leaves: with 22 that is ten million, and the limit is 2^24.
intersections='
    print "@prefix : <http://bench.example/> ."
    print "@prefix owl: <http://www.w3.org/2002/07/owl#> ."
    print "@prefix rdfs: <http://www.w3.org/2000/01/rdf-schema#> ."
    print ":o a owl:Ontology . :A a owl:Class . :B a owl:Class . :C a owl:Class ."
    printf ":A rdfs:subClassOf _:x%d . _:x%d a owl:Class ; owl:intersectionOf ( %s ) .\n", count, count, below(count)
    for (i = 1; i < count; i++) {
        printf "_:x%d a owl:Class ; owl:intersectionOf ( %s ) .\n", i, below(i)
        printf "_:y%d a owl:Class ; owl:intersectionOf ( %s :C ) .\n", i, below(i)
    }'

# Does it once with these words, and keeps the time where it is the best so far. What
# was late once is not done again.
run() {
    local name=$1 user system seconds kilobytes status
    shift
    [[ -z ${late[$name]:-} ]] || return
    /usr/bin/time -q -f '%U %S %M' -o "$room/time" timeout "$limit" "$program" "$@" "$room/$document" >"$room/out" 2>"$room/note"
    status=$?
    if ((status == 124)); then
        late[$name]=yes
        return
    fi
    ((status < 2)) || fail "$name: status $status: $(<"$room/note")"
    read -r user system kilobytes <"$room/time"
    seconds=$(awk "BEGIN { print $user + $system }")
    if [[ -z ${best[$name]:-} ]] || awk "BEGIN { exit !($seconds < ${best[$name]}) }"; then
        best[$name]=$seconds
    fi
    memory[$name]=$kilobytes
    note[$name]=$(<"$room/note")
}

# Times the OWL API's check of a profile once, and tells what came of it.
run_other() {
    local user system kilobytes status
    /usr/bin/time -q -f '%U %S %M' -o "$room/time" timeout "$limit" java -Xmx8g -cp "$jars:$room" OwlApiBench 1 check "$1" "$room/$document" >"$room/out" 2>/dev/null
    status=$?
    if ((status == 124)); then
        echo "OWL API not within $limit s"
    elif ((status != 0)); then
        echo "OWL API failed"
    else
        read -r user system kilobytes < <(tail -n 1 "$room/time")
        awk "BEGIN { printf \"OWL API %.2f s %.1f MB \", $user + $system, $kilobytes / 1000 }"
        cut -d ' ' -f 2- "$room/out"
    fi
}

# tell NAME COUNT PROFILE: a line for the check of the document, and one for the OWL API's.
tell() {
    awk -v name="$1" -v count="$2" -v bytes="$(stat -c %s "$room/$document")" -v show="${best[show]:-}" -v check="${best[$3]:-}" \
        -v show_memory="${memory[show]:-0}" -v check_memory="${memory[$3]:-0}" -v note="${note[$3]:-}" -v limit="$limit" 'BEGIN {
        printf "%-26s %7d %7.1f MB", name, count, bytes / 1000000
        if (show == "") printf "   show not within %d s", limit
        else printf " %8.2f s %7.1f MB", show, show_memory / 1000
        if (check == "") printf "   check not within %d s", limit
        else printf " %8.2f s %7.1f MB", check, check_memory / 1000
        if (0 < show && check != "") printf " %6.2f times", check / show
        print "  " note
    }'
    [[ -z $jars ]] || printf '%-26s %s\n' '' "$(run_other "$3")"
}

# time_checks NAME COUNT PROFILE..: what is told of the document that was written.
time_checks() {
    local name=$1 count=$2 profile turn
    shift 2
    declare -A best=() memory=() note=() late=()
    for ((turn = 0; turn < runs; turn++)); do
        run show show
        for profile in "$@"; do
            run "$profile" check --profile "$profile"
        done
    done
    for profile in "$@"; do
        tell "$name" "$count" "$profile"
    done
}

# time_document NAME COUNT AXIOMS [PROFILE..]: the same of a document of so many, in DL if no profile is named.
time_document() {
    local name=$1 count=$(($2 / part)) axioms=$3
    shift 3
    document=m.ofn
    write_document "$count" "$axioms"
    time_checks "$name" "$count" "${@:-dl}"
}

# time_tree NAME COUNT PROFILE..: the same of the intersections.
time_tree() {
    document=m.ttl
    awk -v count="$2" "function below(i) { return i == 1 ? \":A :B\" : \"_:x\" (i - 1) \" _:y\" (i - 1) } BEGIN { $intersections }" >"$room/m.ttl"
    time_checks "$@"
}

[[ -x /usr/bin/time ]] || fail "/usr/bin/time is not there"
program=$(readlink -f -- "${1:-$top/bin/owl}") && [[ -x $program ]] || fail "there is no program ${1:-bin/owl}"

jars=
if command -v javac >/dev/null && [[ -e /usr/share/java/owlapi-distribution.jar ]]; then
    jars=$(printf '%s:' /usr/share/java/*.jar)
    javac -d "$room" -cp "$jars" "$top/bench/OwlApiBench.java" || jars=
fi

printf '%-26s %7s %10s %10s %10s %10s %10s %12s  %s\n' document count size show memory check memory check/show line
time_document 'classes' 20000 "$classes" dl el ql
time_document 'classes, the other way' 20000 "$below" rl
time_document 'classes' 200000 "$classes" dl el ql
time_document 'classes, the other way' 200000 "$below" rl
time_document 'classes, half of all broken' 20000 "$classes" rl
time_tree 'intersections, shared' 22 dl el ql rl
time_document 'ranges' 20000 "$kept" el
time_document 'ranges, lacking' 20000 "$lacking" el
time_document 'ranges in a hierarchy' 10000 "$inherited" el
time_document 'ranges there, lacking' 10000 "$forgotten" el
time_document 'hierarchy' 100000 "$hierarchy"
time_document 'hierarchy, none simple' 100000 "$hierarchy"'; printf "TransitiveObjectProperty(:p%d)\n", count - 1'
time_document 'chains' 100000 "$chains"
time_document 'chains, all in a ring' 100000 "$ring"
time_document 'chains, in rings of two' 100000 "$pairs"
time_document 'chains of two properties' 100000 "$stars"
time_document 'equivalence' 100000 "$equivalence"
time_document 'equivalence, none simple' 100000 "$equivalence; "'print "TransitiveObjectProperty(:p0)"'
time_document 'individuals, a tree' 100000 "$tree"
time_document 'individuals, a ring' 100000 "$walk"
time_document 'definitions' 50000 "$definitions"
time_document 'definitions, a ring' 50000 "$definitions"'; printf "DatatypeDefinition(:T%d :T0)\n", count - 1'
