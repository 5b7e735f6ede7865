#!/usr/bin/env bash
# Times the jobs that people have with the programs that are there: bin/owl, and
# where they are installed rapper, serdi, and the OWL API with Java (Debian's
# raptor2-utils, serdi and libowlapi-java). bench/compared.sh [CLASSES], 20000 if
# left out, makes the document of a trial with so many classes. It prints rows of
# Markdown: the job, the program, the seconds of the processor (user and system,
# the best of RUNS calls, 3 if it is not set, and one for Java), and the peak of
# memory.
set -uo pipefail

top=$(dirname -- "$(dirname -- "$(readlink -f -- "${BASH_SOURCE[0]}")")")
runs=${RUNS:-3}
room=$(mktemp -d) || exit
trap 'rm -rf -- "$room"' EXIT
owl=$top/bin/owl
cd "$room" || exit
"$top/tools/make_trial.py" "${1:-20000}" >t.ofn
"$owl" translate --to ttl t.ofn >t.ttl 2>/dev/null || exit
jars=$(printf '%s:' /usr/share/java/*.jar).

# job WHAT PROGRAM RUNS WORD..: one row.
job() {
    local what=$1 program=$2 times=$3 best='' used
    shift 3
    while ((times-- > 0)); do
        /usr/bin/time -o used -f '%U %S %M' "$@" >output 2>/dev/null || { echo "| $what | $program | fails | |"; return; }
        used=$(awk '{ printf "%.2f %d", $1 + $2, $3 / 1024 }' used)
        [[ -n $best ]] && awk -v a="${used% *}" -v b="${best% *}" 'BEGIN { exit a < b ? 1 : 0 }' || best=$used
    done
    echo "| $what | $program | ${best% *} s | ${best#* } MB |"
}

# The same with the OWL API, if it is there.
api() {
    local what=$1
    shift
    [[ ! -e OwlApiConvert.class ]] || job "$what" 'OWL API' 1 java -cp "$jars" "$@"
}

! command -v javac >/dev/null || javac -nowarn -cp "$jars" -d . "$top/bench/OwlApiConvert.java" "$top/bench/OwlApiCheck.java" 2>/dev/null
echo "| Job | Program | Processor | Memory |"
echo "|---|---|---|---|"
job 'count what is in a document in Turtle' owl "$runs" "$owl" show t.ttl
! command -v rapper >/dev/null || job 'count its triples' rapper "$runs" rapper -q -c -i turtle t.ttl
! command -v serdi >/dev/null || job 'read its triples, and write N-Triples' serdi "$runs" serdi -q t.ttl
job 'Turtle in one order' owl "$runs" "$owl" translate --to ttl t.ttl
! command -v rapper >/dev/null || job 'Turtle by subjects, abbreviated' rapper "$runs" rapper -q -i turtle -o turtle t.ttl
! command -v serdi >/dev/null || job 'Turtle in the order of the file' serdi "$runs" serdi -q -o turtle t.ttl
job 'Turtle to Functional-Style Syntax' owl "$runs" "$owl" translate --to fss t.ttl
api 'Turtle to Functional-Style Syntax' OwlApiConvert ofn t.ttl out.ofn
job 'Functional-Style Syntax to Turtle' owl "$runs" "$owl" translate --to ttl t.ofn
api 'Functional-Style Syntax to Turtle' OwlApiConvert ttl t.ofn out.ttl
job 'Functional-Style Syntax to Manchester Syntax' owl "$runs" "$owl" translate --to omn t.ofn
api 'Functional-Style Syntax to Manchester Syntax' OwlApiConvert omn t.ofn out.omn
job 'check it for OWL 2 EL' owl "$runs" "$owl" check --profile el t.ofn
api 'check it for OWL 2 EL' OwlApiCheck el t.ofn
job 'compare it in two syntaxes' owl "$runs" "$owl" same t.ofn t.ttl
