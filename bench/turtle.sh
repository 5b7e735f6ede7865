#!/usr/bin/env bash
# Times the copying of a Turtle document of a million triples, beside serdi, which
# streams: bench/turtle.sh [PROGRAM], crates/ttl_copy/out/ttl_copy if left out. RUNS is
# how often each copies it, in turn, of which the best counts; 5 if it is not set.
#
# The times are those of /usr/bin/time, and M are millions.
set -euo pipefail

runs=${RUNS:-5}
top=$(dirname -- "$(dirname -- "$(readlink -f -- "${BASH_SOURCE[0]}")")")
room=$(mktemp -d)
trap 'rm -rf -- "$room"' EXIT

fail() {
    echo "turtle: $1" >&2
    exit 1
}

# So many subjects with five triples each: a type, an IRI, a string with a tag, and a
# blank node with a string.
write_document() {
    awk -v count="$1" 'BEGIN {
        print "@prefix : <http://bench.example/> ."
        for (i = 0; i < count; i++) {
            printf ":s%06d a :C%d ;\n", i, i % 1000
            printf "  :knows :s%06d ;\n", (i * 7919) % count
            printf "  :name \"name of %d\"@en ;\n", i
            printf "  :at [ :city \"City of %d\" ] .\n", i % 5000
        }
    }'
}

# Copies the document once, and keeps the time where it is the best so far.
run() {
    local name=$1 seconds kilobytes
    shift
    /usr/bin/time -f '%e %M' -o "$room/time" "$@" <"$room/document" >"$room/out" || fail "$name: status $?"
    read -r seconds kilobytes <"$room/time"
    if [[ -z ${best[$name]:-} ]] || awk "BEGIN { exit !($seconds < ${best[$name]}) }"; then
        best[$name]=$seconds
    fi
    memory[$name]=$kilobytes
}

show() {
    awk -v name="$1" -v bytes="$(stat -c %s "$room/document")" -v seconds="${best[$1]}" -v kilobytes="${memory[$1]}" 'BEGIN {
        printf "%-10s %8.2f s %8.1f MB/s %8.1f MB of memory\n", name, seconds, bytes / seconds / 1000000, kilobytes / 1000
    }'
}

[[ -x /usr/bin/time ]] || fail "/usr/bin/time is not there"
command -v serdi >/dev/null || fail "serdi is not there"
program=$(readlink -f -- "${1:-$top/crates/ttl_copy/out/ttl_copy}") && [[ -x $program ]] || fail "there is no program ${1:-ttl_copy}"

declare -A best=() memory=()
write_document 200000 >"$room/document"
printf '1M triples, %.1f MB\n' "$(stat -c %s "$room/document")e-6"
for ((i = 0; i < runs; i++)); do
    run ttl_copy "$program"
    run serdi serdi -q -i turtle -o turtle -
done
show ttl_copy
show serdi
