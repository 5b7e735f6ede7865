#!/usr/bin/env bash
# each.sh WORD.. -- NAME..: calls `owl` with these words for each name by itself,
# and tells what it says where it does not succeed. The status is that of the
# last call that did not. This is what .pre-commit-hooks.yaml calls.
set -uo pipefail

self=$(readlink -f -- "${BASH_SOURCE[0]}") || exit 70
top=$(dirname -- "$(dirname -- "$self")")
words=()
while (($#)) && [[ $1 != -- ]]; do
    words+=("$1")
    shift
done
shift
status=0
for name; do
    told=$("$top/owl" "${words[@]}" "$name" 2>&1) && continue
    status=$?
    printf '%s: %s\n' "$name" "$told" >&2
done
exit "$status"
