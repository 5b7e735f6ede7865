# A clone in small, for checks of the script: its files, a program, and one
# source, whose checksum stands beside the program. Sourced by other checks.
# shellcheck shell=bash

# small_clone TOP PROGRAM FOLDER: makes one in a folder.
small_clone() {
    local top=$1 program=$2 folder=$3 each
    mkdir -p "$folder/bin" "$folder/crates/one/src" "$folder/docs" || return
    for each in owl VERSION crates.txt README.md lib man completions examples .pre-commit-hooks.yaml; do
        cp -r "$top/$each" "$folder/" || return
    done
    cp "$top"/docs/*.md "$folder/docs/" && cp "$program" "$folder/bin/owl" || return
    echo '// one source' >"$folder/crates/one/src/lib.rt"
    sum_up "$folder"
}

# Puts the checksum of its sources beside the program of a clone.
sum_up() {
    local line
    line=$("$1/owl" --version) && echo "${line##* }" >"$1/bin/owl.sum"
}
