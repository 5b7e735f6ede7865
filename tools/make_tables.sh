#!/usr/bin/env bash
# Makes the tables of all grammars, of lexemes and of sentences: tools/make_tables.sh. With --check
# nothing is written: it fails where a table is not that of its grammar.
set -euo pipefail
cd -- "$(dirname -- "$(readlink -f -- "${BASH_SOURCE[0]}")")/.."

# The grammar's name, its crate, the names of the table's files, and its sources.
make_table() {
    local grammar=$1 crate=crates/$2 table=$3 origin=$4
    shift 4
    python3 tools/make_table.py ${check:+"$check"} "$grammar" "$crate/src/$table.rt" "$crate/specs/$origin.antt" "$@"
}

check=${1:-}
tokens=crates/owl_tokens
names=crates/owl_characters/specs/Names.antt
shared=("$tokens/specs/SharedPatterns.antt" "$tokens/src/kinds.rt" "$names")

make_table functional_grammar owl_tokens functional_table FunctionalOrigin "$tokens/specs/FunctionalGrammar.antt" "${shared[@]}"
make_table manchester_grammar owl_tokens manchester_table ManchesterOrigin "$tokens/specs/ManchesterGrammar.antt" "${shared[@]}"
make_table turtle_grammar ttl_tokens table TurtleOrigin crates/ttl_tokens/{specs/TurtleGrammar.antt,src/kinds.rt} "$names"

# The grammar, its crate and its name, and the names of the table's files.
make_grammar() {
    local grammar=$1 crate=crates/$2 name=$3 definition=$4 module=$5
    python3 tools/make_grammar.py ${check:+"$check"} "$grammar" "$name" "$crate" "$definition" "$module"
}

make_grammar crates/grammar_tests/items.grammar grammar_tests items ItemsTable items_table
make_grammar tools/turtle.grammar ttl_grammar turtle Table table
make_grammar tools/manchester.grammar man_grammar manchester Table table
python3 tools/make_page.py ${check:+"$check"} tools/manchester.grammar crates/man_grammar

# The grammar of Functional-Style Syntax follows from the rows of tags.
functional=$(mktemp)
trap 'rm -f "$functional"' EXIT
python3 tools/make_fss_grammar.py crates/owl_tree >"$functional"
make_grammar "$functional" fss_grammar functional Table table
