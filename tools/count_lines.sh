#!/usr/bin/env bash
# Prints the lines of each crate of crates.txt as rows of a table: code, tests, definitions, proofs.
set -euo pipefail
cd "$(dirname "$0")/.."
lines() {
    { [ $# -eq 0 ] || cat "$@"; } | wc -l
}
grep -oE '^[a-z0-9_]+' crates.txt | while read -r crate; do
    cd "crates/$crate"
    mapfile -t code < <(find src -name '*.rt' ! -name 'tests.rt' ! -path '*/tests/*' | sort)
    mapfile -t tests < <(find src -name '*.rt' \( -name 'tests.rt' -o -path '*/tests/*' \) | sort)
    mapfile -t specs < <(find specs -name '*.antt' 2>/dev/null | sort)
    mapfile -t proofs < <(find proofs -name '*.antt' 2>/dev/null | sort)
    echo "| $crate | $(lines "${code[@]}") | $(lines "${tests[@]}") | $(lines "${specs[@]}") | $(lines "${proofs[@]}") |"
    cd ../..
done
