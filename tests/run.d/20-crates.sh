#!/bin/sh
# crates.txt names the folders of crates/, so that nothing goes without a proof
cd "$(dirname "$0")/../.." && . tests/lib.sh || exit 1

# The names in crates.txt: the first word before the colon, comments left out.
listed() { sed 's/#.*//; /:/!d; s/:.*//; s/ .*//' crates.txt; }

# The folders, hidden ones too.
found() { find crates -mindepth 1 -maxdepth 1 -type d | sed 's|^crates/||'; }

if [ ! -r crates.txt ]; then
    fail "crates.txt is missing"
    finish
fi
for name in $(found); do
    if listed | grep -Fqx -e "$name"; then
        passed=$((passed + 1))
    else
        fail "crates/$name is not listed in crates.txt, so nothing proves it"
    fi
done
for name in $(listed); do
    [ -d "crates/$name" ] || fail "crates.txt lists $name, and there is no folder crates/$name"
done
finish
