#!/bin/sh
# Every proof, every edit that must fail, and the programs' first runs ('rt ci', which keeps what passed)
#
# This step comes before all that build something: what does not prove need not be built.
cd "$(dirname "$0")/../.." && . tests/lib.sh || exit 1

need rt
counted "rt ci" rt ci
# An edit that cannot be tried shows nothing, and rt ci passes all the same.
if grep -Eq '^rt: ok.*, [1-9][0-9]* bad' "$work/out"; then fail "rt ci: a must-fail edit is bad"; fi
finish
