#!/bin/sh
# The layout of the Rust sources ('cargo fmt'); 'rt ci' refuses crates that are not laid out
cd "$(dirname "$0")/../.." && . tests/lib.sh || exit 1

if cargo fmt --version >/dev/null 2>&1; then
    one_test "cargo fmt --check" cargo fmt --all --check
else
    echo "-- cargo fmt --check was not tried: there is no cargo fmt"
fi
finish
