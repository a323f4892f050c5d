#!/bin/sh
# The test programs' own tests: the second planner, readers and writer, and that wrong ones show
cd "$(dirname "$0")/../.." && . tests/lib.sh || exit 1

need cargo rustc
cargo_tests "cargo test of tests" cargo test --release --locked --package planner-tests --lib
finish
