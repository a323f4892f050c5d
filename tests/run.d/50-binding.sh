#!/bin/sh
# The binding's own tests, and those in its documentation
cd "$(dirname "$0")/../.." && . tests/lib.sh || exit 1

need cargo rustc
need_planner
cargo_tests "cargo test of bindings/rust" cargo test --locked --package comzsered
finish
