#!/bin/sh
# The examples in C and Rust print what is stored beside them
cd "$(dirname "$0")/../.." && . tests/lib.sh || exit 1

need gcc cargo rustc timeout
need_planner

# What an example program prints for its own sheet and for files of examples/.
example_output() { # PROGRAM
    for name in '' sample.sheet redundant-box.sheet no-plan.sheet malformed.sheet \
        sample.text lane-four.text malformed.text; do
        echo "== ${name:-built in}"
        limited 60 "$1" ${name:+"examples/$name"} 2>&1
        echo "exit status $?"
    done
}

prints() { # PROGRAM FILE
    example_output "$1" >"$work/printed"
    diff "$2" "$work/printed"
}

# An example that takes no file.
prints_alone() { # PROGRAM FILE
    limited 60 "$1" >"$work/printed" 2>&1
    echo "exit status $?" >>"$work/printed"
    diff "$2" "$work/printed"
}

for example in answer write edit; do
    one_test "the C example $example is built" gcc -std=c99 -O2 -Wall -Wextra -pedantic -Werror -I include \
        "examples/c/$example.c" "$archive" -o "$work/$example"
done
one_test "the C example answer" prints "$work/answer" examples/c/answer.expected
one_test "the C example write" prints_alone "$work/write" examples/c/write.expected
one_test "the C example edit" prints_alone "$work/edit" examples/c/edit.expected
one_test "the Rust example is built" cargo build --locked --package comzsered --example answer
one_test "the Rust example" prints target/cargo/debug/examples/answer bindings/rust/examples/answer.expected
finish
