#!/bin/sh
# A package outside the repository that depends on the binding, in each way in which it may name the archive's folder
cd "$(dirname "$0")/../.." && . tests/lib.sh || exit 1

need cargo rustc
need_planner
root=$(pwd -P)
# The caller's own setting is not meant.
CARGO_TARGET_DIR=$work/target
export CARGO_TARGET_DIR

# ---- the package

mkdir -p "$work/lib" "$work/empty" "$work/user/src" "$work/user/.cargo"
cp "$archive" "$work/lib/"
cat >"$work/user/Cargo.toml" <<END
[package]
name = "user"
version = "0.1.0"
edition = "2021"

[dependencies]
comzsered = { path = '$root/bindings/rust' }
END
cat >"$work/user/src/main.rs" <<'END'
fn main() {
    let text = comzsered::Text(b"switches 0\nfaults 1\nrule f1\n");
    print!("{}", comzsered::listing(text).escape_ascii());
}
END
listing='A    8    0    0\nF    1    0    0\nZ    2    0    0\n'

# ---- the tests

# Runs the package from a folder of $work. What it prints is left in $work/out, what is said besides
# in $work/err, and the exit status in $status.
run() { # FOLDER [NAME=VALUE]...
    folder=$1
    shift
    (cd "$work/$folder" && env "$@" cargo run --quiet --offline >"$work/out" 2>"$work/err")
    status=$?
}

# That the package was built and answers.
answers() { # NAME
    echo "-- $1"
    if [ "$status" -eq 0 ] && [ "$(cat "$work/out")" = "$listing" ]; then
        pass
    else
        cat "$work/out" "$work/err"
        fail "$1: exit status $status"
    fi
}

# That it was not built, and these words are said.
refused() { # NAME WORDS
    echo "-- $1"
    if [ "$status" -ne 0 ] && grep -Fq -e "$2" "$work/err"; then
        pass
    else
        cat "$work/out" "$work/err"
        fail "$1: exit status $status"
    fi
}

run user
answers "the repository's own archive"
run user COMZSERED_LIB_DIR="$work/lib"
answers "a folder from the root on"
run user COMZSERED_LIB_DIR=../lib
answers "a folder from where the caller stands"
run user/src COMZSERED_LIB_DIR=../../lib
answers "a folder from elsewhere in the package"
run user COMZSERED_LIB_DIR=../empty
refused "a folder without the archive" "There is no $work/user/../empty/libplanner.a."
run user -u PWD COMZSERED_LIB_DIR=../lib
refused "a caller that is nowhere" "COMZSERED_LIB_DIR is ../lib, a relative folder."
run user PWD=user COMZSERED_LIB_DIR=../lib
refused "a caller that is in no folder from the root on" "Name the folder from the root on."

# As .cargo/config.toml can say it for all builds.
settings() { # FOLDER
    printf '[env]\nCOMZSERED_LIB_DIR = { value = "%s", relative = true }\n' "$1" \
        >"$work/user/.cargo/config.toml"
}
settings ../lib
run user/src
answers "a folder in .cargo/config.toml"
settings ../empty
run user/src
refused "a folder in .cargo/config.toml without the archive" "empty/libplanner.a."

finish
