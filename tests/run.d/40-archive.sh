#!/bin/sh
# The archive is built; the header compiles and declares the archive's calls
cd "$(dirname "$0")/../.." && . tests/lib.sh || exit 1

need gcc nm
need_planner

# The calls that the header declares are those that the archive defines.
same_calls() {
    grep -o 'comzsered_[a-z_]*(' include/comzsered.h | tr -d '(' | sort -u >"$work/declared"
    nm -g --defined-only "$archive" | awk 'NF == 3 && $3 ~ /^comzsered_/ { print $3 }' |
        sort -u >"$work/defined"
    [ -s "$work/declared" ] && diff "$work/declared" "$work/defined"
}

# Twice, so that a missing guard shows.
printf '#include "comzsered.h"\n#include "comzsered.h"\nint nothing;\n' >"$work/header.c"
for standard in c99 c11; do
    one_test "the header in $standard" \
        gcc -std=$standard -Wall -Wextra -pedantic -Werror -I include -fsyntax-only "$work/header.c"
done
if command -v g++ >/dev/null; then
    one_test "the header in C++" g++ -Wall -Wextra -pedantic -Werror -I include -fsyntax-only -x c++ "$work/header.c"
else
    echo "-- the header in C++ was not tried: there is no g++"
fi
one_test "the header's calls are the archive's" same_calls
finish
