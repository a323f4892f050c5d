#!/bin/sh
# The library's writer against the second one
cd "$(dirname "$0")/../.." && . tests/lib.sh || exit 1

need_comparisons
counted "tables" compare writer
finish
