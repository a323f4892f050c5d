#!/bin/sh
# The library's readers into tables against the second ones: sheets and typed texts
cd "$(dirname "$0")/../.." && . tests/lib.sh || exit 1

need_comparisons
counted "sheets" compare reader
counted "typed texts" compare reader --texts 1
finish
