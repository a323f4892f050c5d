#!/bin/sh
# Every job of the library against the second planner: sheets, typed texts, and both at the limits
cd "$(dirname "$0")/../.." && . tests/lib.sh || exit 1

need_comparisons
counted "sheets" compare library
counted "typed texts" compare library --texts 1
counted "sheets at the limits" compare library --limits 1
counted "typed texts at the limits" compare library --limits 1 --texts 1
finish
