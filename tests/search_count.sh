#!/usr/bin/env bash
# The number of pages that a search compares, beside a plain count. No call of the library has it: the archive of crates/search_count_c
# is built for this alone.
set -euo pipefail
cd "$(dirname "$0")/.."
source tools/library.bash
need gcc
prove search_count_c
build_archives search_count_c
mkdir -p target/tests
gcc -std=c99 -O2 -g -Wall -Wextra -Werror -pedantic -o target/tests/search_count tests/search_count.c target/staticlib/libsearch_count.a
said=$(target/tests/search_count) || { echo "$said" >&2; exit 1; }
echo "search_count: $said"
