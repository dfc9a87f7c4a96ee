#!/usr/bin/env bash
# The example of a cache above the unit against the unit, on random commands and served misses; then without each rule by which it drops
# what it keeps, where it has to go wrong.
set -euo pipefail
cd "$(dirname "$0")/.."
source tools/library.bash
need gcc
need_library
mkdir -p target/tests
gcc -std=c99 -O2 -Wall -Wextra -Werror -pedantic -Iinclude -o target/tests/page_cache tests/page_cache.c "${library[@]}"
target/tests/page_cache 300000
for ((rule = 0; ; rule++)); do
    got=0
    said=$(target/tests/page_cache 300000 "$rule") || got=$?
    [ "$got" != 3 ] || break # no such rule
    [[ $said =~ \ ([1-9][0-9]*)\ differ$ ]] || { echo "page_cache: without rule $rule: $said" >&2; exit 1; }
done
[ "$rule" -gt 0 ]
echo "page_cache: without each of its $rule rules it goes wrong"
