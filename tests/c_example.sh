#!/usr/bin/env bash
# The C example's first run against the stream program's printed run, its second against what is written here; the header in C99 and C++.
set -euo pipefail
cd "$(dirname "$0")/.."
source tools/library.bash
need gcc g++
need_library
mkdir -p target/tests
gcc -std=c99 -Wall -Wextra -Werror -pedantic -Iinclude -o target/tests/printed_run examples/c/printed_run.c "${library[@]}"
g++ -Wall -Wextra -Werror -pedantic -fsyntax-only -x c++ include/t1mmu.h
target/tests/printed_run >target/tests/both_runs.out
sed '/^end /q' target/tests/both_runs.out >target/tests/printed_run.out
sed '1,/^end /d' target/tests/both_runs.out >target/tests/second_run.out

answers() { sed -n 's/^< \([0-9a-f]*\)  .*/\1/p; s/^\(end [0-9]* [0-9]* [0-9]*\)  .*/\1/p' "$1"; }
answers target/tests/printed_run.out >target/tests/printed_run.answers
sed -n 's/^> \([0-9a-f]*\)  .*/\1/p' target/tests/printed_run.out | tr -d '\n' >target/tests/printed_run.commands
cmp target/tests/printed_run.answers crates/mmu_stream/stdout
cmp target/tests/printed_run.commands <(od -An -v -tx1 crates/mmu_stream/stdin | tr -d ' \n')

# two writes, the miss, the insertion, and both strands' loads
acted=000000000000000000000000000000000000000000000000
miss=026800000000000000000000004020080000000000402000
page=010100000000000000000000000800080000000000000000
printf '%s\n' "$acted" "$acted" "$miss" "$acted" "$page" "$page" "end 6 73 0" >target/tests/second_run.expected
answers target/tests/second_run.out >target/tests/second_run.answers
cmp target/tests/second_run.answers target/tests/second_run.expected

count() { grep -c '^<' "$1"; }
echo "c_example: $(count target/tests/printed_run.out) answers and their commands compared with the stream program's," \
    "$(count target/tests/second_run.out) of a second run, 0 differ"
