#!/usr/bin/env bash
# The library from outside: its C boundary under sanitizers and valgrind, and ten seconds of fuzzing.
set -euo pipefail
cd "$(dirname "$0")/.."
source tools/library.bash
need gcc
need_library
mkdir -p target/tests
flags=(-std=c99 -O2 -g -Wall -Wextra -Werror -pedantic -Iinclude)
sanitize=-fsanitize=address,undefined

gcc "${flags[@]}" "$sanitize" -fno-sanitize-recover=all -o target/tests/boundary_sanitized tests/boundary.c "${library[@]}"
gcc "${flags[@]}" -o target/tests/boundary tests/boundary.c "${library[@]}"
under=$(target/tests/boundary_sanitized)
valgrind="valgrind absent"
if command -v valgrind >/dev/null; then
    again=$(valgrind -q --error-exitcode=9 target/tests/boundary)
    [ "$again" = "$under" ] || { echo "boundary: $again under valgrind" >&2; exit 1; }
    valgrind="same under valgrind"
fi

# clang's fuzzer, guided by the answers; where it cannot be linked, random bytes to the same entry point
fuzz=target/tests/fuzz_run
rm -rf target/tests/corpus
mkdir -p target/tests/corpus
guided=(-DEXTRA_COUNTERS "$sanitize,fuzzer" -fno-sanitize-recover=all)
if clang "${flags[@]}" "${guided[@]}" -o "$fuzz" tests/fuzz/fuzz_run.c "${library[@]}" 2>target/tests/clang.log; then
    how="clang's fuzzer"
    run=("$fuzz" -max_total_time=10 -max_len=2048 -len_control=0 -seed=1 -verbosity=1 -artifact_prefix=target/tests/fuzz- target/tests/corpus)
else
    how="a random driver, clang's fuzzer absent"
    gcc "${flags[@]}" "$sanitize" -fno-sanitize-recover=all -o "$fuzz" tests/fuzz/fuzz_run.c tests/fuzz/driver.c "${library[@]}"
    run=("$fuzz" 10 1)
fi
"${run[@]}" >target/tests/fuzz.log 2>&1 || { tail -n 30 target/tests/fuzz.log >&2; exit 1; }
runs=$(sed -n 's/^Done \([0-9]*\) runs.*/\1/p' target/tests/fuzz.log)
[ "${runs:-0}" -ge 1000 ] || { echo "boundary: only ${runs:-0} fuzz runs" >&2; exit 1; }
echo "boundary: $under (sanitized; $valgrind); $runs fuzz runs held ($how)"
