#!/usr/bin/env bash
# Prints how many machine steps a second the built program takes on a counting loop of ten million steps, and how much
# longer that is than the same text compiled by a C compiler as C99 at -O0.
set -u
top=$(cd "$(dirname "$(readlink -f "${BASH_SOURCE[0]}")")/.." && pwd)
. "$top/bench/timing.sh"
aplc=$("$top/.ci/build") || exit 9
compiler=$(command -v cc || command -v gcc || command -v clang) || { echo "no C compiler is here" >&2; exit 1; }
work=$(mktemp -d) || exit 1
trap 'rm -rf "$work"' EXIT
printf '∇MAIN\n∇\n' >"$work/empty.apl"
"$aplc" "$work/empty.apl" >"$work/empty.c" || exit 1
{ # a turn is two steps: the condition and the assignment
  sed '/^static void f0(void);$/,$d' "$work/empty.c"
  printf '%s\n' 'static void f0(void);' 'static void f0(void) {' 'int64_t v0;' 'v0 = 0LL;' \
    'while ((v0 < 5000000LL)) {' 'v0 = (v0 + 1LL);' '}' '}' 'int main(void) {' 'f0();' 'return 0;' '}'
} >"$work/loop.c"
"$compiler" -std=c99 -O0 -w -o "$work/loop" "$work/loop.c" || exit 1
"$aplc" --exec "$work/loop.c" || exit 1
ours=$(least 10 "$aplc" --exec "$work/loop.c")
theirs=$(least 10 "$work/loop")
echo "aplc --exec: $ours µs, $((10000000 / (ours / 1000 + 1) / 1000)) million steps a second"
echo "$compiler -std=c99 -O0: $theirs µs"
echo "ratio: $((ours * 10 / theirs / 10)).$((ours * 10 / theirs % 10))"
