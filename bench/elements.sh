#!/usr/bin/env bash
# Prints how long C←A+2×B takes over arrays of rank 1 and 2 in the C text that the builders emit, beside C by hand with
# the same checks of overflow, for each C compiler that is here. The builders' program is tried and not proved here.
set -u
top=$(cd "$(dirname "$(readlink -f "${BASH_SOURCE[0]}")")/.." && pwd)
. "$top/bench/timing.sh"
work=$(mktemp -d) || exit 1
trap 'rm -rf "$work"' EXIT
mkdir -p "$work/crates/elements/src" "$work/crates/elements/specs"
cp "$top/HANDLES" "$work/"
: >"$work/crates.txt"
for crate in aplc_scalar aplc_arr aplc_cprof aplc_collect aplc_step aplc_fill; do
  cp -r "$top/crates/$crate" "$work/crates/"
  grep "^$crate:" "$top/crates.txt" >>"$work/crates.txt"
done
echo 'elements: aplc_fill aplc_step aplc_collect aplc_cprof aplc_arr aplc_scalar sqlite_items itoa anyhow' >>"$work/crates.txt"
cp "$top/bench/elements_main.txt" "$work/crates/elements/src/main.rt"
touch "$work/crates/elements/specs/Lib.antt"

turns=2000
by_hand() { # LENGTH.. : the same arrays, in C with the compilers' own tests of overflow
  cat <<'C'
#include <stdint.h>
#include <stdio.h>
#include <stdlib.h>
static void limit(void) { puts("LIMIT"); exit(1); }
static int64_t times(int64_t x, int64_t y) { int64_t z; if (__builtin_mul_overflow(x, y, &z) || z == INT64_MIN) limit(); return z; }
static int64_t plus(int64_t x, int64_t y) { int64_t z; if (__builtin_add_overflow(x, y, &z) || z == INT64_MIN) limit(); return z; }
int main(void) {
C
  if [ $# = 1 ]; then count=$1; else count=$(($1 * $2)); fi
  echo "int64_t count = $count;"
  cat <<'C'
int64_t *a = calloc(count, 8), *b = calloc(count, 8), *c = calloc(count, 8), total = 0;
for (int64_t i = 0; i < count; i++) a[i] = i * 7 % 2001 - 1000;
for (int64_t i = 0; i < count; i++) b[i] = i * 13 % 2001 - 1000;
C
  echo "for (int64_t turn = 0; turn < $turns; turn++) {"
  echo 'a[0] = turn;'
  if [ $# = 1 ]; then
    echo "for (int64_t i = 0; i < $1; i++) c[i] = plus(a[i], times(2, b[i]));"
  else
    echo "for (int64_t i = 0; i < $1; i++) for (int64_t j = 0; j < $2; j++) c[i * $2 + j] = plus(a[i * $2 + j], times(2, b[i * $2 + j]));"
  fi
  printf '%s\n' '}' 'for (int64_t i = 0; i < count; i++) total += c[i];' \
    'printf("%s%lld\n", total < 0 ? "¯" : "", total < 0 ? (long long)-total : (long long)total);' 'return 0;' '}'
}

compare() { # LENGTH..
  (cd "$work/crates/elements" && rt try -- "$turns" "$@") >"$work/emitted.c" 2>"$work/log" </dev/null || { cat "$work/log" >&2; exit 1; }
  by_hand "$@" >"$work/hand.c"
  for compiler in gcc clang; do
    command -v $compiler >/dev/null || continue
    $compiler -std=c99 -O2 -w -o "$work/emitted" "$work/emitted.c" || exit 1
    $compiler -std=c99 -O2 -w -o "$work/hand" "$work/hand.c" || exit 1
    [ "$("$work/emitted")" = "$("$work/hand")" ] || { echo "$compiler, rank $#: the results differ" >&2; exit 1; }
    ours=$(least 7 "$work/emitted") theirs=$(least 7 "$work/hand")
    echo "$compiler, rank $#: emitted $(milliseconds "$ours"), by hand $(milliseconds "$theirs"), $((ours * 100 / theirs)) %"
  done
}
compare 102400
compare 320 320
