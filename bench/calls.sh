#!/usr/bin/env bash
# Prints the nanoseconds a turn of a counting loop, a call of fib and a turn of gcd take: of the C text as each C compiler
# makes it, of C by hand with the same checks of sums, and of the text under --run. Branches by sums alone are made here of
# computed lines: an empty line leads to the next one with a statement.
set -u
top=$(cd "$(dirname "$(readlink -f "${BASH_SOURCE[0]}")")/.." && pwd)
. "$top/bench/timing.sh"
aplc=${APLC:-$("$top/.ci/build")} || exit 9
work=$(mktemp -d) || exit 1
trap 'rm -rf "$work"' EXIT
greatest=9223372036854775807

empty() { # COUNT: so many empty lines
  for ((line = 0; line < $1; line++)); do echo; done
}

loop() { # TURNS: a loop that a LIMIT ERROR ends
  printf '∇MAIN;N;X;Y;T\nN←%s\nX←Y←1\nL:T←X-Y\nY←X\nX←T\nN←N+1\n→L\n∇\n' "$((greatest - $1))"
}

fib() { # N: fib of N, N at most 40
  printf '∇MAIN\nFIB %s\n∇\n∇R←FIB N\nR←N\n→3+N\n→0\n→0\n' "$1"
  empty 38
  printf 'R←(FIB N-1)+FIB N-2\n∇\n'
}

gcd() { # TURNS: gcd of 36 and 15 again and again, until a LIMIT ERROR
  printf '∇MAIN;N;S\nN←%s\nS←0\nL:S←36 GCD 15+S-S\nN←N+1\n→L\n∇\n∇R←A GCD B\nL:→50+2×A-B\n' "$((greatest - $1))"
  empty 46
  printf 'B←B-A\n→L\nR←A\n→0\n'
  empty 68
  printf 'A←A-B\n→L\n∇\n'
}

by_hand() {
  cat <<'C'
#include <stdint.h>
#include <stdio.h>
#include <stdlib.h>
static int64_t fault(void) { fprintf(stderr, "LIMIT\n"); exit(1); }
static int64_t in(int64_t x) { return x == INT64_MIN ? fault() : x; }
static int64_t add(int64_t a, int64_t b) { int64_t r; return __builtin_add_overflow(a, b, &r) ? fault() : in(r); }
static int64_t sub(int64_t a, int64_t b) { int64_t r; return __builtin_sub_overflow(a, b, &r) ? fault() : in(r); }
C
}

loop_by_hand() {
  by_hand
  cat <<C
int main(void) {
  int64_t n = $((greatest - $1))LL, x = 1, y = 1;
  for (;;) { int64_t t = sub(x, y); y = x; x = t; n = add(n, 1); }
}
C
}

fib_by_hand() {
  by_hand
  cat <<C
static int64_t fib(int64_t n) { return n < 2 ? n : add(fib(sub(n, 1)), fib(sub(n, 2))); }
int main(void) { printf("%lld\n", (long long)fib($1)); }
C
}

gcd_by_hand() {
  by_hand
  cat <<C
static int64_t gcd(int64_t a, int64_t b) {
  while (a != b) { if (a > b) a = sub(a, b); else b = sub(b, a); }
  return a;
}
int main(void) {
  volatile int64_t fifteen = 15;
  int64_t n = $((greatest - $1))LL, s = 0;
  for (;;) { s = gcd(36, fifteen + s - s); n = add(n, 1); }
}
C
}

nanoseconds() { # microseconds, turns
  awk -v spent="$1" -v turns="$2" 'BEGIN { printf "%.2f ns", spent * 1000 / turns }'
}

# NAME SIZE TURNS SMALL TURNS: the size for the compilers and its turns, and those for --run
timed() {
  "$1" "$2" >"$work/$1.apl"
  "$1_by_hand" "$2" >"$work/$1.hand.c"
  "$aplc" "$work/$1.apl" >"$work/$1.c" || exit 1
  for compiler in gcc clang; do
    command -v "$compiler" >"$work/which" || continue
    for text in "$1" "$1.hand"; do
      "$compiler" -std=c99 -O2 -w -o "$work/$text" "$work/$text.c" || exit 1
    done
    emitted=$(least 5 "$work/$1") hand=$(least 5 "$work/$1.hand")
    echo "$1, $compiler: emitted $(nanoseconds "$emitted" "$3"), by hand $(nanoseconds "$hand" "$3")," \
      "$(awk -v a="$emitted" -v b="$hand" 'BEGIN { printf "%.2f", a / b }') times"
  done
  "$1" "$4" >"$work/$1.apl"
  echo "$1, --run: $(nanoseconds "$(least 3 "$aplc" --run "$work/$1.apl")" "$5")"
}

timed loop 300000000 300000000 1000000 1000000
timed fib 36 48315633 20 21891
timed gcd 10000000 10000000 100000 100000
