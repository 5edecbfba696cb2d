#!/usr/bin/env bash
# Builds a small program over the readers of tokens and programs, outside the repository, and prints how long it takes for
# three sources: one of the greatest size, one of many forms, one of many functions.
set -u
top=$(cd "$(dirname "$(readlink -f "${BASH_SOURCE[0]}")")/.." && pwd)
. "$top/bench/timing.sh"
work=$(mktemp -d) || exit 1
trap 'rm -rf "$work"' EXIT
mkdir -p "$work/crates/parse/src" "$work/crates/parse/specs"
cp "$top/HANDLES" "$work/"
: >"$work/crates.txt"
for crate in aplc_scalar aplc_io aplc_lex aplc_syntax; do
  cp -r "$top/crates/$crate" "$work/crates/"
  grep "^$crate:" "$top/crates.txt" >>"$work/crates.txt"
done
echo 'parse: aplc_io aplc_lex aplc_syntax anyhow' >>"$work/crates.txt"
cp "$top/bench/parse_main.txt" "$work/crates/parse/src/main.rt"
touch "$work/crates/parse/specs/Lib.antt"
(cd "$work/crates/parse" && rt run >"$work/log" 2>&1 </dev/null)
program=$work/crates/parse/out/parse
[ -x "$program" ] || { cat "$work/log" >&2; exit 1; }

lines() { # a function of lines LINE, LIMIT bytes in all
  line=$1 limit=$2
  printf '∇MAIN\n'
  size=$((limit - 16)) n=$((($(printf '%s\n' "$line" | wc -c))))
  for ((i = 0; i < size / n && i < 998; i++)); do printf '%s\n' "$line"; done
  printf '∇\n'
}
functions() { # many small functions
  printf '∇MAIN\n∇\n'
  for ((i = 0; i < 990; i++)); do
    printf '∇R←F%d B;X\n' "$i"
    for ((k = 0; k < 12; k++)); do printf 'X←B+%d\n' "$k"; done
    printf 'R←X\n∇\n'
  done
}
lines "$(printf '%.0s7-' {1..127})7" 262144 >"$work/sums.apl"
# a comment behind the last line makes it 262,144 bytes, the most that a source may have
{ printf '⍝'; printf '%*s' $((262144 - $(wc -c <"$work/sums.apl"))) ''; } >>"$work/sums.apl"
lines "$(printf '%.0s(' {1..31})A[1;2]←+/B∘.×⍉'it''s'$(printf '%.0s)' {1..31})" 262144 >"$work/forms.apl"
functions >"$work/functions.apl"
for name in sums forms functions; do
  echo "$name: $(wc -c <"$work/$name.apl") bytes, $("$program" "$work/$name.apl"), $(milliseconds "$(least 10 "$program" "$work/$name.apl")")"
done
