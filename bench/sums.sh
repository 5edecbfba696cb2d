#!/usr/bin/env bash
# Prints how long the built program takes for the largest source of sums, and how long cat takes for the same file.
set -u
top=$(cd "$(dirname "$(readlink -f "${BASH_SOURCE[0]}")")/.." && pwd)
. "$top/bench/timing.sh"
aplc=$("$top/.ci/build") || exit 9
work=$(mktemp -d) || exit 1
trap 'rm -rf "$work"' EXIT
line=$(printf '%.0s7-' {1..127})7
{
  printf '∇MAIN\n'
  for _ in {1..999}; do printf '%s\n' "$line"; done
  printf '∇\n'
} >"$work/sums.apl"
"$aplc" "$work/sums.apl" >"$work/sums.c" || exit 1
echo "source: $(wc -c <"$work/sums.apl") bytes, 999 lines of 128 numbers; text: $(wc -c <"$work/sums.c") bytes"
echo "aplc: $(milliseconds "$(least 10 "$aplc" "$work/sums.apl")")"
echo "cat:  $(milliseconds "$(least 10 cat "$work/sums.apl")")"
if [ -x /usr/bin/time ]; then
  /usr/bin/time -f 'aplc: %M KiB of memory at most' "$aplc" "$work/sums.apl" 2>&1 >/dev/null
fi
