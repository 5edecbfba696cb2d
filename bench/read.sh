#!/usr/bin/env bash
# Prints how long the built program takes to read a C text of 60 MB, where it is refused at its last byte and where it is not.
set -u
top=$(cd "$(dirname "$(readlink -f "${BASH_SOURCE[0]}")")/.." && pwd)
. "$top/bench/timing.sh"
aplc=$("$top/.ci/build") || exit 9
work=$(mktemp -d) || exit 1
trap 'rm -rf "$work"' EXIT
printf '∇MAIN\n∇\n' >"$work/empty.apl"
"$aplc" "$work/empty.apl" >"$work/empty.c" || exit 1
python3 "$top/bench/c_text.py" "$work/empty.c" 60000000 >"$work/large.c" || exit 1
{ cat "$work/large.c"; printf 'x'; } >"$work/more.c"
echo "text: $(wc -c <"$work/large.c") bytes"
echo "read, and one step:       $(milliseconds "$(least 3 "$aplc" --exec --steps 1 "$work/large.c")")"
echo "refused behind its tail:  $(milliseconds "$(least 3 "$aplc" --exec --steps 1 "$work/more.c")")"
echo "cat:                      $(milliseconds "$(least 3 cat "$work/large.c")")"
