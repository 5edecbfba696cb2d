#!/usr/bin/env bash
# Makes sources that are hard to type, and prints for each the time and the memory of the built program and of its reading
# alone: the same source behind which a line stands that is refused before facts are looked for. Each is to take less than
# three seconds and 300 MiB.
set -u
export LC_ALL=C
top=$(cd "$(dirname "$(readlink -f "${BASH_SOURCE[0]}")")/.." && pwd)
aplc=${APLC:-$("$top/.ci/build")} || exit 9
[ -x /usr/bin/time ] || { echo "/usr/bin/time is not here" >&2; exit 1; }
work=$(mktemp -d) || exit 1
trap 'rm -rf "$work"' EXIT

# Each function takes its result from the next one, and all are written in the worst order.
functions() {
  awk 'BEGIN {
    print "∇MAIN\nF1 1\n∇"
    for (i = 1; i < 998; i++) print "∇R←F" i " B\nR←F" i + 1 " B\n∇"
    print "∇R←F998 B\nR←B\n∇"
  }'
}

# 999 lines, each of which branches to a line that is computed; NAMES local names, each from the one after it.
maze() { # NAMES
  awk -v names="$1" 'BEGIN {
    head = "∇MAIN"
    for (k = 0; k < names; k++) head = head ";A" k
    print head
    each = int((names + 998) / 999)
    k = 0
    for (l = 0; l < 999; l++) {
      text = ""
      for (n = 0; n < each && k < names; n++) {
        text = text (n ? "," : "") "(A" k "←" (k + 1 < names ? "A" k + 1 : "⍳3") ")"
        k++
      }
      print "→" (text == "" ? "" : "0×⍴" text ",") "1-1"
    }
    print "∇"
  }'
}

# NAMES local names, given facts in straight lines of at most so many, and a line back to the first.
names() { # NAMES
  awk -v names="$1" 'BEGIN {
    printf "∇MAIN"
    for (k = 0; k < names; k++) printf ";%s", name(k)
    printf "\n"
    each = int((names + 996) / 997)
    k = 0
    print "L:"
    for (l = 0; l < 997; l++) {
      text = ""
      for (n = 0; n < each && k < names; n++) text = text name(k++) "←"
      print text == "" ? "" : text "1"
    }
    print "→L\n∇"
  }
  function name(k) {
    return substr("ABCDEFGHIJKLMNOPQRSTUVWXYZabcdef", k % 32 + 1, 1) substr("ABCDEFGHIJKLMNOPQRSTUVWXYZabcdef", int(k / 32) % 32 + 1, 1) substr("ABCDEFGHIJKLMNOPQRSTUVWXYZabcdef", int(k / 1024) + 1, 1)
  }'
}

globals() { # NAMES: each from the one after it
  awk -v names="$1" 'BEGIN {
    f = 0
    print "∇MAIN"
    for (k = 0; k < names; k++) {
      if (k % 900 == 899) print "∇\n∇F" ++f
      print name(k) "←" name(k + 1)
    }
    print name(names) "←⍳3\n∇"
  }
  function name(k) {
    return substr("ABCDEFGHIJKLMNOPQRSTUVWXYZabcdef", k % 32 + 1, 1) substr("ABCDEFGHIJKLMNOPQRSTUVWXYZabcdef", int(k / 32) % 32 + 1, 1) substr("abcdefghijklmnopqrstuvwxyzABCDEF", int(k / 1024) + 1, 1)
  }'
}

axes() { # each line has 128 values of eight axes
  awk 'BEGIN {
    print "∇MAIN\nA←1 1 1 1 1 1 1 1⍴5"
    text = "A"
    for (i = 1; i < 128; i++) text = text "+A"
    for (l = 0; l < 900; l++) print "B←" text
    print "∇"
  }'
}

seconds_and_memory() { # FILE
  /usr/bin/time -f '%e s %M KiB' -o "$work/time" "$aplc" "$1" >"$work/out" 2>&1 </dev/null
  tail -n 1 "$work/time"
}

measure() { # NAME COMMAND..
  name=$1
  shift
  "$@" >"$work/source.apl"
  { cat "$work/source.apl"; printf '∇MAIN\n∇\n'; } >"$work/again.apl"
  bytes=$(wc -c <"$work/source.apl")
  taken=$(seconds_and_memory "$work/source.apl")
  said=$(head -n 1 "$work/out" | cut -c -60)
  printf '%-40s %7d bytes  %s (reading alone %s)  %s\n' "$name" "$bytes" "$taken" "$(seconds_and_memory "$work/again.apl")" "$said"
}

measure '999 functions, each from the next' functions
measure '999 computed branches, 10 names' maze 10
measure '999 computed branches, 100 names' maze 100
measure '999 computed branches, 1000 names' maze 1000
measure '999 lines, 5000 local names' names 5000
measure '999 lines, 20000 local names' names 20000
measure "20000 global names" globals 20000
measure '256 nodes of eight axes a line' axes
