#!/usr/bin/env bash
# Prints how much memory the built program takes for each byte of a source, for the largest source of each kind and for one
# of half its size. It is to be 256 bytes at most, and the same for both. What the program takes for an empty MAIN is left out.
set -u
export LC_ALL=C
top=$(cd "$(dirname "$(readlink -f "${BASH_SOURCE[0]}")")/.." && pwd)
aplc=$("$top/.ci/build") || exit 9
[ -x /usr/bin/time ] || { echo "/usr/bin/time is not here" >&2; exit 1; }
export GLIBC_TUNABLES="${GLIBC_TUNABLES:-glibc.malloc.mmap_threshold=131072}" # as ./aplc has it
work=$(mktemp -d) || exit 1
trap 'rm -rf "$work"' EXIT
most=262144

times() { # COUNT TEXT
  for ((i = 0; i < $1; i++)); do printf '%s' "$2"; done
}

# lines SIZE LINE: functions of 999 such lines, of at most so many bytes in all. In a line `#` is its number among all lines.
lines() {
  line=$2 awk -v size="$1" 'BEGIN {
    left = size - 40
    for (f = 0; f < 999; f++) {
      print f ? "∇F" f : "∇MAIN"
      left -= 16
      for (n = 0; n < 999; n++) {
        text = ENVIRON["line"]
        count++
        if (text ~ /#/) gsub(/#/, count, text)
        left -= length(text) + 1
        if (left < 0) break
        print text
      }
      print "∇"
      if (left < 0) exit
    }
  }'
}

declared() { # SIZE
  for ((i = 0; i < $1 / 24; i++)); do echo "VAR A$i NUM RANK 0"; done
  printf '∇MAIN\n∇\n'
}

filled() { # SIZE BEFORE UNIT AFTER: the unit again and again between two texts
  printf "$2"
  head -c $((($1 - 40) / ${#3} * ${#3})) < <(yes "$3" | tr -d '\n')
  printf "$4"
}

source_of() { # KIND SIZE
  case $1 in
  sums) lines "$2" "$(times 127 '1+')1" ;;
  'short lines') lines "$2" 1 ;;
  parentheses) lines "$2" "$(times 32 '(')1$(times 32 ')')" ;;
  'empty lines') lines "$2" '' ;;
  'empty lines below') printf '∇MAIN\n∇\n'; yes '' | head -n $(($2 - 40)) ;;
  comments) lines "$2" "$(times 60 '⍝')" ;;
  'one name') lines "$2" "$(times 127 'A,')A" ;;
  'many names') lines "$2" 'A#,B#,C#,D#' ;;
  assignments) lines "$2" 'A#←1' ;;
  labels) lines "$2" 'L#:' ;;
  calls) lines "$2" F1 ;;
  branches) lines "$2" '→1' ;;
  'index lists') lines "$2" "A[$(times 250 ';')]" ;;
  texts) lines "$2" "$(times 80 "'',")''" ;;
  'long texts') lines "$2" "'$(times 250 x)'" ;;
  'long numbers') lines "$2" "$(times 125 '1 ')" ;;
  'signs of functions') lines "$2" "$(times 255 '-')1" ;;
  'signed sums') lines "$2" "$(times 84 '1--')1" ;;
  declarations) declared "$2" ;;
  'local names') filled "$2" '∇MAIN' ';X' '\n∇\n' ;;
  'open parentheses') filled "$2" '∇MAIN\n' '(' '\n∇\n' ;;
  'a line of numbers') filled "$2" '∇MAIN\n' '1 ' '\n∇\n' ;;
  'a line of quotes') filled "$2" '∇MAIN\n' "'" '\n∇\n' ;;
  esac
}

kibibytes() { # FILE: the most memory that the program takes for it
  /usr/bin/time -f %M -o "$work/time" "$aplc" "$1" >"$work/out" 2>&1 </dev/null
  tail -n 1 "$work/time"
}

printf '∇MAIN\n∇\n' >"$work/empty.apl"
least=$(kibibytes "$work/empty.apl")
for kind in sums 'short lines' parentheses 'empty lines' 'empty lines below' comments 'one name' 'many names' assignments labels calls \
  branches 'index lists' texts 'long texts' 'long numbers' 'signs of functions' 'signed sums' declarations 'local names' 'open parentheses' \
  'a line of numbers' 'a line of quotes'; do
  for size in $((most / 2)) $most; do
    source_of "$kind" $size >"$work/source.apl"
    bytes=$(wc -c <"$work/source.apl")
    taken=$(kibibytes "$work/source.apl")
    said=$(head -c 200 "$work/out" | head -n 1)
    case $said in REFUSED*) ;; *) said='compiled' ;; esac
    printf '%-20s %7d bytes %7d KiB %5d bytes each  %s\n' "$kind" "$bytes" "$taken" $(((taken - least) * 1024 / bytes)) "$said"
  done
done
