# For the scripts beside it: the least time of several runs of a command, in microseconds, and the same to read.

# COUNT COMMAND..: the least of so many runs
least() {
  count=$1; shift
  best=
  for ((run = 0; run < count; run++)); do
    start=$(date +%s%N); "$@" >/dev/null 2>&1 </dev/null; end=$(date +%s%N)
    spent=$(((end - start) / 1000))
    if [ -z "$best" ] || [ "$spent" -lt "$best" ]; then best=$spent; fi
  done
  echo "$best"
}

milliseconds() { # microseconds
  printf '%d.%03d ms' $(($1 / 1000)) $(($1 % 1000))
}
