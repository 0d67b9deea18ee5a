#!/usr/bin/env bash
# `prove.sh check` proves every crate (`rt all check`). `prove.sh library` proves the exported functions and the crates below them, and
# builds target/staticlib/libsailgarnet.a (`rt lib` in crates/sailgarnet_c). Prints a line for each crate when it is proved: which of how
# many, its name, the seconds since the line before. Whatever rt and the prover say is in target/prove.log; if they fail, its end is shown.
set -u
cd "$(dirname "$0")/.." || exit 2
log=target/prove.log
library=sailgarnet_c

# how many crates there are to prove: all, or the one named and what it depends on
count() {
  awk -F ':[ \t]*' -v name="$1" '
    function reach(crate,  words, n, i) {
      if (!(crate in needs) || seen[crate]++) return
      reached++
      n = split(needs[crate], words, " ")
      for (i = 1; i <= n; i++) reach(words[i])
    }
    /^[^#]/ { sub(/[ \t].*/, "", $1); needs[$1] = $2; all++ }
    END { if (name != "") { reach(name); all = reached } print all + 0 }' crates.txt
}

# one crate more
crate() {
  at=$((at + 1))
  printf '%s%2d of %d  %-12s  %s\n' "$erase" "$at" "$total" "$1" "$2"
  began=$SECONDS
}

# rt names a crate when its modules are read, and says then whether it is proved; of a crate that has not changed it says nothing
read_line() {
  if [[ $1 =~ ^crate\ ([^\ ]+):\ modules ]]; then name=${BASH_REMATCH[1]}
  elif [[ $1 == 'logic=proved '* ]]; then crate "$name" "$((SECONDS - began)) s"
  elif [[ $1 =~ ^([a-z0-9_]+):\ (failed|not\ run) ]]; then crate "${BASH_REMATCH[1]}" "NOT PROVED"
  fi
}

# the lines as they come; on a terminal the seconds run on meanwhile
progress() {
  local at=0 began=$SECONDS erase='' line='' part='' name=''
  [ -t 1 ] && erase=$'\r\e[K'
  while :; do
    if IFS= read -r -t 1 part; then
      read_line "$line$part"
      line=''
    elif [ $? -gt 128 ]; then
      line+=$part
      [ -z "$erase" ] || printf '%s%2d of %d  ..            %d s' "$erase" "$((at + 1))" "$total" "$((SECONDS - began))"
    else
      break
    fi
  done
  printf '%s' "$erase"
  echo "$at" > target/prove.count
}

# runs rt with these words in the folder $1
run() {
  local status
  (cd "$1" && rt "${@:2}") 2>&1 | tee "$log" | progress
  status=${PIPESTATUS[0]}
  if [ "$status" -ne 0 ]; then
    echo "FAILED: rt ${*:2} (status $status). The end of $log:"
    tail -n 60 "$log"
  elif [ "$(cat target/prove.count)" -lt "$total" ]; then
    echo "$((total - $(cat target/prove.count))) of $total  proved before"
  fi
  return "$status"
}

case ${1:-} in
  check) total=$(count '') ;;
  library) total=$(count "$library") ;;
  *) echo "prove.sh check or prove.sh library"; exit 2 ;;
esac
mkdir -p target/staticlib
echo "Proving $total crates, which takes some minutes the first time; what the prover says is in $log"
if [ "$1" = check ]; then
  run . all check
else
  run "crates/$library" lib && cp "crates/$library/out/lib$library.a" target/staticlib/libsailgarnet.a
fi
