#!/usr/bin/env bash
# Every step of the gate, in order. A step passes or fails as one; `rt ci` counts its own. The last line is the sum of them.
# With the word 'quick' it proves by `rt all check` in place of `rt ci`, tries no must-fail edit and runs no random cases for a minute.
set -u
cd "$(dirname "$0")/.." || exit 1
quick=${1:-}
passed=0
failed=0

step() {
  local began=$SECONDS
  echo "== $*"
  if "$@"; then passed=$((passed + 1)); else failed=$((failed + 1)); echo "FAILED: $*"; fi
  echo "-- $((SECONDS - began)) s"
}

# rt ci refuses what is not laid out, proves every crate, tries the must-fail edits and runs the program. An edit that can no longer be
# tried (on the line 'rt: ok', ', N bad') fails here, though not there
proofs() {
  local began=$SECONDS log status last ok
  log=$(mktemp)
  echo "== rt ci"
  rt ci > "$log" 2>&1
  status=$?
  last=$(tail -n 1 "$log")
  ok=$(grep '^rt: ok' "$log")
  if [ "$status" -eq 0 ] && [[ $last =~ ^[0-9]+\ passed,\ 0\ failed$ ]] && [ -n "$ok" ] && [[ ! $ok =~ ,\ [0-9]+\ bad ]]; then
    passed=$((passed + ${last%% passed*}))
    grep '^rt: ' "$log" | tail -n 200
  else
    tail -n 200 "$log"
    failed=$((failed + 1))
    echo "FAILED: rt ci (status $status)"
  fi
  echo "-- $((SECONDS - began)) s"
  rm -f "$log"
}

# the library's exports have the words of the functions that they call, but for the bodies
same_exports() {
  local called exported
  called=$(exports sailgarnet)
  exported=$(exports sailgarnet_c)
  [ -n "$called" ] && diff <(echo "$called") <(echo "$exported")
}

# the heads of a crate's exported functions, with their clauses
exports() {
  sed -n '/^#\[unsafe(no_mangle)\]/,/^{/p' "crates/$1/src/lib.rt"
}

# the program's stored output is what an independent script works out by the rules of docs/RULES.md
stored_output() {
  python3 tests/bench_expected.py "$1" | diff - "crates/$1/stdout"
}

# the array of wake verdicts and the cases that arm a device in each of them are as the script prints them, comments too
wake_verdicts() {
  python3 tests/wake_verdicts.py array | diff - <(sed -n '/^const VERDICTS/,/^];/p' crates/power/src/wake.rt) &&
    python3 tests/wake_verdicts.py cases | diff - <(sed -n '/^# Arming for S3 and each/,/^$/p' crates/bench/stdin | sed '/^$/d')
}

# the host side over the proved library: the wrapper, the comparison with the independent reference, the command
host() {
  local log status sums
  log=$(mktemp)
  echo "== cargo test (host)"
  cargo test --offline --manifest-path host/Cargo.toml --workspace > "$log" 2>&1
  status=$?
  sums=$(awk '/^test result:/ { p += $4; f += $6 } END { print p + 0, f + 0 }' "$log")
  grep -E '^test result:|FAILED|panicked' "$log"
  passed=$((passed + ${sums% *}))
  failed=$((failed + ${sums#* }))
  if [ "$status" -ne 0 ] || [ "${sums% *}" -eq 0 ]; then
    [ "${sums#* }" -gt 0 ] || failed=$((failed + 1))
    tail -n 40 "$log"
    echo "FAILED: cargo test (status $status)"
  fi
  rm -f "$log"
}

# the header is valid in each language, and its own functions read and write what they say
header() {
  local strict=(-Wall -Wextra -Wpedantic -Wconversion -Werror -Iinclude tests/header.c -o target/header)
  gcc -std=c99 "${strict[@]}" && target/header && gcc -std=c11 "${strict[@]}" && target/header &&
    g++ -std=c++17 "${strict[@]}" && target/header
}

# the program $1 of examples/ against the proved library, with other flags in the rest
example() {
  gcc -std=c99 -Wall -Wextra -Wpedantic -Werror -Iinclude "${@:2}" "examples/$1.c" target/staticlib/libsailgarnet.a -o "target/$1" &&
    "target/$1" | diff - "examples/$1.out"
}

# every exported function with each lent buffer beside a page that may not be touched
fence() {
  gcc -std=c99 -O2 -Wall -Wextra -Wpedantic -Werror -Iinclude tests/fence.c target/staticlib/libsailgarnet.a -o target/fence && target/fence
}

# the pictures in docs are what is drawn today, the traces by the command and the crates from crates.txt
pictures() {
  local picture
  bash tests/pictures.sh target > /dev/null || return 1
  for picture in trace-w4 trace-w5 trace-sleep crates; do
    diff "docs/$picture.svg" "target/$picture.svg" || return 1
  done
}

step stored_output bench
step wake_verdicts
step same_exports
if [ "$quick" = quick ]; then step bash tests/prove.sh check; else proofs; fi
step bash tests/prove.sh library
step header
step example board -O2
step example board -g -fsanitize=address,undefined
step example edit -O2
step example edit -g -fsanitize=address,undefined
step example sleep -O2
step example sleep -g -fsanitize=address,undefined
step example wide -O2
step example wide -g -fsanitize=address,undefined
step bash tests/stack.sh
step fence
host
step python3 tests/readme.py
step pictures
step bash tests/install.sh
[ "$quick" = quick ] || step make --no-print-directory soak SECONDS=60 SEED=1
echo "$passed passed, $failed failed"
[ "$failed" -eq 0 ]
