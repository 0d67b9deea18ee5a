#!/usr/bin/env bash
# What `make install` installs is enough by itself: C programs elsewhere are built with the words of sailgarnet.pc and run, and so does the
# command. Needs no pkg-config; where there is one, it must read the file as this test does.
set -euo pipefail
cd "$(dirname "$0")/.."
repository=$PWD
work=$(mktemp -d)
trap 'rm -rf "$work"' EXIT
files=$'bin/sailgarnet\ninclude/sailgarnet.h\nlib/libsailgarnet.a\nlib/pkgconfig/sailgarnet.pc'

fail() {
  echo "$*"
  exit 1
}

# make with a target, a staging folder and a prefix
run_make() {
  make -s --no-print-directory -C "$repository" "$1" DESTDIR="$2" PREFIX="$3"
}

# the files below a folder
list() {
  (cd "$1" && find . -type f | cut -c 3- | LC_ALL=C sort)
}

# a field of the .pc file $1; its variables are written as a shell has them
field() {
  (eval "$(grep -E '^[a-z]+=' "$1")" && eval "echo \"$(sed -n "s/^$2: //p" "$1")\"")
}

pkg_config_agrees() {
  local read
  read=$(PKG_CONFIG_PATH=$(dirname "$1") pkg-config --cflags --libs sailgarnet | xargs)
  [ "$read" = "$(field "$1" Cflags) $(field "$1" Libs)" ] || fail "pkg-config reads $1 as: $read"
}

use() {
  local prefix=$work/prefix pc=$work/prefix/lib/pkgconfig/sailgarnet.pc flags libs program
  run_make install '' "$prefix"
  [ "$(list "$prefix")" = "$files" ] || fail "installed: $(list "$prefix")"
  read -ra flags <<< "$(field "$pc" Cflags)"
  read -ra libs <<< "$(field "$pc" Libs)"
  if command -v pkg-config > /dev/null; then pkg_config_agrees "$pc"; fi
  cp examples/board.c examples/edit.c examples/sleep.c examples/wide.c examples/station.h "$work"
  cd "$work"
  for program in board edit sleep wide; do
    gcc -std=c99 -Wall -Wextra -Wpedantic -Werror "${flags[@]}" "$program.c" "${libs[@]}" -o "$program"
    "./$program" | diff - "$repository/examples/$program.out"
  done
  "$prefix/bin/sailgarnet" demo | diff - "$repository/examples/demo.out"
  "$prefix/bin/sailgarnet" --version | grep -x 'planner: the proved library' > /dev/null || fail "the command plans with something else"
  run_make uninstall '' "$prefix"
  [ -z "$(list "$prefix")" ] || fail "left by make uninstall: $(list "$prefix")"
}

# below DESTDIR the .pc file names the place where the files will be
stage() {
  local stage=$work/stage
  run_make install "$stage" /opt/sailgarnet
  [ "$(list "$stage/opt/sailgarnet")" = "$files" ] || fail "staged: $(list "$stage")"
  grep -qx 'prefix=/opt/sailgarnet' "$stage/opt/sailgarnet/lib/pkgconfig/sailgarnet.pc"
  run_make uninstall "$stage" /opt/sailgarnet
  [ -z "$(list "$stage")" ] || fail "left by make uninstall: $(list "$stage")"
}

use
stage
if run_make install "$work/" relative > /dev/null 2>&1; then fail "a prefix that begins without / was taken"; fi
echo "installed, used from elsewhere, staged and removed"
