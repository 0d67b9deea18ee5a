#!/usr/bin/env bash
# The stack of each exported function. All is bound at the start of the program, so that the loader's own work is not measured.
set -eu
cd "$(dirname "$0")/.."
gcc -std=c11 -O2 -Wall -Wextra -Werror -Iinclude tests/stack.c target/staticlib/libsailgarnet.a -Wl,-z,now -o target/stack
target/stack
