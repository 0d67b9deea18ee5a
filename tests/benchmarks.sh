#!/usr/bin/env bash
# Writes docs/BENCHMARKS.md: the machine, and what the measuring commands print here and now.
set -eu
cd "$(dirname "$0")/.."
library=target/staticlib/libsailgarnet.a
bash tests/stack.sh > target/stack.md
make --no-print-directory instructions > target/instructions.md
load=$(cut -d' ' -f1 /proc/loadavg)
make --no-print-directory bench > target/bench.md

cat > docs/BENCHMARKS.md <<PAGE
# Benchmarks

Planner, checker, bring-up and its checker, writer and describer of the library, beside the independent reference in
\`host/reference\` on the same inputs. This page is written by \`make benchmarks\`; each table is what the command
above it prints.

| | |
|---|---|
| processor | $(sed -n 's/^model name[^:]*: //p' /proc/cpuinfo | head -n 1), $(grep -c '^processor' /proc/cpuinfo) cores |
| load average before the times were taken | $load |
| library | \`$(rt version)\`, $(stat -c %s "$library") bytes, SHA-256 $(sha256sum "$library" | cut -c 1-16).. |
| reference | \`$(rustc --version)\`, release profile of \`host/Cargo.toml\` |
| C compiler | \`$(gcc --version | head -n 1)\` |
| counting | \`$(valgrind --version)\`, tool callgrind |

## Inputs

*bench* is the bench station, W4 and W5 from the states before them. *full* is a table of 32 resources and 32 devices,
each device below the one before, each with every object and five sets that are
not empty; seven devices are armed; the last device moves between D0 and D3cold, its own call and 24 resources to
switch; *arming again* gives an armed device another wake pair. The other rows are refusals of the full table, each at
the last place that can be bad
where there is one: the answer number says at which stage.

Sleep entry for S3, which the planner alone has, is on the bench station with the camera armed for S3 and D2, and on a full
table with other needs: device d needs resource d in D0 to D2 and the next one in D3hot, after the last resource the first;
\`_S3D\` is D3hot for all; seven devices are armed for S3 and D3hot. From D0 every device moves, most of them with an own
call, one \`_ON\` and one \`_OFF\`; from the state afterwards none moves. Its two refusals are of this table, at the last
device: it is armed for S2, which is not the S3 that is asked for (20); and for S4 it is armed for D0 while its parent goes
to D3hot, so that it has no state left (21).

Bring-up and its checker have the bench station with the camera in D3hot and r2 alone on, and the full table with every
device armed in D0 and nothing on, or in D3cold and all on, so that every resource is to be switched. Their refusals are of
the full table with all to be turned on: the wake pair of the last device, a plan that is one byte too short, and the last
word of the list.

Writer and describer have the bench station, and a station of 32 resources and 32 devices with every object and
every bit of every set. Their refusals are of that station: the last field of the last device for the writer, a buffer for
the devices that is one byte too short for the describer. The inputs are in \`host/cases/src/workload.rs\`.

The rows of *version 2* have the same on tables of 64 resources and 64 devices: the last device moves with its own call and
56 resources to switch, fifteen devices are armed, and every set of the station to write and describe has 64 bits. The
*double-camera line* is \`examples/double-camera.pwt\`, a table of version 2 with 47 resources and 41 devices, fresh: its
panel goes to D3hot, it is prepared for S3, and it is brought up with nothing on. All other rows are of version 1.

## Time

\`make bench\`:

$(cat target/bench.md)

Neither side has a hint on what to inline. Of the requests on a full table those with most calls have the highest ratios:
the planner sorts the keys by insertion, with a branch for each key that the processor cannot foresee, and the checker
looks at each word. So it is at bring-up. On the bench station the table is small, and the call itself, a buffer that has
room for version 2, the state, the change by value and the decoding of each word weigh more. There a value that is
stored in parts and read as one soon after shows in the time and not in the instructions: the read waits until the parts
have been stored. Where a list of words or a slice was handed on so, it is handed on so no longer; the own call in a
change, two bytes, still is. Of sleep entry the ratio is low where many devices move: what the devices above and below
need is carried from move to move, and the reference works it out for each.

## Instructions

\`make instructions\`: instructions of one call, counted, so other programs on the machine do not change them. In each
count are those of the benchmark's own call,
about thirty on either side.

$(cat target/instructions.md)

## Stack

\`bash tests/stack.sh\`: bytes of the stack that a call overwrites, measured on a painted stack. The gate fails at 8192.

$(cat target/stack.md)
PAGE
