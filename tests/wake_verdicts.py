#!/usr/bin/env python3
"""The wake range (RULES.md 3.3) of each `_SxD`, absent or 0 to 3, and `_SxW`, absent or 0 to 4, for D0 to D3cold: 150 verdicts.
`wake_verdicts.py array` prints the array of crates/power/src/wake.rt, `wake_verdicts.py cases` the cases of crates/bench/stdin that arm a
device in each."""
import sys

sys.dont_write_bytecode = True
from bench_expected import ABSENT, in_range

STATES = range(5)


def pairs():
    for sxd in (ABSENT, 0, 1, 2, 3):
        for sxw in (ABSENT, 0, 1, 2, 3, 4):
            yield sxd, sxw


def named(name, x):
    return f"no `{name}`" if x == ABSENT else f"`{name}` {x}"


def array():
    print("const VERDICTS: [u32; 5] = [")
    for sxd, sxw in pairs():
        row = "0b" + "".join("1" if in_range(sxd, sxw, x) else "0" for x in reversed(STATES))
        shift = 0 if sxw == ABSENT else 5 * (sxw + 1)
        before = f"        | {row} << {shift}" if shift else f"    {row}"
        print(f"{before}{',' if sxw == 4 else ''} // {named('_SxD', sxd)}, {named('_SxW', sxw)}")
    print("];")


def cases():
    print("# Arming for S3 and each of D0 to D3cold, with each `_S3D` and `_S3W` in a table of one device. Its `_PRW` and `_PR0` to `_PR3` are")
    print("# empty. A table with `_S3D` above `_S3W` is refused")
    for sxd, sxw in pairs():
        values = [ABSENT, ABSENT, sxd, ABSENT, ABSENT, ABSENT, ABSENT, sxw, ABSENT, 4]  # _S1D to _S4D, _S0W to _S4W, deepest
        record = bytes([0xff, 0x00, 0x0f, 0x01, *bytes(20), *values, *bytes(6)])
        print(f"# {named('_S3D', sxd)}, {named('_S3W', sxw)}")
        print("T")
        print("+ 01 50 57 54 00 01 00 01 00")
        print("+ 01 " + record.hex(" "))
        print("F")
        for x in STATES:
            print(f"Q 02 00 03 {x:02x}")


if __name__ == "__main__":
    {"array": array, "cases": cases}[sys.argv[1]]()
