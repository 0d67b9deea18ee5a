#!/usr/bin/env python3
"""What README.md and host/README.md show is true: their programs are the files they name, their commands print what they say, the library
calls what they say, their links and those of docs/STATION-TEXT.md and docs/changes lead to a file and a heading of it, and the map has every
crate."""

import glob
import os
import re
import shutil
import subprocess
import sys
import tempfile

sys.dont_write_bytecode = True
from crates_svg import below, crates

PREFIX = "/opt/sailgarnet"


def read(name):
    with open(name, encoding="utf-8") as file:
        return file.read()


def block(text, start):
    """The lines of the indented block that begins with these words."""
    found = re.search(rf"^    {re.escape(start)}(?:.*\n    )*.*$", text, re.MULTILINE)
    if not found:
        sys.exit(f"no block begins with: {start}")
    return [line[4:] for line in found[0].splitlines()]


def run(commands):
    done = subprocess.run(["bash", "-euc", commands], capture_output=True, text=True)
    if done.returncode != 0:
        sys.exit(f"{commands}\nfails:\n{done.stdout}{done.stderr}")
    return done.stdout.splitlines()


def program(page, language, name, command):
    """A program is shown as it stands in its file, and the command prints the rest of its block."""
    shown = re.search(rf"^```{language}\n(.*?)^```\n", page, re.MULTILINE | re.DOTALL)
    if not shown or shown[1] != read(name):
        sys.exit(f"the {language} program is not {name}")
    line, *expected = block(page, command)
    printed = run(line)
    if printed != expected:
        sys.exit("\n".join([line, "prints", *printed]))
    return expected


def installed(page, expected):
    """The commands with `make install` print the same at the end; here with a folder that is removed again."""
    if not shutil.which("pkg-config"):
        return
    with tempfile.TemporaryDirectory() as folder:
        printed = run("\n".join(block(page, "make install")).replace(PREFIX, folder))
    if printed[-len(expected):] != expected:
        sys.exit("\n".join(["make install and what follows it print", *printed]))


def proving(page):
    """The lines of `make run` while it proves: the crates below the exported functions, in the order of crates.txt."""
    proved = [*below(crates(), "sailgarnet_c"), "sailgarnet_c"]
    lines = [f"{i:2} of {len(proved)}  {crate:12}  N s" for i, crate in enumerate(proved, 1)]
    shown = block(page, "Proving")
    if not shown[0].startswith(f"Proving {len(proved)} crates,") or shown[1:] != [*lines[:2], " ..", lines[-1]]:
        sys.exit("make run proves other crates than README.md says:\n" + "\n".join(lines))


def plans(page):
    """A plan is shown as the command prints it."""
    shown = "\n".join(block(page, "Request: "))
    if f"\n{shown}\n" not in read("examples/demo.out"):
        sys.exit(f"not in examples/demo.out:\n{shown}")


def command(page, heading, start, first=None):
    """The first command of this section that begins so prints what is shown below it, after the block of commands that begins with `first`,
    if there is one; in a folder that is removed again."""
    section = page[page.index(f"\n## {heading}\n"):]
    line, *expected = block(section, start)
    cargo = f"cargo run --quiet --offline --manifest-path '{os.getcwd()}/host/Cargo.toml' -p sailgarnet-cli --"
    with tempfile.TemporaryDirectory() as folder:
        os.symlink(os.path.abspath("examples"), os.path.join(folder, "examples"))
        before = [f'sailgarnet() {{ {cargo} "$@"; }}', f"cd '{folder}'", *(block(section, first) if first else [])]
        printed = run("\n".join([*before, "echo --", line]))
    if printed[printed.index("--") + 1:] != expected:
        sys.exit("\n".join([line, "prints", *printed]))


def called(page):
    """Which functions of the C library the library calls."""
    lines = run("nm --undefined-only target/staticlib/libsailgarnet.a")
    names = " and ".join(f"`{line.split()[-1]}`" for line in sorted(lines) if line.startswith(" "))
    if f"It calls {names} of the C library and nothing else" not in " ".join(page.split()):
        sys.exit(f"the library calls {names}")


def mapped(page):
    """The map has a row for each crate, and each of its places is there."""
    places = re.findall(r"^\| `([^`]+)` \|", page, re.MULTILINE)
    wrong = [place for place in places if not os.path.isdir(place)]
    wrong += [crate for crate in crates() if f"crates/{crate}" not in places]
    if wrong:
        sys.exit(f"the map and the folders differ: {' '.join(wrong)}")


def headings(name):
    """The headings of a page, as links name them."""
    lines = re.findall(r"^#+ (.*)$", read(name), re.MULTILINE)
    return {re.sub(r"[^\w -]", "", line.lower()).replace(" ", "-") for line in lines}


def links(name):
    for link in re.findall(r"\]\(([^)]+)\)", read(name)):
        file, _, heading = link.partition("#")
        target = os.path.join(os.path.dirname(name), file) if file else name
        if not os.path.exists(target) or heading and heading not in headings(target):
            sys.exit(f"{name} has a link that leads nowhere: {link}")


readme, host = read("README.md"), read("host/README.md")
program(host, "rust", "host/sailgarnet/examples/first.rs", "cargo run --quiet --offline")
installed(readme, program(readme, "c", "examples/first.c", "gcc -Iinclude"))
proving(readme)
plans(readme)
command(readme, "At power-on", "sailgarnet bring-up", "sailgarnet fresh")
command(readme, "Sleep entry", "sailgarnet plan examples/station.pwt state sleep", "sailgarnet fresh")
command(readme, "Two versions of table", "sailgarnet write")
command(readme, "Two versions of table", "sailgarnet convert")
called(readme)
mapped(readme)
links("README.md")
links("host/README.md")
links("docs/STATION-TEXT.md")
for note in sorted(glob.glob("docs/changes/*.md")):
    links(note)
