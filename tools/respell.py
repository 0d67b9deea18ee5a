#!/usr/bin/env python3
"""Respells the repository's own definitions and lemmas as today's Rattle does: words in snake case, types in camel case.

usage: python3 tools/respell.py          at the top of the repository, once, right after the kit's port.py

A word is what a file of specs/ or proofs/ declares: a definition, a lemma, a field, a constructor, a set of lemmas. A name in lower camel
case (`firstN`) gets underscores, and so does a name with dashes (`member-zero`). Names of functions, of goals and of the libraries stay as
they are. Where two names fall together the lemma gets `_lem`, as the kit's own lemmas do. What a `Proof.antt` declares for its own goals is
left alone. The script stops, and writes nothing, where a new name stands already for something else.
"""
import collections
import glob
import re
import sys

TOKEN = re.compile(r"[A-Za-zℕℤ◌₀-₉'_∘][\w◌'₀-₉≡≢≤<>+*/%^∷-]*(?:-[\w'₀-₉≡≢≤<>+*/%^]+)*")
DECLARED = re.compile(r"^\s*(?:(?:pub|abbrev|unfoldable) )*([a-z][\w'-]*)(?: *\{[^}]*\})*(?: \([^)]*\))* :(?: |$)")
NAMED = re.compile(r"^\s*(?:pub )?ruleset (?:pub )?([a-z][\w'-]*)")
# Words whose parts the rule below would cut otherwise.
APART = {"notShallowerOrD0": "not_shallower_or_d0", "noS0D": "no_s0d", "noSxD": "no_sxd", "noSxW": "no_sxw",
         "noneMoves": "none_moving"}  # a lemma and a function are named `none_moves`
# Names that port.py respells itself in specs/, proofs/ and src/: this script turns them in the edits and the pages.
BY_PORT = """andThen byteAt callOf callWords countD countOf endSet endsAt entryAt firstOf imageOf isMove keyOf listOf numberAt numberIn
numberOf ofBytes onAfter onWord orderIn ownWords placeIn placeOf startOf stateOf valueOf wordBytes wordOf wordsIn
all-hold fields-back list-at needed-of none-is none-of ready-at same-after values-same""".split()
# Lemmas that stood in snake case already and have the name of a definition: the definition gets the name.
TOGETHER = ("in_order", "no_room", "every_of", "version_of")


def snake(name):
    if name in APART:
        return APART[name]
    name = re.sub(r"([a-z0-9])([A-Z])", r"\1_\2", name)
    name = re.sub(r"([A-Z])([A-Z][a-z])", r"\1_\2", name)
    return name.replace("-", "_").lower()


def sources():
    return sorted(glob.glob("crates/*/specs/**/*.antt", recursive=True) + glob.glob("crates/*/proofs/**/*.antt", recursive=True))


def read(path):
    with open(path, encoding="utf-8") as f:
        return f.read()


def declared():
    """The words to respell, and those that stand already."""
    words = set()
    for path in sources():
        goals = re.search(r"/proofs/.+/(Proof|Answers|Invariants)\.antt$", path)
        for line in read(path).split("\n"):
            m = DECLARED.match(line) or NAMED.match(line)
            if m and not goals:
                words.add(m.group(1))
    return {w for w in words if re.search(r"[A-Z]|-", w)}, words


def lent():
    """Names that some file takes from a library: these keep their spelling."""
    names = set()
    for path in sources():
        for m in re.finditer(r"^(?:pub )?use (\S+)\.\{([^}]*)\}", read(path), flags=re.M):
            crate = re.match(r"Rattle\.(\w+)\.", m.group(1))
            if not crate or crate.group(1) == "std":
                names.update(n.strip() for n in m.group(2).split(","))
    return names


def main():
    turn, words = declared()
    turn -= lent()
    new = {w: snake(w) for w in sorted(turn)}
    camel = {n for w, n in new.items() if "-" not in w}
    for w in sorted(turn):
        if "-" in w and (new[w] in words or new[w] in camel):
            new[w] += "_lem"
    for w in TOGETHER:
        if w in words and w in camel:
            new[w] = w + "_lem"
    tokens = collections.Counter()
    for path in sources() + sorted(glob.glob("crates/*/src/**/*.rt", recursive=True)):
        tokens.update(TOKEN.findall(re.sub(r"^\s*(--|//).*", "", read(path), flags=re.M)))
    by_new = collections.defaultdict(list)
    for w, n in new.items():
        by_new[n].append(w)
    for n, ws in sorted(by_new.items()):
        if len(ws) > 1 or n in words or ("-v" in sys.argv and tokens[n]):
            print(n, "<-", ws, "declared" if n in words else "", tokens[n])
    if "-n" in sys.argv:
        return 0
    bad = [n for n, ws in by_new.items() if len(ws) > 1 or n in words and n not in new]
    if bad:
        print("names fall together; nothing was written")
        return 1

    def name(m):
        return new.get(m.group(), m.group())

    def word(m):
        """The same in a file of src/, where a word of TOGETHER is a function's own name."""
        return m.group() if m.group() in TOGETHER else name(m)

    pages = new | {w: snake(w) for w in BY_PORT}

    def page(m):
        return pages.get(m.group(), m.group())

    def code(text):
        return TOKEN.sub(name, text)

    def quoted(text):
        return re.sub(r"`[^`\n]*`", lambda m: TOKEN.sub(page, m.group()), text)

    def rattle(text):
        """Clauses and comments: a dash in code is a minus, so only lower camel case is turned outside `ghost use` lines."""
        def line(l):
            if re.match(r"\s*(ghost use|//)", l):
                return TOKEN.sub(word, l)
            return re.sub(r"[\w']+", word, l)
        return "\n".join(line(l) for l in text.split("\n"))

    def edit(text):
        turned = word if "file: src/" in text else page
        return "\n".join(TOKEN.sub(turned, l) if re.match(r"(old|new):", l) else quoted(l) for l in text.split("\n"))

    kinds = [("crates/*/specs/**/*.antt", code), ("crates/*/proofs/**/*.antt", code), ("crates/*/src/**/*.rt", rattle),
             ("crates/*/must-fail/*.edit", edit), ("README.md", quoted), ("docs/**/*.md", quoted)]
    for pattern, turned in kinds:
        for path in sorted(glob.glob(pattern, recursive=True)):
            old = read(path)
            text = turned(old)
            if text != old:
                with open(path, "w", encoding="utf-8") as f:
                    f.write(text)
    print(f"{len(new)} names respelled")
    return 0


if __name__ == "__main__":
    raise SystemExit(main())
