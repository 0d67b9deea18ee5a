#!/usr/bin/env python3
"""Prints a picture, as SVG, of which crate stands on which, read from crates.txt.

A line leads down to each crate that is not reached through another one, so the picture has the fewest lines that say the same.
"""

BOX, GAP, TOP, MARGIN, NARROWEST = (116, 28), (28, 20), 64, 20, 400

STYLE = """text { font: 13px system-ui, sans-serif; fill: #222 }
.title { font-size: 17px; font-weight: 600 }
.middle { text-anchor: middle }
.crate { fill: #d5e6f5; stroke: #1c5a91 }
.line { fill: none; stroke: #777; stroke-width: 1.5 }"""


def crates():
    """The crates in the order of crates.txt, each with those of them that it depends on; crates of the kit have no line there."""
    with open("crates.txt", encoding="utf-8") as file:
        lines = [line.split("#")[0].split(":") for line in file]
    # a static library has this word after its name
    needs = {line[0].removesuffix(" staticlib").strip(): line[1].split() for line in lines if len(line) == 2}
    return {crate: [other for other in others if other in needs] for crate, others in needs.items()}


def below(needs, crate):
    """All crates that a crate stands on, in the order of crates.txt."""
    found, left = set(), [crate]
    while left:
        others = set(needs[left.pop()]) - found
        found |= others
        left += others
    return [other for other in needs if other in found]


def direct(needs):
    """For each crate those that it does not reach through another one."""
    return {crate: [c for c in others if not any(c in below(needs, other) for other in others)] for crate, others in needs.items()}


def layers(needs):
    """From the bottom, what stands side by side: crates, and lines (lower, upper) that pass on their way up."""
    def height(crate):
        return max((height(other) + 1 for other in needs[crate]), default=0)

    lines = [(lower, upper) for upper in needs for lower in needs[upper]]
    for at in range(max(map(height, needs)) + 1):
        passing = [line for line in lines if height(line[0]) < at < height(line[1])]
        yield [crate for crate in needs if height(crate) == at] + passing


def places(needs):
    """Where each crate and each passing line has its centre, as the points (x, layer) from below, x from the middle of the picture. Those
    of a layer are in the order of what they stand on."""
    points = {}

    def over(item):
        lowers = [(lower, item) for lower in needs[item]] if isinstance(item, str) else [item]
        centres = [points[line if line in points else line[0]][-1][0] for line in lowers]
        return sum(centres) / len(centres) if centres else 0

    for at, items in enumerate(layers(needs)):
        items.sort(key=over)
        for i, item in enumerate(items):
            x = (i - (len(items) - 1) / 2) * (BOX[0] + GAP[0])
            points.setdefault(item, []).append((x, at))
    return points


def svg(needs):
    points = places(needs)
    every = [point for line in points.values() for point in line]
    rows = 1 + max(at for _, at in every)
    middle = max(NARROWEST // 2, MARGIN + BOX[0] // 2 + max(round(x) for x, _ in every))
    width, height = 2 * middle, TOP + rows * (BOX[1] + GAP[1]) - GAP[1] + MARGIN

    def top(at):
        return TOP + (rows - 1 - at) * (BOX[1] + GAP[1])

    yield f'<svg xmlns="http://www.w3.org/2000/svg" width="{width}" height="{height}" viewBox="0 0 {width} {height}">'
    yield f"<title>Which crate stands on which</title>\n<style>\n{STYLE}\n</style>"
    yield f'<rect width="{width}" height="{height}" fill="#fff"/>'
    yield f'<text x="{MARGIN}" y="26" class="title">Which crate stands on which</text>'
    yield f'<text x="{MARGIN}" y="46">A crate uses only crates that lines lead down to.</text>'
    for upper in needs:
        for lower in needs[upper]:
            path = [points[lower][0], *points.get((lower, upper), []), points[upper][0]]
            ends = [f"{middle + x:g},{y}" for x, at in path for y in (top(at) + BOX[1], top(at))]
            yield f'<polyline class="line" points="{" ".join(ends[1:-1])}"/>'
    for crate in needs:
        x, at = points[crate][0]
        yield f'<rect class="crate" x="{middle + x - BOX[0] / 2:g}" y="{top(at)}" width="{BOX[0]}" height="{BOX[1]}" rx="4"/>'
        yield f'<text class="middle" x="{middle + x:g}" y="{top(at) + 19}">{crate}</text>'
    yield "</svg>"


if __name__ == "__main__":
    print("\n".join(svg(direct(crates()))))
