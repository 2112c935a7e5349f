#!/usr/bin/env python3
"""Draws the tree that a script leaves, from what `treeshape` prints: time to the right, keys upwards, a panel a level.

    treeshape < docs/tree.script | examples/draw_shape.py > docs/tree.svg
    examples/draw_shape.py --growth docs/tree.script treeshape > docs/growth.html

The second command runs `treeshape`, or the command with the words that is given, over each prefix of the script that
ends with a commit, a split or a migration, and makes a page that steps through the trees whose nodes differ.
"""

import argparse
import html
import subprocess
import sys

WIDTH, LEFT, RIGHT, TOP, BOTTOM = 800, 58, 12, 46, 38
DATA_HEIGHT, INDEX_HEIGHT, ROOT_HEIGHT, GAP = 400, 64, 22, 10
FILLS = {"current": "#dbe8f7", "history": "#eeeeee", "packed": "url(#packed)"}
PATTERN = ('<pattern id="packed" width="6" height="6" patternUnits="userSpaceOnUse" patternTransform="rotate(45)">'
           '<rect width="6" height="6" fill="#f6ecd9"/><rect width="1.6" height="6" fill="#c9a15a"/></pattern>')
LEGEND = (("current", "current: no end"), ("history", "history: never changes"), ("packed", "history, packed"))
KEY_OF_NUMBER = "01"


class Node:
    """A line of a shape."""

    def __init__(self, line):
        level, self.low, self.high, start, end, count, packed = line.split()
        self.level, self.start, self.count = int(level), int(start), int(count)
        self.end = None if end == "-" else int(end)
        self.kind = "current" if self.end is None else "packed" if packed == "packed" else "history"

    @property
    def rectangle(self):
        return self.level, self.low, self.high, self.start, self.end


def read_shape(text):
    """Returns the nodes of a shape, which stands behind the replies to a script."""
    return [Node(line) for line in text.splitlines() if line.endswith((" loose", " packed"))]


def spoken_key(low):
    """Returns a key of one number as the number, another one in hexadecimal, and a dash where there is none."""
    if low.startswith(KEY_OF_NUMBER) and len(low) == 18:
        return str(int(low[2:], 16) - 2 ** 63)
    return low


class Axes:
    """Where instants and keys are: instants evenly, and the same room between one cut of keys and the next."""

    def __init__(self, nodes):
        cuts = sorted({node.low for node in nodes if node.low != "-"})
        self.place = {low: place for place, low in enumerate(["-", *cuts])}
        self.last = max(max(node.start, node.end or 0) for node in nodes)
        self.right = self.last + max(1, self.last // 14)
        self.bottom = max(node.level for node in nodes)
        heights = [ROOT_HEIGHT] + [INDEX_HEIGHT] * (self.bottom - 1) + [DATA_HEIGHT]
        heights = heights[-(self.bottom + 1):] if self.bottom else [DATA_HEIGHT]
        tops = [TOP + sum(heights[:level]) + GAP * level for level in range(len(heights))]
        self.panels = list(zip(tops, heights))
        self.height = tops[-1] + heights[-1] + BOTTOM

    def across(self, instant):
        instant = self.right if instant is None else instant
        return LEFT + (WIDTH - LEFT - RIGHT) * instant / self.right

    def up(self, level, key):
        top, height = self.panels[level]
        place = len(self.place) if key is None else self.place[key]
        return top + height - height * place / len(self.place)

    def box(self, node):
        """Returns the left, upper, right and lower side of a node."""
        high = None if node.high == "-" else node.high
        left, right = self.across(node.start), self.across(node.end)
        return left, self.up(node.level, high), right, self.up(node.level, node.low)


def label(x, y, words, anchor="middle", more=""):
    return f'<text x="{x:.1f}" y="{y:.1f}" text-anchor="{anchor}"{more}>{html.escape(words)}</text>'


def draw_node(axes, node, more=""):
    left, top, right, bottom = axes.box(node)
    yield (f'<g{more}><rect x="{left:.1f}" y="{top:.1f}" width="{right - left:.1f}" height="{bottom - top:.1f}" '
           f'fill="{FILLS[node.kind]}" stroke="#333333" stroke-width="0.8"/>')
    if right - left >= 14 and bottom - top >= 11:
        halo = ' stroke="#ffffff" stroke-width="2.5" paint-order="stroke"' if node.kind == "packed" else ""
        yield label((left + right) / 2, (top + bottom) / 2 + 3.5, str(node.count), more=halo)
    yield "</g>"


def instants_shown(last):
    """Returns some round instants."""
    step = 1
    while last / step > 9:
        step *= 5 if str(step)[0] in "12" and last / step > 18 else 2
    return range(step, last + 1, step)


def draw_axes(axes):
    y = axes.height - BOTTOM + 4
    for instant in instants_shown(axes.last):
        x = axes.across(instant)
        yield f'<line x1="{x:.1f}" y1="{y - 4}" x2="{x:.1f}" y2="{y}" stroke="#333333"/>'
        yield label(x, y + 12, str(instant))
    yield label((LEFT + WIDTH - RIGHT) / 2, axes.height - 6, "instant of commit")
    for low in axes.place:
        yield label(LEFT - 5, axes.up(axes.bottom, low) + (0 if low == "-" else 3.5),
                    "least" if low == "-" else spoken_key(low), "end")
    yield label(LEFT - 5, axes.panels[-1][0] + 7, "greatest", "end")
    middle = axes.panels[-1][0] + axes.panels[-1][1] / 2
    yield label(12, middle, "keys, at each cut", more=f' transform="rotate(-90 12 {middle})"')
    for level, (top, height) in enumerate(axes.panels[:-1]):
        yield label(LEFT - 5, top + height / 2 + 3.5, "root" if level == 0 else "index", "end")


def draw_legend():
    x = LEFT
    for kind, words in LEGEND:
        yield f'<rect x="{x}" y="10" width="20" height="12" fill="{FILLS[kind]}" stroke="#333333" stroke-width="0.8"/>'
        yield label(x + 26, 20, words, "start")
        x += 50 + 6 * len(words)
    yield label(x, 20, "a number: of events, in an index node of references", "start")


def picture(axes, drawn):
    """The lines of a picture with axes, a legend and what is drawn."""
    yield (f'<svg xmlns="http://www.w3.org/2000/svg" width="{WIDTH}" height="{axes.height}" '
           f'viewBox="0 0 {WIDTH} {axes.height}" font-family="sans-serif" font-size="10">')
    yield f'<defs>{PATTERN}</defs><rect width="{WIDTH}" height="{axes.height}" fill="#ffffff"/>'
    yield from draw_legend()
    yield from draw_axes(axes)
    yield from drawn
    yield "</svg>"


def draw(nodes):
    axes = Axes(nodes)
    return picture(axes, [line for node in nodes for line in draw_node(axes, node)])


# The page that steps through the growth of a tree.

PAGE = """<!DOCTYPE html>
<html lang="en"><head><meta charset="utf-8"><title>How a tree grows</title>
<meta name="viewport" content="width=device-width, initial-scale=1">
<!-- made by examples/draw_shape.py -->
<style>
:root { color-scheme: light dark }
body { font-family: sans-serif; max-width: 820px; margin: 1em auto; padding: 0 0.8em; color: CanvasText; background: Canvas }
input { width: 100%; margin: 0 } button { font-size: 1em; padding: 0.2em 0.9em } .new rect { stroke: #c0301a; stroke-width: 2 }
#what { min-height: 2.6em } #picture { overflow-x: auto } svg { width: 100%; min-width: 640px; height: auto }
</style></head><body>
<h1>How a tree grows</h1>
<p>A node that gets its 65th event or reference is split: by time while few of them would stay current, and else by key.
Each step is a commit that split a node, or a migration that packed one; what is new has a red edge. The dashed line is
the last commit, and a current node has no end. The left and right arrow keys step too.</p>
<p><button id="back">Previous</button> <button id="on">Next</button> <span id="place"></span></p>
<input id="step" type="range" min="0" value="0" aria-label="step">
<p id="what" aria-live="polite"></p>
<div id="picture" tabindex="0" role="img" aria-label="the tree">
PICTURE
</div>
<script>
"use strict";
const steps = STEPS, slider = document.getElementById("step"), nodes = [...document.querySelectorAll("g[data-from]")];
slider.max = steps.length - 1;
function countAt(node, step) {
  const counts = node.dataset.counts.split(" ").map(pair => pair.split(":").map(Number));
  return counts.filter(pair => pair[0] <= step).pop()[1];
}
function show(step) {
  slider.value = step;
  for (const node of nodes) {
    const from = Number(node.dataset.from), there = from <= step && step < Number(node.dataset.to);
    node.style.display = there ? "" : "none";
    node.classList.toggle("new", there && from === step && step > 0);
    const text = node.querySelector("text");
    if (there && text) text.textContent = countAt(node, step);
  }
  const [line, commits, x, words] = steps[step], now = document.getElementById("now");
  now.setAttribute("x1", x);
  now.setAttribute("x2", x);
  document.getElementById("place").textContent =
    `step ${step + 1} of ${steps.length}: line ${line} of the script, ${commits} commit${commits === 1 ? "" : "s"}`;
  document.getElementById("what").textContent = words;
}
function move(by) { show(Math.min(steps.length - 1, Math.max(0, Number(slider.value) + by))); }
document.getElementById("back").onclick = () => move(-1);
document.getElementById("on").onclick = () => move(1);
slider.oninput = () => show(Number(slider.value));
document.onkeydown = event => {
  if (event.target !== slider && event.key === "ArrowLeft") move(-1);
  if (event.target !== slider && event.key === "ArrowRight") move(1);
};
show(0);
</script></body></html>
"""


class Step:
    """The tree behind a line of a script, where it has other nodes than the one before."""

    def __init__(self, line, commits, nodes):
        self.line, self.commits, self.nodes = line, commits, nodes

    @property
    def kinds(self):
        return {node.rectangle: node.kind for node in self.nodes}

    @property
    def depth(self):
        return max(node.level for node in self.nodes)

    @property
    def by_height(self):
        """The nodes by how far they are above the data nodes, and by their rectangles."""
        return {(self.depth - node.level, *node.rectangle[1:]): node for node in self.nodes}


def steps_of(script, command):
    """Yields the steps of a script."""
    lines, commits, before = script.splitlines(keepends=True), 0, None
    for number, line in enumerate(lines, 1):
        words = line.upper()
        commits += "COMMIT" in words
        if not any(word in words for word in ("COMMIT", "SPLIT", "MIGRATE")):
            continue
        ran = subprocess.run(command, input="".join(lines[:number]), stdout=subprocess.PIPE, text=True, check=True)
        step = Step(number, commits, read_shape(ran.stdout))
        if step.kinds != before:
            before = step.kinds
            yield step


def range_of(node):
    low, high = (spoken_key(key) for key in (node.low, node.high))
    if node.low == "-":
        keys = "all keys" if node.high == "-" else f"keys below {high}"
    else:
        keys = f"keys from {low}" if node.high == "-" else f"keys from {low} to below {high}"
    instants = f"from instant {node.start}" if node.end is None else f"instants {node.start} to below {node.end}"
    return f"{keys}, {instants}"


def split_words(old, halves, kind):
    """Returns how a node was split into halves, in words."""
    what = f"The {kind} of {range_of(old)}, was full, and was split by "
    later = [half.start for half in halves if half.start > old.start and half.end is None]
    if later and all(half.low == old.low and half.high == old.high for half in halves):
        return what + f"time, at {max(later)}."
    return what + f"key, at {spoken_key(max(half.low for half in halves))}."


def words_of(before, after):
    """Returns what happened from one tree to the next, in words."""
    if before is None:
        return "The first commit: one data node, which is the root."
    sentences = []
    was, now = (step.by_height for step in (before, after))
    for place, node in sorted(was.items(), key=lambda item: (item[0][0], item[1].start, item[1].low)):
        if place not in now:
            halves = [other for other_place, other in now.items()
                      if other_place not in was and other_place[0] == place[0] and inside(other, node)]
            sentences.append(split_words(node, halves, "index node" if place[0] else "data node"))
        elif now[place].kind != node.kind:
            sentences.append(f"The data node of {range_of(node)}, was packed.")
    if after.depth > before.depth:
        sentences.append("It was the root, and a new root refers to both halves.")
    return " ".join(sentences)


def inside(node, other):
    """Whether a node lies in the rectangle of another one."""
    high = other.high == "-" or (node.high != "-" and node.high <= other.high)
    low = other.low == "-" or (node.low != "-" and node.low >= other.low)
    return low and high and node.start >= other.start


def spans_of(steps):
    """Yields each node as it looks, with the step that it comes with, the one that ends it, and its counts by step."""
    shown = {}
    for place, step in enumerate([*steps, None]):
        looks = {} if step is None else {(node.rectangle, node.kind): node for node in step.nodes}
        for look in [look for look in shown if look not in looks]:
            node, first, counts = shown.pop(look)
            yield node, first, place, counts
        for look, node in looks.items():
            _, _, counts = shown.setdefault(look, (node, place, []))
            if not counts or counts[-1][1] != node.count:
                counts.append((place, node.count))


def same_depth(steps):
    """Counts the levels of all steps from the data nodes of the last, so that each has its panel."""
    deepest = max(step.depth for step in steps)
    for step in steps:
        less = deepest - step.depth
        for node in step.nodes:
            node.level += less


def growth(script, command):
    """Returns a page of the steps of a script."""
    steps = list(steps_of(script, command))
    told = [words_of(before, after) for before, after in zip([None, *steps], steps)]
    same_depth(steps)
    axes = Axes([node for step in steps for node in step.nodes])
    drawn = []
    for node, first, last, counts in sorted(spans_of(steps), key=lambda span: span[1]):
        by_step = " ".join(f"{step}:{count}" for step, count in counts)
        drawn += draw_node(axes, node, f' data-from="{first}" data-to="{last}" data-counts="{by_step}"')
    drawn.append(f'<line id="now" y1="{TOP}" y2="{axes.height - BOTTOM}" stroke="#c0301a" stroke-dasharray="4 3"/>')
    rows = ", ".join(f'[{step.line}, {step.commits}, {axes.across(step.commits):.1f}, "{words}"]'
                     for step, words in zip(steps, told))
    return PAGE.replace("PICTURE", "\n".join(picture(axes, drawn))).replace("STEPS", f"[{rows}]")


def main():
    words = argparse.ArgumentParser(description=__doc__.split("\n\n", maxsplit=1)[0])
    words.add_argument("--growth", metavar="SCRIPT", help="makes the page of the growth of the tree of a script")
    words.add_argument("command", nargs="*", help="treeshape, or a command that prints the shape of a script")
    given = words.parse_args()
    if given.growth:
        with open(given.growth, encoding="utf-8") as script:
            sys.stdout.write(growth(script.read(), given.command or ["treeshape"]))
    else:
        print("\n".join(draw(read_shape(sys.stdin.read()))))


if __name__ == "__main__":
    main()
